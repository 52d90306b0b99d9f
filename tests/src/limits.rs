// A program at the limits of its input: the longest file, one too long, none, one in pieces, and input that can't be
// read.

use crate::cases::{tabs, EXAMPLE};
use crate::compare::{agreed, agreed_in_pieces, end_of, Program};
use crate::demand::ensure;
use std::fmt::Display;
use std::fs::File;
use std::path::Path;
use std::process::{Command, Stdio};
use std::time::Duration;

// What was tried and what came of it, or the first fault.
pub fn limits(program: &Program, folder: &Path) -> Result<Vec<String>, String> {
    let mut tried = Vec::new();
    for length in [0, 59_999, 60_000, 60_001, 100_000, 1_000_000] {
        tried.push(named(format!("{length} bytes"), agreed(program, &of_length(length)).map(one_line))?);
    }
    for length in [59_999, 60_000, 60_001] {
        let (whole, field) = (agreed(program, &vec![255; length]), agreed(program, &of_bytes_255(length)));
        tried.push(named(format!("{length} bytes 255"), whole.map(one_line))?);
        tried.push(named(format!("{length} bytes, those of a field 255"), field.map(one_line))?);
    }
    let plan = tabs(EXAMPLE);
    for (file, piece) in [(&plan, 1), (&plan, 7), (&of_length(60_000), 997), (&of_length(60_001), 997)] {
        let text = agreed_in_pieces(program, file, piece, Duration::from_micros(300));
        tried.push(named(format!("{} bytes in pieces of {piece}", file.len()), text.map(one_line))?);
    }
    let folder = File::open(folder).map_err(|error| error.to_string())?;
    tried.push(named("standard input a folder", unread(program, Command::new(program.path).stdin(folder)))?);
    let closed = ["-c", "exec \"$0\" <&-", program.path];
    tried.push(named("standard input closed", unread(program, Command::new("sh").args(closed).stdin(Stdio::null())))?);
    Ok(tried)
}

// What was tried, before what came of it.
fn named(what: impl Display, result: Result<String, String>) -> Result<String, String> {
    result.map(|said| format!("{what}: {said}")).map_err(|said| format!("{what}: {said}"))
}

// The line of an activity before its units, and behind them.
const BEFORE: &str = "plan 20 840 100 20 40 1 0 1 10 50 1\nact 7 1 5 10 - - ";
const BEHIND: &str = " - - 1 4 3 10 1\n";

// A file of this length whose one activity has far too many units, which is refusal 8 only where all of it is read.
fn of_length(length: usize) -> Vec<u8> {
    let Some(room) = length.checked_sub(BEFORE.len() + BEHIND.len()) else {
        return Vec::new();
    };
    let units = "1,".repeat(room / 2 - 1) + if room % 2 == 0 { "11" } else { "1,1" };
    [tabs(BEFORE), units.into_bytes(), tabs(BEHIND)].concat()
}

// The same with bytes 255 in place of its units, which is refusal 3.
fn of_bytes_255(length: usize) -> Vec<u8> {
    [tabs(BEFORE), vec![255; length - BEFORE.len() - BEHIND.len()], tabs(BEHIND)].concat()
}

// A text as one line, as far as it goes.
fn one_line(text: Vec<u8>) -> String {
    let line = String::from_utf8_lossy(&text).trim_end().replace('\t', " ").replace('\n', ", ");
    match line.char_indices().nth(MOST) {
        None => line,
        Some((end, _)) => format!("{} and more, {} bytes in all", &line[..end], text.len()),
    }
}

const MOST: usize = 100;

// What a program says that can't read its input: one line on standard error, and nothing on standard output. One that
// ends with 1 with a refused file ends with 2 here.
fn unread(program: &Program, command: &mut Command) -> Result<String, String> {
    let ended = end_of(command, drop)?;
    let status = ended.status.code();
    ensure(status.is_some() && (program.refused == 0 || status == Some(2)), || format!("ended by {}", ended.status))?;
    ensure(ended.output.is_empty(), || "prints something that it can't have read".to_string())?;
    let said = String::from_utf8_lossy(&ended.said).into_owned();
    ensure(said.ends_with('\n') && said.lines().count() == 1, || format!("says {said:?}, not one line"))?;
    Ok(said.trim_end().to_string())
}
