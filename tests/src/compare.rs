// Another program against the scheduler: it is run with a plan on its standard input.

use crate::calls::output;
use crate::demand::ensure;
use crate::explain::explain;
use crate::generator::Generated;
use std::io::{Read, Write};
use std::path::Path;
use std::process::{Command, ExitStatus, Stdio};
use std::sync::mpsc::{channel, Receiver};
use std::thread;
use std::time::Duration;

// A program that has not ended by then is taken not to end.
const LONGEST: Duration = Duration::from_secs(300);

// A program with its name and its file, what the scheduler prints in its place, and its status with a refused file.
pub struct Program<'a> {
    pub name: &'static str,
    pub path: &'a str,
    own: fn(&[u8]) -> Vec<u8>,
    pub refused: i32,
}

impl Program<'_> {
    // A planner ends with status 0 with every file.
    pub fn planner(path: &str) -> Program<'_> {
        Program { name: "planner", path, own: output, refused: 0 }
    }

    // Explain ends with 1 with every refused file; or with 0, where its status is left to the command that runs it. The
    // empty file shows which.
    pub fn explain(path: &str) -> Result<Program<'_>, String> {
        let program = Program { name: "explain", path, own: explain, refused: 0 };
        let ended = end_in_pieces(&program, b"", 1, Duration::ZERO)?;
        let refused = ended.status.code().filter(|status| [0, 1].contains(status));
        let refused = refused.ok_or(format!("with the empty file: ended by {}", ended.status))?;
        Ok(Program { refused, ..program })
    }

    // The status with which it must end, by what it must print.
    fn status(&self, own: &[u8]) -> i32 {
        if own.starts_with(b"refused ") || own.starts_with(b"no\t") {
            self.refused
        } else {
            0
        }
    }
}

// What a program prints for a file, if that is what the scheduler prints in its place. It ends by itself and says
// nothing on standard error.
pub fn agreed(program: &Program, bytes: &[u8]) -> Result<Vec<u8>, String> {
    agreed_in_pieces(program, bytes, bytes.len().max(1), Duration::ZERO)
}

// The same, the file written in pieces with a pause behind each.
pub fn agreed_in_pieces(program: &Program, bytes: &[u8], piece: usize, pause: Duration) -> Result<Vec<u8>, String> {
    let own = (program.own)(bytes);
    let ended = end_in_pieces(program, bytes, piece, pause)?;
    ensure(ended.said.is_empty(), || {
        format!("says on standard error: {}", String::from_utf8_lossy(&ended.said).trim_end())
    })?;
    ensure(ended.status.code() == Some(program.status(&own)), || format!("ended by {}", ended.status))?;
    ensure(ended.output == own, || difference((program.name, &ended.output), ("scheduler", &own)))?;
    Ok(own)
}

fn end_in_pieces(program: &Program, bytes: &[u8], piece: usize, pause: Duration) -> Result<Ended, String> {
    let bytes = bytes.to_vec();
    end_of(Command::new(program.path).stdin(Stdio::piped()), move |mut input| {
        for piece in bytes.chunks(piece) {
            // A program may leave off reading when it has seen enough.
            if input.write_all(piece).is_err() {
                break;
            }
            thread::sleep(pause);
        }
    })
}

// What a program wrote, and how it ended.
pub struct Ended {
    pub output: Vec<u8>,
    pub said: Vec<u8>,
    pub status: ExitStatus,
}

// Runs a program to its end; `write` gets its standard input, if that is a pipe.
pub fn end_of(
    command: &mut Command,
    write: impl FnOnce(std::process::ChildStdin) + Send + 'static,
) -> Result<Ended, String> {
    let mut child = command
        .stdout(Stdio::piped())
        .stderr(Stdio::piped())
        .spawn()
        .map_err(|error| format!("the program doesn't start: {error}"))?;
    let writer = child.stdin.take().map(|input| thread::spawn(move || write(input)));
    let output = collect(child.stdout.take().unwrap());
    let said = collect(child.stderr.take().unwrap());
    let Ok(output) = output.recv_timeout(LONGEST) else {
        drop(child.kill());
        drop(child.wait());
        return Err(format!("no end within {} seconds", LONGEST.as_secs()));
    };
    let status = child.wait().map_err(|error| error.to_string())?;
    if let Some(writer) = writer {
        drop(writer.join());
    }
    Ok(Ended { output, said: said.recv().unwrap_or_default(), status })
}

// All that is written to a pipe, sent when it is closed.
fn collect(mut from: impl Read + Send + 'static) -> Receiver<Vec<u8>> {
    let (send, receive) = channel();
    thread::spawn(move || {
        let mut text = Vec::new();
        if from.read_to_end(&mut text).is_ok() {
            drop(send.send(text));
        }
    });
    receive
}

// The first line in which two outputs, each with its name, differ.
pub fn difference(one: (&str, &[u8]), other: (&str, &[u8])) -> String {
    let lines = |text: &[u8]| -> Vec<String> {
        text.split_inclusive(|&b| b == b'\n').map(|line| String::from_utf8_lossy(line).into_owned()).collect()
    };
    let (first, second) = (lines(one.1), lines(other.1));
    let at = (0..first.len().max(second.len())).find(|&i| first.get(i) != second.get(i)).unwrap_or(0);
    let line = |lines: &[String]| lines.get(at).map_or("".to_string(), String::clone);
    let same = line(&first).chars().zip(line(&second).chars()).take_while(|(one, other)| one == other).count();
    let said = |lines: &[String]| lines.get(at).map_or("nothing".to_string(), |line| around(line, same));
    format!("line {}: {} {}, {} {}", at + 1, one.0, said(&first), other.0, said(&second))
}

// A line, or of a long one what stands around a place.
fn around(line: &str, place: usize) -> String {
    if line.chars().count() <= LONG {
        return format!("{line:?}");
    }
    let from = place.saturating_sub(LONG / 4);
    format!("{:?} from {from} on", line.chars().skip(from).take(LONG).collect::<String>())
}

const LONG: usize = 400;

// Saves a file that shows a difference.
pub fn found(file: &Generated, folder: &Path, said: String) -> Result<(), String> {
    let name: String = file.name.chars().map(|c| if c.is_ascii_alphanumeric() { c } else { '-' }).collect();
    let path = folder.join(name + ".plan");
    std::fs::write(&path, &file.bytes).map_err(|error| error.to_string())?;
    Err(format!("{} ({}): {said}\nplan saved in {}", file.name, file.kind, path.display()))
}
