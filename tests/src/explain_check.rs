// The check of explain's text: it is read back, line by line, and held to the second formulation's faults and tables.

use crate::demand::{ensure, in_common, read_report, Line, LETTERS};
use crate::explain::explain;
use crate::explain_tally::bytes_of;
use crate::faults::Fault;

// What stands behind the front of a line; of words, that there are some.
enum Behind {
    Words,
    Text(String),
    Bytes(Vec<u8>),
    Starts(Vec<i64>),
}

use Behind::{Bytes, Starts, Text, Words};

// The text of a refused file: its number, line, bytes, fields and the field that has the fault.
pub fn check_refused(bytes: &[u8], fault: &Fault) -> Result<(), String> {
    let (number, line) = (fault.number, fault.line);
    let mut lines = vec![(format!("refused {number} at line {line}: "), Words)];
    if line > 0 {
        // A line with its LF, where it has one; only the last one may lack it.
        let rows: Vec<&[u8]> = bytes.split(|&b| b == b'\n').collect();
        let mut whole = rows[line - 1].to_vec();
        whole.extend((line < rows.len()).then_some(b'\n'));
        let tabs = whole.iter().rev().skip(1).filter(|&&b| b == b'\t').count();
        lines.push((format!("line {line}: "), Bytes(whole)));
        lines.push(("fields: ".to_string(), Text((tabs + 1).to_string())));
        let field = match number {
            6 => Some(1),
            7 => Some(6),
            _ => fault.field(),
        };
        if let Some(field) = field {
            let own = rows[line - 1].split(|&b| b == b'\t').nth(field).unwrap();
            lines.push((format!("field {}: ", field + 1), Bytes(own.to_vec())));
        }
        lines.push(("must be: ".to_string(), Words));
    }
    check_lines(bytes, lines)
}

// The text of an accepted plan, by its report and the tables of each place.
pub fn check_accepted(bytes: &[u8], report: &[u8], tables: &[Vec<Vec<bool>>]) -> Result<(), String> {
    let (outcomes, _) = read_report(report).ok_or("the report has another form")?;
    let mut lines = vec![("accepted, activities: ".to_string(), Text(outcomes.len().to_string()))];
    for (place, (id, line)) in outcomes.iter().enumerate() {
        let front = format!("place {place}, activity {id}: ");
        let starts = |front: &str, chosen: &dyn Fn(usize) -> bool| {
            (front.to_string(), Starts(in_common(&tables[place], chosen)))
        };
        match line {
            Line::Placed(start, end) => {
                lines.push((front, Text(format!("placed from {start} to {end}"))));
                lines.push(starts("  valid starts: ", &|_| true));
            }
            Line::Refused(letters) => {
                lines.push((front, Text(format!("refused {letters}"))));
                for letter in letters.chars() {
                    let own = |c: usize| LETTERS[c..].starts_with(letter);
                    let named = |c: usize| letters.contains(&LETTERS[c..=c]);
                    lines.push((format!("  {letter}: "), Words));
                    lines.push(starts("    starts that meet the other letters: ", &|c| named(c) && !own(c)));
                    lines.push(starts("    starts that meet all other conditions: ", &|c| !own(c)));
                }
            }
        }
    }
    check_lines(bytes, lines)
}

// The text for a file has these lines, each with its front and what is behind it.
fn check_lines(bytes: &[u8], lines: Vec<(String, Behind)>) -> Result<(), String> {
    let text = String::from_utf8(explain(bytes)).map_err(|error| error.to_string())?;
    let text: Vec<&str> = text.strip_suffix('\n').ok_or("the text's last line lacks its LF")?.split('\n').collect();
    ensure(text.len() == lines.len(), || format!("the text has {} lines, not {}", text.len(), lines.len()))?;
    for (line, (front, expected)) in text.iter().zip(lines) {
        let holds = line.strip_prefix(&front).is_some_and(|behind| match &expected {
            Words => !behind.trim().is_empty(),
            Text(text) => behind == text,
            Bytes(bytes) => bytes_of(behind) == *bytes,
            Starts(starts) => starts_of(behind).as_ref() == Some(starts),
        });
        ensure(holds, || format!("the text has another line than {front:?}: {line:?}"))?;
    }
    Ok(())
}

// The starts of rising runs with a gap between each two.
fn starts_of(runs: &str) -> Option<Vec<i64>> {
    let mut starts: Vec<i64> = Vec::new();
    for run in runs.split(' ').filter(|_| runs != "none") {
        let (first, last) = run.split_once('-')?;
        let (first, last) = (first.parse().ok()?, last.parse().ok()?);
        if first > last || starts.last().is_some_and(|before| before + 1 >= first) {
            return None;
        }
        starts.extend(first..=last);
    }
    Some(starts)
}
