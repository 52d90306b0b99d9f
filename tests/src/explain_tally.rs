// What turned up in the texts of explain.

use crate::tally::{row, Tally};
use std::collections::{BTreeMap, BTreeSet};
use std::fmt;

// The lines that have runs, without what stands before and behind these words.
const LISTS: [&str; 3] =
    ["valid starts", "starts that meet the other letters", "starts that meet all other conditions"];

#[derive(Default)]
pub struct ExplainTally {
    printed: Tally,
    // Refusals by whether the line is the first, number and field (0 where there is none).
    fields: BTreeMap<(bool, u32, usize), u64>,
    // Lists of runs by which of the three they are and how many runs they have.
    lists: BTreeMap<(usize, usize), u64>,
    bytes: BTreeSet<u8>,
    longest: usize,
}

impl ExplainTally {
    // The text for a file, line by line.
    pub fn explained(&mut self, kind: &'static str, text: &[u8]) {
        self.printed.kind(kind);
        self.longest = self.longest.max(text.len());
        let text = String::from_utf8_lossy(text);
        match text.strip_prefix("refused ") {
            Some(refused) => self.refused(refused),
            None => self.accepted(&text),
        }
    }

    fn refused(&mut self, text: &str) {
        let number = text.split(' ').next().and_then(|number| number.parse().ok()).unwrap_or(0);
        self.printed.number(number);
        let (mut first, mut field) = (false, 0);
        for line in text.lines().skip(1) {
            let (name, behind) = line.split_once(": ").unwrap_or_default();
            match name.split_once(' ') {
                Some(("line", line)) => {
                    first = line == "1";
                    self.bytes.extend(bytes_of(behind));
                }
                Some(("field", named)) => field = named.parse().unwrap_or(0),
                _ => {}
            }
        }
        *self.fields.entry((first, number, field)).or_default() += 1;
    }

    fn accepted(&mut self, text: &str) {
        self.printed.accepted += 1;
        for line in text.lines().skip(1) {
            let (name, behind) = line.split_once(": ").unwrap_or_default();
            if let Some(list) = LISTS.iter().position(|list| *list == name.trim_start()) {
                let runs = if behind == "none" { 0 } else { behind.split(' ').count() };
                *self.lists.entry((list, runs)).or_default() += 1;
            } else if let Some(letters) = behind.strip_prefix("refused ") {
                self.printed.refused(letters);
            } else if behind.starts_with("placed ") {
                self.printed.placed += 1;
            }
        }
    }

    // What never turned up although it must: beside what the planner must print, each number with each field that may
    // draw it, every byte, and lists of none, one and several runs. Valid starts and those that meet the other letters
    // are never none.
    pub fn missing(&self) -> Vec<String> {
        let mut missing = self.printed.missing_printed();
        for (first, number, field) in drawn() {
            if !self.fields.contains_key(&(first, number, field)) {
                let line = if first { "line 1" } else { "another line" };
                missing.push(format!("refusal {number} with field {field} of {line}"));
            }
        }
        for byte in (0..=255).filter(|byte| !self.bytes.contains(byte)) {
            missing.push(format!("byte {byte}"));
        }
        for (list, name) in LISTS.iter().enumerate() {
            for (runs, said) in SIZES.iter().enumerate().skip((list < 2) as usize) {
                if self.lists_of(list, runs) == 0 {
                    missing.push(format!("{name}: {said}"));
                }
            }
        }
        for (what, count) in [("placed", self.printed.placed), ("accepted", self.printed.accepted)] {
            if count == 0 {
                missing.push(what.to_string());
            }
        }
        missing
    }

    // Lists of none, one or several runs.
    fn lists_of(&self, list: usize, runs: usize) -> u64 {
        self.lists.iter().filter(|(key, _)| key.0 == list && key.1.min(2) == runs).map(|(_, count)| count).sum()
    }

    // By field of the first line or of the others: how often each draws a refusal.
    fn by_field(&self, first: bool) -> BTreeMap<usize, u64> {
        let mut counts = BTreeMap::new();
        for (key, count) in self.fields.iter().filter(|(key, _)| key.0 == first && key.2 > 0) {
            *counts.entry(key.2).or_default() += count;
        }
        counts
    }
}

const SIZES: [&str; 3] = ["none", "one", "several"];

// Each number with each field that may draw it, by whether the line is the first; field 0 is none.
fn drawn() -> Vec<(bool, u32, usize)> {
    let mut drawn = vec![(true, 2, 0), (false, 2, 0), (false, 5, 0), (false, 6, 2), (false, 7, 7)];
    for number in [3, 4] {
        drawn.extend((2..=12).map(|field| (true, number, field)));
        drawn.extend((2..=15).map(|field| (false, number, field)));
    }
    drawn.extend((6..=10).map(|field| (false, 8, field)));
    drawn.push((false, 13, 6));
    drawn
}

// The bytes that a text of bytes stands for.
pub fn bytes_of(text: &str) -> Vec<u8> {
    let mut bytes = Vec::new();
    let mut left = text.bytes();
    while let Some(byte) = left.next() {
        bytes.push(match byte {
            b'\\' => match left.next() {
                Some(b't') => b'\t',
                Some(b'n') => b'\n',
                Some(b'r') => b'\r',
                Some(b'x') => 16 * digit(left.next()) + digit(left.next()),
                _ => b'\\',
            },
            _ => byte,
        });
    }
    bytes
}

// A hexadecimal digit in lower case.
fn digit(byte: Option<u8>) -> u8 {
    b"0123456789abcdef".iter().position(|&digit| Some(digit) == byte).unwrap_or(0) as u8
}

impl fmt::Display for ExplainTally {
    fn fmt(&self, out: &mut fmt::Formatter) -> fmt::Result {
        writeln!(out, "{}", self.printed.of_printed())?;
        writeln!(out, "  field        of line 1: {}", row(&self.by_field(true)))?;
        writeln!(out, "               of another line: {}", row(&self.by_field(false)))?;
        writeln!(out, "  bytes shown  {} different", self.bytes.len())?;
        for (list, name) in LISTS.iter().enumerate() {
            let counts = SIZES.iter().enumerate().map(|(runs, said)| format!("{said} {}", self.lists_of(list, runs)));
            let most = self.lists.keys().filter(|key| key.0 == list).map(|key| key.1).max().unwrap_or(0);
            writeln!(out, "  {name}: {}, at most {most}", counts.collect::<Vec<_>>().join(", "))?;
        }
        write!(out, "  longest text {} bytes", self.longest)
    }
}
