// What turned up in the calls.

use crate::asked::OVER;
use crate::lent::GUARD;
use crate::trial::{Asked, Call};
use differential::calls::letters;
use differential::conditions::LETTERS;
use std::collections::{BTreeMap, BTreeSet};
use std::fmt;

// What came of one of the three calls.
#[derive(Default)]
struct Kind {
    answers: u64,
    refusals: BTreeMap<u32, u64>,
    // Slices by their length beside the answer's.
    slices: BTreeMap<&'static str, u64>,
    // The greatest number answered.
    most: u64,
}

#[derive(Default)]
pub struct Tally {
    files: BTreeMap<&'static str, u64>,
    outcome: Kind,
    report: Kind,
    starts: Kind,
    placed: u64,
    // The letters of refused activities.
    refused: BTreeMap<String, u64>,
    // Places asked beyond the count, sets asked up to 511, and those over it.
    beyond: BTreeSet<usize>,
    sets: BTreeSet<u32>,
    over: BTreeSet<u32>,
    // Bytes that a call must leave: beside the slices, and in them.
    beside: u64,
    within: u64,
}

// The lengths of slices, beside that of the answer.
const LENGTHS: [&str; 6] = ["none", "short", "one short", "exact", "one more", "longer"];

impl Kind {
    fn add(&mut self, asked: Asked) {
        match asked.expected() {
            Ok(answer) => {
                self.answers += 1;
                self.most = self.most.max(answer.number);
            }
            Err(refusal) => *self.refusals.entry(refusal.number).or_default() += 1,
        }
    }

    fn slice(&mut self, room: usize, asked: Asked) {
        if let Ok(answer) = asked.answer {
            *self.slices.entry(length(room, answer.number as usize)).or_default() += 1;
        }
    }

    fn calls(&self) -> u64 {
        self.answers + self.refusals.values().sum::<u64>()
    }

    fn lacks(&self, name: &str, numbers: impl Iterator<Item = u32>) -> Vec<String> {
        let answer = (self.answers == 0).then(|| format!("{name}: an answer"));
        let refusals = numbers.filter(|number| !self.refusals.contains_key(number));
        answer.into_iter().chain(refusals.map(|number| format!("{name}: refusal {number}"))).collect()
    }

    fn lacks_slices(&self, name: &str) -> Vec<String> {
        let lengths = LENGTHS.iter().filter(|length| !self.slices.contains_key(*length));
        lengths.map(|length| format!("{name}: a slice {length}")).collect()
    }
}

// How long a slice for an answer of `needed` items is.
fn length(room: usize, needed: usize) -> &'static str {
    match room {
        _ if room == needed => "exact",
        0 => "none",
        _ if room + 1 == needed => "one short",
        _ if room < needed => "short",
        _ if room == needed + 1 => "one more",
        _ => "longer",
    }
}

impl Tally {
    pub fn file(&mut self, kind: &'static str) {
        *self.files.entry(kind).or_default() += 1;
    }

    // A call that was as expected.
    pub fn call(&mut self, asked: Asked) {
        let written = asked.expected().map_or(0, |answer| answer.written.len());
        self.beside += 2 * GUARD as u64;
        self.within += (asked.call.lent() - written) as u64;
        match asked.call {
            Call::Outcome { place } => {
                self.outcome.add(asked);
                self.outcome_of(asked);
                self.place(place, asked);
            }
            Call::Report { room } => {
                self.report.add(asked);
                self.report.slice(room, asked);
            }
            Call::Starts { place, set, room } => {
                self.starts.add(asked);
                self.starts.slice(room, asked);
                self.place(place, asked);
                self.set(set);
            }
        }
    }

    fn outcome_of(&mut self, asked: Asked) {
        match asked.expected().map(|answer| answer.number) {
            Ok(set @ 0..=511) => *self.refused.entry(letters(set as u32)).or_default() += 1,
            Ok(_) => self.placed += 1,
            Err(_) => {}
        }
    }

    fn place(&mut self, place: usize, asked: Asked) {
        if asked.expected().is_err_and(|refusal| refusal.number == 11) {
            self.beyond.insert(place);
        }
    }

    fn set(&mut self, set: u32) {
        if set > 511 {
            self.over.insert(set);
        } else {
            self.sets.insert(set);
        }
    }

    pub fn calls(&self) -> u64 {
        self.outcome.calls() + self.report.calls() + self.starts.calls()
    }

    // What never turned up although it must.
    pub fn missing(&self) -> Vec<String> {
        let mut missing = self.outcome.lacks("outcome", (1..=9).chain([11, 13]));
        missing.extend(self.report.lacks("report", (1..=10).chain([13])));
        missing.extend(self.starts.lacks("starts", 1..=13));
        missing.extend(self.report.lacks_slices("report"));
        missing.extend(self.starts.lacks_slices("starts"));
        let wanted = [
            ("a placed activity", self.placed > 0),
            ("a report of 1,518 bytes", self.report.most >= 1_518),
            ("a list of 98 runs", self.starts.most >= 98),
        ];
        missing.extend(wanted.iter().filter(|(_, seen)| !seen).map(|(what, _)| what.to_string()));
        let letters = LETTERS.chars().filter(|&letter| !self.refused.keys().any(|set| set.contains(letter)));
        missing.extend(letters.map(|letter| format!("letter {letter}")));
        missing.extend((0..512).filter(|set| !self.sets.contains(set)).map(|set| format!("set {set}")));
        missing.extend(OVER.iter().filter(|set| !self.over.contains(set)).map(|set| format!("set {set}")));
        missing
    }
}

fn row<K: fmt::Display, N: fmt::Display>(counts: &BTreeMap<K, N>) -> String {
    counts.iter().map(|(key, count)| format!("{key} {count}")).collect::<Vec<_>>().join(", ")
}

impl fmt::Display for Tally {
    fn fmt(&self, out: &mut fmt::Formatter) -> fmt::Result {
        writeln!(out, "  files       {}: {}", self.files.values().sum::<u64>(), row(&self.files))?;
        writeln!(out, "  calls       {}", self.calls())?;
        for (name, kind) in [("outcome", &self.outcome), ("report", &self.report), ("starts", &self.starts)] {
            writeln!(out, "  {name:<11} {}: {} answers; no {}", kind.calls(), kind.answers, row(&kind.refusals))?;
        }
        writeln!(out, "  slices      of report: {}", row(&self.report.slices))?;
        writeln!(out, "              of starts: {}", row(&self.starts.slices))?;
        writeln!(out, "  unwritten   {} bytes in slices, {} beside slices", self.within, self.beside)?;
        writeln!(
            out,
            "  outcomes    {} placed, {} refused with {} sets of letters",
            self.placed,
            self.refused.values().sum::<u64>(),
            self.refused.len()
        )?;
        writeln!(
            out,
            "  asked       {} sets up to 511, {} over 511, {} places beyond a count",
            self.sets.len(),
            self.over.len(),
            self.beyond.len()
        )?;
        write!(out, "  longest     report of {} bytes, list of {} runs", self.report.most, self.starts.most)
    }
}
