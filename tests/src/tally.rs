// What turned up in the plans.

use std::collections::BTreeMap;
use std::fmt;

// The refusals that a file draws, and those of a call.
pub const OF_FILES: [u32; 10] = [1, 2, 3, 4, 5, 6, 7, 8, 9, 13];
pub const OF_CALLS: [u32; 3] = [10, 11, 12];

#[derive(Default)]
pub struct Tally {
    pub kinds: BTreeMap<&'static str, u64>,
    pub numbers: BTreeMap<u32, u64>,
    pub letters: BTreeMap<char, u64>,
    pub sets: BTreeMap<String, u64>,
    pub sizes: BTreeMap<usize, u64>,
    pub accepted: u64,
    pub placed: u64,
    pub refused: u64,
    pub ties: u64,
    pub at_first: u64,
    pub at_last: u64,
    pub starts: u64,
    pub lowest: BTreeMap<&'static str, u64>,
    pub windows: BTreeMap<&'static str, u64>,
}

// What a start in a window shows.
const WINDOWS: [&str; 10] = [
    "at its window's p",
    "beside its window's p",
    "in a later window than the first",
    "in a later window than one with a valid start",
    "at the p of the earlier of two windows",
    "as near in the earlier of two windows",
    "at the earlier of two as near in one window",
    "with its window's p behind the last start",
    "where the preferred field would give another start",
    "where the nearest p of all windows would give another start",
];

// Where the lowest charge of a plan is, and that a later tick has it, too.
const LOWEST: [&str; 4] = ["at tick 0", "in between", "at T", "again later"];

impl Tally {
    pub fn kind(&mut self, kind: &'static str) {
        *self.kinds.entry(kind).or_default() += 1;
    }

    pub fn number(&mut self, number: u32) {
        *self.numbers.entry(number).or_default() += 1;
    }

    pub fn placed(&mut self, start: i64, last: i64, tie: bool) {
        self.placed += 1;
        self.ties += tie as u64;
        self.at_first += (start == 0) as u64;
        self.at_last += (start == last) as u64;
    }

    // What a start in a window shows, in the order of the names.
    pub fn in_window(&mut self, shown: [bool; WINDOWS.len()]) {
        for (what, _) in WINDOWS.iter().zip(shown).filter(|shown| shown.1) {
            *self.windows.entry(what).or_default() += 1;
        }
    }

    pub fn refused(&mut self, letters: &str) {
        self.refused += 1;
        *self.sets.entry(letters.to_string()).or_default() += 1;
        *self.sizes.entry(letters.len()).or_default() += 1;
        for letter in letters.chars() {
            *self.letters.entry(letter).or_default() += 1;
        }
    }

    // The first tick with the lowest charge, and whether a later one has it.
    pub fn lowest(&mut self, tick: usize, horizon: usize, again: bool) {
        let place = match tick {
            0 => 0,
            _ if tick < horizon => 1,
            _ => 2,
        };
        *self.lowest.entry(LOWEST[place]).or_default() += 1;
        if again {
            *self.lowest.entry(LOWEST[3]).or_default() += 1;
        }
    }

    // What a program printed for a file: each line of a report, or the refusal.
    pub fn printed(&mut self, kind: &'static str, text: &[u8]) {
        self.kind(kind);
        let text = String::from_utf8_lossy(text);
        let lines: Vec<Vec<&str>> = text.lines().map(|line| line.split('\t').collect()).collect();
        if let [["no", number, _]] = lines.iter().map(Vec::as_slice).collect::<Vec<_>>()[..] {
            return self.number(number.parse().unwrap_or(0));
        }
        self.accepted += 1;
        for line in lines {
            match line[..] {
                [_, "refused", letters] => self.refused(letters),
                [_, "placed", _, _] => self.placed += 1,
                _ => {}
            }
        }
    }

    // What never turned up although it must.
    pub fn missing(&self) -> Vec<String> {
        let mut missing = self.missing_printed();
        for number in OF_CALLS {
            if !self.numbers.contains_key(&number) {
                missing.push(format!("refusal {number}"));
            }
        }
        for (what, count) in [("tie", self.ties), ("start 0", self.at_first), ("start T-d", self.at_last)] {
            if count == 0 {
                missing.push(what.to_string());
            }
        }
        let never = LOWEST.iter().filter(|place| !self.lowest.contains_key(*place));
        missing.extend(never.map(|place| format!("lowest charge {place}")));
        let never = WINDOWS.iter().filter(|what| !self.windows.contains_key(*what));
        missing.extend(never.map(|what| format!("a start {what}")));
        missing
    }

    // The same of what a program prints.
    pub fn missing_printed(&self) -> Vec<String> {
        let mut missing = Vec::new();
        for number in OF_FILES {
            if !self.numbers.contains_key(&number) {
                missing.push(format!("refusal {number}"));
            }
        }
        for letter in crate::conditions::LETTERS.chars() {
            if !self.letters.contains_key(&letter) {
                missing.push(format!("letter {letter}"));
            }
        }
        for size in 1..=7 {
            if !self.sizes.contains_key(&size) {
                missing.push(format!("{size} letters"));
            }
        }
        missing
    }

    // The lines of the tally that are of what a program prints.
    pub fn of_printed(&self) -> String {
        let files: BTreeMap<_, _> = self.numbers.iter().filter(|&(number, _)| OF_FILES.contains(number)).collect();
        let lines = [
            format!("  files        {}: {}", self.kinds.values().sum::<u64>(), row(&self.kinds)),
            format!("  accepted     {}", self.accepted),
            format!("  no, files    {}: {}", files.values().copied().sum::<u64>(), row(&files)),
            format!("  placed       {}", self.placed),
            format!("  refused      {}", self.refused),
            format!("  by letter    {}", row(&self.letters)),
            format!("  by size      {}", row(&self.sizes)),
            format!("  letter sets  {} different", self.sets.len()),
        ];
        lines.join("\n")
    }
}

pub fn row<K: fmt::Display, N: fmt::Display>(counts: &BTreeMap<K, N>) -> String {
    counts.iter().map(|(key, count)| format!("{key} {count}")).collect::<Vec<_>>().join(", ")
}

impl fmt::Display for Tally {
    fn fmt(&self, out: &mut fmt::Formatter) -> fmt::Result {
        let calls: BTreeMap<_, _> = self.numbers.iter().filter(|&(number, _)| OF_CALLS.contains(number)).collect();
        writeln!(out, "{}", self.of_printed())?;
        writeln!(
            out,
            "  placed where {} at start 0, {} at T-d, {} at the earlier of two equally near",
            self.at_first, self.at_last, self.ties
        )?;
        writeln!(out, "  in windows   {}", row(&self.windows))?;
        writeln!(out, "  lowest c     {}", row(&self.lowest))?;
        writeln!(out, "  no, calls    {}", row(&calls))?;
        write!(out, "  starts       {} lists of runs", self.starts)
    }
}
