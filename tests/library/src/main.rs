// The planner's library against the unrelated scheduler, through its C functions.

mod asked;
mod lent;
mod raw;
mod tally;
mod trial;

use differential::commands::{number, status};
use differential::compare::found;
use differential::generator::{fixed, generate, Generated};
use differential::many_runs::{many_runs, stored, SHORT};
use differential::random::Random;
use std::path::Path;
use std::process::ExitCode;
use tally::Tally;
use trial::Trial;

const USE: &str =
    "library compare FIRST COUNT FOLDER  the library against the scheduler, on fixed files and COUNT seeds
library again NAME FOLDER           the same on one file, as `seed 7`, each call said before it is made
A file that shows a difference is saved in FOLDER. While it is called on, a file is FOLDER/at-work.plan, and its name
stands in FOLDER/at-work.";

// Seeds of which everything in the tally must have turned up.
const MANY: u64 = 300;

fn main() -> ExitCode {
    let words: Vec<String> = std::env::args().skip(1).collect();
    let words: Vec<&str> = words.iter().map(String::as_str).collect();
    let done = match words[..] {
        ["compare", first, count, folder] => compare(number(first), number(count), Path::new(folder)),
        ["again", name, folder] => again(name, Path::new(folder)),
        _ => Err(USE.to_string()),
    };
    status(done)
}

// The fixed files and those of the seeds; with many seeds, everything must have turned up.
fn compare(first: u64, count: u64, folder: &Path) -> Result<(), String> {
    let mut tally = Tally::default();
    for file in not_from_seeds().chain((first..first + count).map(generate)) {
        at_work(&file, folder).map_err(|error| error.to_string())?;
        if let Err(said) = calls_on(&file, &mut tally, false) {
            return found(&file, folder, said);
        }
    }
    println!("{tally}");
    let missing = tally.missing();
    if !missing.is_empty() && (count >= MANY || tally.calls() == 0) {
        return Err(format!("never turned up: {}", missing.join(", ")));
    }
    Ok(())
}

// Leaves word of a file, for a library that dies or doesn't end.
fn at_work(file: &Generated, folder: &Path) -> std::io::Result<()> {
    std::fs::write(folder.join("at-work"), &file.name)?;
    std::fs::write(folder.join("at-work.plan"), &file.bytes)
}

// The plans with many runs, the stored ones, the cases worked by hand and the sweep of faults.
fn not_from_seeds() -> impl Iterator<Item = Generated> {
    SHORT.into_iter().map(many_runs).chain(stored()).chain(fixed())
}

// The calls on the file of a name.
fn again(name: &str, folder: &Path) -> Result<(), String> {
    let seed = name.strip_prefix("seed ").and_then(|seed| seed.parse().ok());
    let file = seed.map(generate).or_else(|| not_from_seeds().find(|file| file.name == name));
    let file = file.ok_or(format!("no file {name}"))?;
    calls_on(&file, &mut Tally::default(), true).or_else(|said| found(&file, folder, said))
}

// The calls made on a file, each compared with the scheduler's answer; if `aloud`, each is said first.
fn calls_on(file: &Generated, tally: &mut Tally, aloud: bool) -> Result<(), String> {
    let random = &mut Random::new(file.bytes.iter().fold(0, |seed, &byte| seed * 31 % 1_000_000_007 + byte as u64));
    let mut trial = Trial::new(&file.bytes, random.below(16));
    let answers = asked::answers(file, random);
    tally.file(file.kind);
    for asked in asked::calls(&answers, random) {
        if aloud {
            println!("  {}", asked.call);
        }
        trial.make(asked)?;
        tally.call(asked);
    }
    Ok(())
}
