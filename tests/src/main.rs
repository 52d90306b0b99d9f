// The commands of `tests/run`.

use differential::calls::output;
use differential::check::check;
use differential::commands::{number, status};
use differential::compare::{agreed, difference, found, Program};
use differential::corpus;
use differential::explain::explain;
use differential::explain_files::explain_files;
use differential::explain_tally::ExplainTally;
use differential::full::{full, KINDS};
use differential::generator::{fixed, generate, Generated};
use differential::limits::limits;
use differential::readings::readings;
use differential::tally::Tally;
use std::io::{Read, Write};
use std::panic::{catch_unwind, AssertUnwindSafe};
use std::path::Path;
use std::process::ExitCode;

const USE: &str = "differential check FIRST COUNT FOLDER            the scheduler's own check on COUNT seeds
differential compare PLANNER FIRST COUNT FOLDER  a planner against the scheduler
differential limits PLANNER FOLDER               a planner at the limits of its input
differential compare explain EXPLAIN FIRST COUNT FOLDER
                                                 a program with explain's text against the scheduler
differential limits explain EXPLAIN FOLDER       such a program at the limits of its input
differential stored CORPUS FOLDER                the stored corpus: its answers and the check of its plans
differential corpus CORPUS                       write the corpus anew
differential answers                             answers to a corpus stream on standard input
differential output                              what the program prints for a plan on standard input
differential explain                             explain's text for a plan on standard input
differential readings                            what is read of a stored set of files on standard input
differential full                                the kinds of full-size plans
differential full KIND                           the full-size plan of a kind
differential plan SEED                           the file made from a seed
A file that shows a difference is saved in FOLDER.";

fn main() -> ExitCode {
    let words: Vec<String> = std::env::args().skip(1).collect();
    let words: Vec<&str> = words.iter().map(String::as_str).collect();
    let done = match words[..] {
        ["check", first, count, folder] => check_seeds(seeds(first, count), Path::new(folder)),
        ["compare", planner, first, count, folder] => compare_planner(planner, seeds(first, count), Path::new(folder)),
        ["limits", planner, folder] => check_limits(&Program::planner(planner), Path::new(folder)),
        ["compare", "explain", program, first, count, folder] => {
            compare_explain(program, seeds(first, count), Path::new(folder))
        }
        ["limits", "explain", program, folder] => {
            Program::explain(program).and_then(|program| check_limits(&program, Path::new(folder)))
        }
        ["stored", corpus, folder] => check_corpus(Path::new(corpus), Path::new(folder)),
        ["corpus", folder] => write_corpus(Path::new(folder)),
        ["answers"] => print(corpus::answers(&input()).ok_or("the stream is malformed".to_string())),
        ["readings"] => print(readings(&input()).ok_or("the set is malformed".to_string())),
        ["output"] => print(Ok(output(&input()))),
        ["explain"] => print(Ok(explain(&input()))),
        ["full"] => print(Ok(KINDS.iter().map(|kind| format!("{}\t{}\n", kind.0, kind.1)).collect::<String>().into())),
        ["full", kind] => print(full(kind).ok_or(format!("no kind {kind}"))),
        ["plan", seed] => print(Ok(generate(number(seed)).bytes)),
        _ => Err(USE.to_string()),
    };
    status(done)
}

fn seeds(first: &str, count: &str) -> std::ops::Range<u64> {
    number(first)..number(first) + number(count)
}

fn input() -> Vec<u8> {
    let mut bytes = Vec::new();
    std::io::stdin().read_to_end(&mut bytes).expect("standard input");
    bytes
}

fn print(bytes: Result<Vec<u8>, String>) -> Result<(), String> {
    std::io::stdout().write_all(&bytes?).map_err(|error| error.to_string())
}

// Seeds of which everything in the tally must have turned up.
const MANY: u64 = 2_000;

// The files that aren't made from a seed have a tally of their own, so that the seeds must show everything themselves.
fn check_seeds(seeds: std::ops::Range<u64>, folder: &Path) -> Result<(), String> {
    let many = seeds.end - seeds.start >= MANY;
    println!("files that aren't made from a seed");
    check_files(explain_files().into_iter(), false, folder)?;
    println!("seeds from {} on", seeds.start);
    check_files(seeds.map(generate), many, folder)
}

// The check of each file and the tally; with `all`, everything in it must have turned up.
fn check_files(files: impl Iterator<Item = Generated>, all: bool, folder: &Path) -> Result<(), String> {
    let mut tally = Tally::default();
    for file in files {
        let checked = catch_unwind(AssertUnwindSafe(|| check(&file, &mut tally)));
        if let Err(said) = checked.unwrap_or(Err("the scheduler panicked".to_string())) {
            return found(&file, folder, said);
        }
    }
    println!("{tally}");
    all_turned_up(all, tally.missing())
}

// Of many files, nothing may be missing.
fn all_turned_up(many: bool, missing: Vec<String>) -> Result<(), String> {
    if many && !missing.is_empty() {
        return Err(format!("never turned up: {}", missing.join(", ")));
    }
    Ok(())
}

// The stored corpus: the scheduler's answers are those stored, and its plans pass the check.
fn check_corpus(corpus: &Path, folder: &Path) -> Result<(), String> {
    let file = |name| std::fs::read(corpus.join(name)).map_err(|error| format!("corpus {name}: {error}"));
    let (plans, expected) = (file("stdin")?, file("stdout")?);
    let answers = corpus::answers(&plans).ok_or("the stream is malformed")?;
    if answers != expected {
        return Err(format!("answers to the corpus, {}", difference(("stored", &expected), ("scheduler", &answers))));
    }
    check_files(corpus::stored(&plans).unwrap().into_iter(), true, folder)
}

// A planner against the scheduler, and the tally of what both printed.
fn compare_planner(planner: &str, seeds: std::ops::Range<u64>, folder: &Path) -> Result<(), String> {
    let many = seeds.end - seeds.start >= MANY;
    let mut tally = Tally::default();
    let files = fixed().into_iter().chain(seeds.map(generate));
    compare(&Program::planner(planner), files, folder, |kind, text| tally.printed(kind, text))?;
    println!("{}", tally.of_printed());
    all_turned_up(many, tally.missing_printed())
}

// The same of explain.
fn compare_explain(program: &str, seeds: std::ops::Range<u64>, folder: &Path) -> Result<(), String> {
    let many = seeds.end - seeds.start >= MANY;
    let mut tally = ExplainTally::default();
    let files = explain_files().into_iter().chain(seeds.map(generate));
    let program = Program::explain(program)?;
    compare(&program, files, folder, |kind, text| tally.explained(kind, text))?;
    println!("{tally}\n  status       0 with an accepted plan, {} with a refused file", program.refused);
    all_turned_up(many, tally.missing())
}

// A program against the scheduler on each file; `printed` gets what both printed, with the file's kind.
fn compare(
    program: &Program,
    files: impl Iterator<Item = Generated>,
    folder: &Path,
    mut printed: impl FnMut(&'static str, &[u8]),
) -> Result<(), String> {
    for file in files {
        match agreed(program, &file.bytes) {
            Ok(text) => printed(file.kind, &text),
            Err(said) => return found(&file, folder, said),
        }
    }
    Ok(())
}

// A program at the limits of its input.
fn check_limits(program: &Program, folder: &Path) -> Result<(), String> {
    for tried in limits(program, folder)? {
        println!("  {tried}");
    }
    Ok(())
}

fn write_corpus(folder: &Path) -> Result<(), String> {
    let corpus = corpus::write();
    for (name, bytes) in [("stdin", corpus.plans), ("stdout", corpus.expected), ("index", corpus.index.into_bytes())] {
        std::fs::write(folder.join(name), bytes).map_err(|error| error.to_string())?;
    }
    Ok(())
}
