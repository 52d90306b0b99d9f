// The scheduler's own check, for a generated file.

use crate::calls::{letters, no, outcome, output, report, report_of, starts, starts_in};
use crate::demand::{check_report, ensure};
use crate::explain_check;
use crate::faults::{first_fault, Fault};
use crate::generator::Generated;
use crate::placing::{schedule, Outcome, Schedule};
use crate::plan::Plan;
use crate::reading::{read, refuse, Refusal};
use crate::tally::Tally;

// Reading, then every line of the report and of explain's text, then the calls.
pub fn check(file: &Generated, tally: &mut Tally) -> Result<(), String> {
    tally.kind(file.kind);
    let fault = first_fault(&file.bytes);
    let drawn = fault.as_ref().map(Fault::refusal);
    ensure(file.aimed.is_none() || file.aimed == drawn, || format!("aimed at {:?}, found {drawn:?}", file.aimed))?;
    match (read(&file.bytes), fault) {
        (Err(refusal), Some(fault)) => {
            ensure(refusal == fault.refusal(), || format!("refused with {refusal:?}, not {fault:?}"))?;
            tally.number(refusal.number);
            explain_check::check_refused(&file.bytes, &fault)?;
            check_refused_calls(&file.bytes, refusal)
        }
        (Ok(plan), None) => {
            tally.accepted += 1;
            ensure(plan.bytes() == file.bytes, || "the plan read has another text".to_string())?;
            check_accepted(&plan, &file.bytes, tally)
        }
        (read, fault) => Err(format!("read {:?}, fault {fault:?}", read.err())),
    }
}

fn check_refused_calls(bytes: &[u8], refusal: Refusal) -> Result<(), String> {
    let same = outcome(bytes, 64) == Err(refusal)
        && starts(bytes, 64, 512, 0) == Err(refusal)
        && report(bytes, 0) == Err(refusal)
        && output(bytes) == format!("{}\n", no(refusal)).into_bytes();
    ensure(same, || "a call gives another refusal".to_string())
}

fn check_accepted(plan: &Plan, bytes: &[u8], tally: &mut Tally) -> Result<(), String> {
    let schedule = schedule(plan, plan.activities.len());
    let text = report_of(plan, &schedule);
    let tables = check_report(plan, &text, tally)?;
    for (place, tables) in tables.iter().enumerate() {
        for (c, table) in tables.iter().enumerate() {
            let differs = (0..table.len()).find(|&s| schedule.places[place].tables[c].get(s) != Some(&table[s]));
            ensure(differs.is_none(), || format!("place {place}, condition {c}: start {}", differs.unwrap()))?;
        }
        ensure(schedule.places[place].tables[0].len() == tables[0].len(), || {
            format!("place {place}: number of starts")
        })?;
        check_starts(&schedule, place, tables, tally)?;
    }
    explain_check::check_accepted(bytes, &text, &tables)?;
    // The calls place all again at each turn.
    if plan.horizon * (plan.activities.len() as i64 + 1) <= 1_000 {
        check_calls(bytes, &text, &schedule, tally)?;
    }
    Ok(())
}

// The calls that take a plan's bytes, against its report and schedule.
fn check_calls(bytes: &[u8], text: &[u8], schedule: &Schedule, tally: &mut Tally) -> Result<(), String> {
    let count = schedule.places.len();
    ensure(output(bytes) == text, || "the program prints another report".to_string())?;
    ensure(report(bytes, text.len()).as_deref() == Ok(text), || "the report doesn't fit its length".to_string())?;
    ensure(report(bytes, text.len() - 1) == refuse(10, 0), || "the report fits less than its length".to_string())?;
    ensure(outcome(bytes, count) == refuse(11, 0), || "a place beyond the last".to_string())?;
    ensure(starts(bytes, count, 512, 0) == refuse(11, 0), || {
        "a place beyond the last, with a set over 511".to_string()
    })?;
    tally.number(10);
    tally.number(11);
    let lines = text.split(|&b| b == b'\n').map(|line| String::from_utf8_lossy(line));
    for (place, line) in lines.take(count).enumerate() {
        ensure(starts(bytes, place, 512, 0) == refuse(12, 0), || "a set over 511".to_string())?;
        tally.number(12);
        let behind = line.split_once('\t').map_or("", |parts| parts.1).to_string();
        let told = match outcome(bytes, place).map_err(|refusal| format!("{refusal:?}"))? {
            Outcome::Placed(start) => behind.starts_with(&format!("placed\t{start}\t")),
            Outcome::Refused(set) => behind == format!("refused\t{}", letters(set)),
        };
        ensure(told, || format!("outcome of place {place} isn't the report's"))?;
        for set in [0, 511, 1 << (place % 9)] {
            let same = starts(bytes, place, set, 2) == starts_in(schedule, place, set, 2);
            ensure(same, || format!("place {place}, set {set}: other starts from the bytes"))?;
        }
    }
    Ok(())
}

// All sets where starts are few, else some.
fn check_starts(schedule: &Schedule, place: usize, tables: &[Vec<bool>], tally: &mut Tally) -> Result<(), String> {
    let step = if tables[0].len() <= 40 { 1 } else { 73 };
    for set in (place % step..512).step_by(step) {
        let runs = starts_in(schedule, place, set as u32, 2_048).map_err(|refusal| format!("{refusal:?}"))?;
        let said = || format!("place {place}, set {set}: runs {runs:?}");
        let apart = runs.windows(2).all(|two| two[0].1 + 1 < two[1].0);
        ensure(apart && runs.iter().all(|run| run.0 <= run.1), said)?;
        for s in 0..tables[0].len() + 2 {
            let meets = s < tables[0].len() && (0..9).all(|c| set >> c & 1 == 0 || tables[c][s]);
            ensure(meets == runs.iter().any(|run| run.0 <= s && s <= run.1), said)?;
        }
        ensure(starts_in(schedule, place, set as u32, runs.len()).as_ref() == Ok(&runs), said)?;
        if !runs.is_empty() {
            ensure(starts_in(schedule, place, set as u32, runs.len() - 1) == refuse(10, 0), said)?;
        }
        tally.starts += 1;
    }
    Ok(())
}
