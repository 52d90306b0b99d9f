// The calls of document 01 and the program's output.

use crate::conditions::LETTERS;
use crate::placing::{last_and_lowest, meeting, runs, schedule, Outcome, Schedule, ALL};
use crate::plan::Plan;
use crate::reading::{read, refuse, Refusal};

// Outcome of a place.
pub fn outcome(bytes: &[u8], place: usize) -> Result<Outcome, Refusal> {
    let plan = read(bytes)?;
    outcome_in(&schedule(&plan, place.saturating_add(1)), place)
}

// The report, for an output slice of `room` bytes.
pub fn report(bytes: &[u8], room: usize) -> Result<Vec<u8>, Refusal> {
    let plan = read(bytes)?;
    report_in(&plan, &schedule(&plan, plan.activities.len()), room)
}

// The runs of starts that meet a set, for a lent list of `room` records.
pub fn starts(bytes: &[u8], place: usize, set: u32, room: usize) -> Result<Vec<(usize, usize)>, Refusal> {
    let plan = read(bytes)?;
    starts_in(&schedule(&plan, place.saturating_add(1)), place, set, room)
}

// The calls over the places of a plan already accepted, up to the asked one.

pub fn outcome_in(schedule: &Schedule, place: usize) -> Result<Outcome, Refusal> {
    match schedule.places.get(place) {
        None => refuse(11, 0),
        Some(place) => Ok(place.outcome),
    }
}

pub fn report_in(plan: &Plan, schedule: &Schedule, room: usize) -> Result<Vec<u8>, Refusal> {
    let text = report_of(plan, schedule);
    if text.len() > room {
        return refuse(10, 0);
    }
    Ok(text)
}

pub fn starts_in(schedule: &Schedule, place: usize, set: u32, room: usize) -> Result<Vec<(usize, usize)>, Refusal> {
    let Some(place) = schedule.places.get(place) else {
        return refuse(11, 0);
    };
    if set > ALL {
        return refuse(12, 0);
    }
    let runs = runs(&meeting(&place.tables, set));
    if runs.len() > room {
        return refuse(10, 0);
    }
    Ok(runs)
}

// What the program prints for a file.
pub fn output(bytes: &[u8]) -> Vec<u8> {
    match report(bytes, usize::MAX) {
        Ok(text) => text,
        Err(refusal) => format!("{}\n", no(refusal)).into_bytes(),
    }
}

pub fn no(refusal: Refusal) -> String {
    format!("no\t{}\t{}", refusal.number, refusal.line)
}

// The letters of a set.
pub fn letters(set: u32) -> String {
    LETTERS.chars().enumerate().filter(|&(c, _)| set & 1 << c != 0).map(|(_, letter)| letter).collect()
}

pub fn report_of(plan: &Plan, schedule: &Schedule) -> Vec<u8> {
    let mut text = String::new();
    for place in &schedule.places {
        let id = place.activity.id;
        text += &match place.outcome {
            Outcome::Placed(start) => format!("{id}\tplaced\t{start}\t{}\n", start + place.activity.duration),
            Outcome::Refused(set) => format!("{id}\trefused\t{}\n", letters(set)),
        };
    }
    let placed = schedule.placed.len();
    let refused = schedule.places.len() - placed;
    let (charge, lowest, tick) = last_and_lowest(plan, &schedule.placed);
    let volume: i64 = schedule.placed.iter().map(|p| p.activity.volume).sum();
    text += &format!("end\t{placed}\t{refused}\t{charge}\t{volume}\t{lowest}\t{tick}\n");
    text.into_bytes()
}
