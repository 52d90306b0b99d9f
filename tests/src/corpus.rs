// The stored corpus: choosing its plans, its stream of records, and the answers to it.

use crate::calls::{no, outcome_in, report_in, report_of, starts_in};
use crate::cases::{cases, Case};
use crate::demand::check_report;
use crate::faults::first_fault;
use crate::generator::{generate, Generated};
use crate::placing::{schedule, Outcome, Schedule};
use crate::plan::Plan;
use crate::reading::{read, Refusal};
use crate::tally::Tally;
use std::collections::BTreeMap;
use std::fmt::Write;

// The sets asked, as many from the front as a record says.
pub const SETS: [u32; 29] = [
    511, 0, 1, 2, 4, 8, 16, 32, 64, 128, 256, 510, 509, 507, 503, 495, 479, 447, 383, 255, 3, 12, 48, 192, 73, 292,
    219, 438, 512,
];

// The records lent to a call of starts.
const LENT: usize = 64;

// A plan, the places asked (from `from` to before `to`), how many sets are asked, and what it shows.
struct Record {
    plan: Vec<u8>,
    from: usize,
    to: usize,
    sets: usize,
    shows: String,
}

pub struct Corpus {
    pub plans: Vec<u8>,
    pub expected: Vec<u8>,
    pub index: String,
}

pub fn write() -> Corpus {
    let by_hand = |case: Case| record(case.plan, SINGLE, format!("by hand\t-\t{}", case.name));
    let mut records: Vec<Record> = cases().into_iter().map(by_hand).collect();
    records.extend(chosen());
    records[0].sets = SETS.len();
    // Now and then the place behind the last, too.
    for record in records.iter_mut().step_by(8).filter(|record| record.sets != SINGLE) {
        record.to += 1;
    }
    records.extend(large());
    let mut plans = Vec::new();
    let mut index = String::new();
    for (number, record) in records.iter().enumerate() {
        plans.extend(format!("{}\t{}\t{}\t{}\n", record.plan.len(), record.from, record.to, record.sets).bytes());
        plans.extend(&record.plan);
        writeln!(index, "{number}\t{}", record.shows).unwrap();
    }
    let expected = answers(&plans).expect("the stream just written");
    Corpus { plans, expected, index }
}

// The sets up to the nine single ones.
const SINGLE: usize = 11;

// A record that asks every place of a plan with few, place 0 of a refused file, else the last place.
fn record(plan: Vec<u8>, sets: usize, shows: String) -> Record {
    let count = read(&plan).map(|plan| plan.activities.len());
    match count {
        Ok(count @ 0..=12) => Record { plan, from: 0, to: count, sets, shows },
        Ok(count) => Record { plan, from: count - 1, to: count, sets, shows },
        Err(_) => Record { plan, from: 0, to: 1, sets: 1, shows },
    }
}

// Generated plans, each for something that the ones before it show too seldom; the shortest first.
fn chosen() -> Vec<Record> {
    let mut seen: BTreeMap<String, usize> = BTreeMap::new();
    let mut seeds = Vec::new();
    let mut records = Vec::new();
    for longest in [300, 450, 600, 900] {
        for seed in 0..12_000 {
            let file = generate(seed);
            if file.bytes.len() > longest || seeds.contains(&seed) {
                continue;
            }
            let features = features(&file);
            let wanting = |feature: &String| seen.get(feature).copied().unwrap_or(0) < wanted(feature);
            if !features.iter().any(wanting) {
                continue;
            }
            for feature in &features {
                *seen.entry(feature.clone()).or_default() += 1;
            }
            let sets = match records.len() % 12 {
                0 => SETS.len(),
                4 | 8 => SINGLE,
                _ => 1,
            };
            seeds.push(seed);
            records.push(record(file.bytes, sets, format!("{}\tseed {seed}\t{}", file.kind, features.join(", "))));
        }
    }
    records
}

// How many plans are to show a feature.
fn wanted(feature: &str) -> usize {
    match feature.split(' ').next() {
        Some("kind" | "tie" | "start") => 8,
        Some("letters" | "window,") => 4,
        _ => 1,
    }
}

// What a file shows; nothing if it is too long to read.
fn features(file: &Generated) -> Vec<String> {
    if let Some(fault) = first_fault(&file.bytes) {
        let line = if fault.line == 1 { "the first line" } else { "an activity" };
        return vec![match fault.field() {
            Some(field) => format!("no {} in field {} of {line}", fault.number, field + 1),
            None => format!("no {}, damage to {}", fault.number, file.kind),
        }];
    }
    let mut features = Vec::new();
    let plan = read(&file.bytes).expect("a file without a fault");
    if plan.horizon > 60 || plan.activities.len() > 12 {
        return features;
    }
    let text = report_of(&plan, &schedule(&plan, plan.activities.len()));
    let mut tally = Tally::default();
    check_report(&plan, &text, &mut tally).expect("a report that passes the check");
    features.push(format!("kind {}", file.kind));
    features.extend(tally.sizes.keys().map(|size| format!("letters {size}")));
    features.extend(tally.sets.keys().filter(|set| set.len() <= 3).map(|set| format!("refused {set}")));
    features.extend(tally.windows.keys().map(|what| format!("window, {what}")));
    for (what, count) in [("tie", tally.ties), ("start 0", tally.at_first), ("start T-d", tally.at_last)] {
        if count > 0 {
            features.push(what.to_string());
        }
    }
    features
}

// A long horizon, and 64 activities over 4,096 ticks, for the report alone.
fn large() -> Vec<Record> {
    let seeds = |wanted: fn(&Plan) -> bool| {
        (0..).find(|&seed| read(&generate(seed).bytes).is_ok_and(|plan| wanted(&plan))).unwrap()
    };
    let long = seeds(|plan| plan.horizon == 4_096 && (3..=5).contains(&plan.activities.len()));
    let full = seeds(|plan| plan.horizon == 4_096 && plan.activities.len() == 64);
    let mut records = Vec::new();
    for (seed, to, shows) in [(long, 2, "T 4,096"), (full, 0, "64 activities, T 4,096")] {
        let file = generate(seed);
        let shows = format!("{}\tseed {seed}\t{shows}", file.kind);
        records.push(Record { plan: file.bytes, from: 0, to, sets: 1, shows });
    }
    records
}

// The records of a stream, or none if it is malformed.
fn records(mut stream: &[u8]) -> Option<Vec<Record>> {
    let mut records = Vec::new();
    while !stream.is_empty() {
        let end = stream.iter().position(|&b| b == b'\n')?;
        let header = std::str::from_utf8(&stream[..end]).ok()?;
        let header: Vec<usize> = header.split('\t').map(|text| text.parse().ok()).collect::<Option<_>>()?;
        let [length, from, to, sets] = header[..] else {
            return None;
        };
        let plan = stream.get(end + 1..end + 1 + length)?.to_vec();
        stream = &stream[end + 1 + length..];
        if sets > SETS.len() {
            return None;
        }
        records.push(Record { plan, from, to, sets, shows: String::new() });
    }
    Some(records)
}

// The answers to a stream of records, or none if it is malformed.
pub fn answers(stream: &[u8]) -> Option<Vec<u8>> {
    let mut text = Vec::new();
    for (number, record) in records(stream)?.iter().enumerate() {
        text.extend(format!("plan\t{number}\n").bytes());
        answer(&record.plan, record.from..record.to, &SETS[..record.sets], &mut text);
    }
    Some(text)
}

// The plans of a stream, to be checked like generated ones.
pub fn stored(stream: &[u8]) -> Option<Vec<Generated>> {
    let file = |(number, record): (usize, Record)| Generated {
        name: format!("stored plan {number}"),
        kind: "stored",
        bytes: record.plan,
        aimed: None,
    };
    Some(records(stream)?.into_iter().enumerate().map(file).collect())
}

fn answer(bytes: &[u8], places: std::ops::Range<usize>, sets: &[u32], text: &mut Vec<u8>) {
    let plan = read(bytes);
    let schedule = plan.as_ref().map(|plan| schedule(plan, plan.activities.len()));
    let calls = Calls {
        plan: plan.as_ref().map_err(|refusal| *refusal),
        schedule: schedule.as_ref().map_err(|&&refusal| refusal),
    };
    match calls.report(usize::MAX) {
        Ok(report) => text.extend(report),
        Err(refusal) => text.extend(format!("{}\n", no(refusal)).bytes()),
    }
    let mut line = |said: String| text.extend((said + "\n").bytes());
    line(match calls.report(0) {
        Ok(report) => format!("report\t{}", report.len()),
        Err(refusal) => format!("report\t{}", no(refusal)),
    });
    for place in places {
        line(match calls.outcome(place) {
            Ok(Outcome::Placed(start)) => format!("outcome\t{place}\tplaced\t{start}"),
            Ok(Outcome::Refused(set)) => format!("outcome\t{place}\trefused\t{set}"),
            Err(refusal) => format!("outcome\t{place}\t{}", no(refusal)),
        });
        for &set in sets {
            line(format!("starts\t{place}\t{set}\t{}", runs(calls.starts(place, set, LENT))));
        }
        line(format!("short\t{place}\t{}", runs(calls.starts(place, 511, 0))));
    }
}

fn runs(answer: Result<Vec<(usize, usize)>, Refusal>) -> String {
    match answer {
        Ok(runs) => runs.iter().fold(runs.len().to_string(), |text, run| text + &format!("\t{}:{}", run.0, run.1)),
        Err(refusal) => no(refusal),
    }
}

// A file's calls, all over one schedule.
struct Calls<'a> {
    plan: Result<&'a Plan, Refusal>,
    schedule: Result<&'a Schedule<'a>, Refusal>,
}

impl Calls<'_> {
    fn report(&self, room: usize) -> Result<Vec<u8>, Refusal> {
        report_in(self.plan?, self.schedule?, room)
    }

    fn outcome(&self, place: usize) -> Result<Outcome, Refusal> {
        outcome_in(self.schedule?, place)
    }

    fn starts(&self, place: usize, set: u32, room: usize) -> Result<Vec<(usize, usize)>, Refusal> {
        starts_in(self.schedule?, place, set, room)
    }
}
