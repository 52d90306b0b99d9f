// The calls made on a file, with the scheduler's answers.

use crate::raw::of_outcome;
use crate::trial::{Answer, Asked, Call};
use differential::calls::{outcome_in, report_of, starts_in};
use differential::generator::Generated;
use differential::many_runs;
use differential::placing::{schedule, ALL};
use differential::plan::Plan;
use differential::random::Random;
use differential::reading::{read, Refusal};

// Places that no plan has; the last ones are those that a narrower number would take for 0, 1 or 2.
const BEYOND: [usize; 14] = [
    64,
    65,
    255,
    256,
    65_536,
    1 << 31,
    u32::MAX as usize,
    i64::MAX as usize,
    1 << 63,
    usize::MAX - 1,
    usize::MAX,
    1 << 32,
    (1 << 32) + 1,
    (1 << 32) + 2,
];

// Sets over 511.
pub const OVER: [u32; 11] =
    [512, 513, 767, 1_023, 1_024, 65_535, 65_536, 65_536 + 511, 1 << 31, (1 << 31) + 511, u32::MAX];

// Room enough for every report, in bytes, and for every list of runs.
const REPORT: usize = 1_584;
const RUNS: usize = 2_048;

// The answers to what is asked of a file, whatever the slices lent.
pub struct Answers {
    outcomes: Vec<(usize, Result<Answer, Refusal>)>,
    report: Result<Answer, Refusal>,
    starts: Vec<(usize, u32, Result<Answer, Refusal>)>,
    // How many calls are made.
    calls: usize,
}

// Reads a file and schedules it, once for all calls.
pub fn answers(file: &Generated, random: &mut Random) -> Answers {
    match read(&file.bytes) {
        Ok(plan) if [many_runs::KIND, many_runs::STORED].contains(&file.kind) => at_last_place(&plan),
        Ok(plan) => at_all_places(&plan, random),
        Err(refusal) => refused(refusal, random),
    }
}

// Every place of a plan and places beyond, each with sets of its own.
fn at_all_places(plan: &Plan, random: &mut Random) -> Answers {
    let count = plan.activities.len();
    let places: Vec<usize> = (0..count + 2).chain(BEYOND).collect();
    let sets = places.iter().flat_map(|&place| sets_at(place, count, random)).collect();
    accepted(plan, &places, sets, affordable(plan))
}

// The last place of a plan, each length of a slice.
fn at_last_place(plan: &Plan) -> Answers {
    let place = plan.activities.len() - 1;
    accepted(plan, &[place], [0, 4, ALL].map(|set| (place, set)).to_vec(), usize::MAX)
}

fn accepted(plan: &Plan, places: &[usize], sets: Vec<(usize, u32)>, calls: usize) -> Answers {
    let schedule = &schedule(plan, plan.activities.len());
    let outcome = |place| outcome_in(schedule, place).map(|outcome| answer(of_outcome(outcome), Vec::new()));
    let starts =
        |place, set| starts_in(schedule, place, set, RUNS).map(|runs| answer(runs.len() as u64, records(&runs)));
    let text = report_of(plan, schedule);
    Answers {
        outcomes: places.iter().map(|&place| (place, outcome(place))).collect(),
        report: Ok(answer(text.len() as u64, text)),
        starts: sets.into_iter().map(|(place, set)| (place, set, starts(place, set))).collect(),
        calls,
    }
}

// Every call on a refused file draws the file's refusal.
fn refused(refusal: Refusal, random: &mut Random) -> Answers {
    let places = [0, 1, 63, *random.pick(&BEYOND)];
    let sets = [0, ALL, random.below(512) as u32, *random.pick(&OVER)];
    Answers {
        outcomes: places.iter().map(|&place| (place, Err(refusal))).collect(),
        report: Err(refusal),
        starts: places.iter().zip(sets).map(|(&place, set)| (place, set, Err(refusal))).collect(),
        calls: 30,
    }
}

// Calls that are made on a plan: fewer where each takes longer.
fn affordable(plan: &Plan) -> usize {
    let work = plan.horizon as usize * (plan.activities.len() + 1);
    (300_000 / work).clamp(6, 600)
}

// The sets asked at a place: the full one, none, the single ones, some others, and one over 511.
fn sets_at(place: usize, count: usize, random: &mut Random) -> Vec<(usize, u32)> {
    let mut sets = vec![ALL, *random.pick(&OVER)];
    if place < count {
        sets.push(0);
        sets.extend((0..9).map(|letter| 1 << letter));
        sets.extend((0..4).map(|_| random.below(512) as u32));
    }
    sets.into_iter().map(|set| (place, set)).collect()
}

fn answer(number: u64, written: Vec<u8>) -> Answer {
    Answer { number, written }
}

// Runs as the bytes of records.
fn records(runs: &[(usize, usize)]) -> Vec<u8> {
    runs.iter().flat_map(|&(first, last)| [first as u32, last as u32]).flat_map(u32::to_ne_bytes).collect()
}

// The calls on a file: as many of each kind in turn as can be made, in an order of their own.
pub fn calls<'a>(answers: &'a Answers, random: &mut Random) -> Vec<Asked<'a>> {
    let kinds = [outcomes(answers, random), reports(answers, random), starts(answers, random)];
    let longest = kinds.iter().map(Vec::len).max().unwrap_or(0);
    let in_turn = (0..longest).flat_map(|i| kinds.iter().filter_map(move |kind| kind.get(i)));
    in_turn.take(answers.calls).copied().collect()
}

fn outcomes<'a>(answers: &'a Answers, random: &mut Random) -> Vec<Asked<'a>> {
    let outcomes = shuffled(&answers.outcomes, random).into_iter();
    outcomes.map(|(place, answer)| Asked { call: Call::Outcome { place: *place }, answer }).collect()
}

fn reports<'a>(answers: &'a Answers, random: &mut Random) -> Vec<Asked<'a>> {
    let answer = &answers.report;
    let rooms = report_rooms(answer, random);
    shuffled(&rooms, random).into_iter().map(|&room| Asked { call: Call::Report { room }, answer }).collect()
}

// One list of runs after the other, each in slices of every length.
fn starts<'a>(answers: &'a Answers, random: &mut Random) -> Vec<Asked<'a>> {
    let mut asked = Vec::new();
    for &(place, set, ref answer) in shuffled(&answers.starts, random) {
        for &room in shuffled(&record_rooms(set, answer), random) {
            asked.push(Asked { call: Call::Starts { place, set, room }, answer });
        }
    }
    asked
}

fn shuffled<'a, T>(items: &'a [T], random: &mut Random) -> Vec<&'a T> {
    let mut items: Vec<&T> = items.iter().collect();
    random.shuffle(&mut items);
    items
}

// Lengths of slices for a report: every one up to one more than it needs, where it is short; of a long one those near
// its ends and the ends of its lines, and some others. Then some that are longer.
fn report_rooms(report: &Result<Answer, Refusal>, random: &mut Random) -> Vec<usize> {
    let mut rooms = vec![0, 1, REPORT - 1, REPORT, REPORT + 1];
    if let Ok(report) = report {
        let text = &report.written;
        let near_end = |at: usize| at < 10 || at + 10 > text.len() || text[at.saturating_sub(2)..=at].contains(&b'\n');
        let every = text.len() <= 250 || random.chance(10);
        rooms.extend((0..text.len()).filter(|&at| every || near_end(at) || random.chance(5)));
        rooms.extend([text.len(), text.len() + 1, text.len() + 2 + random.below(100)]);
    }
    rooms
}

// Lengths of slices for runs: every one up to one more than they need, and with the full set the longest; of a refusal,
// none and one.
fn record_rooms(set: u32, runs: &Result<Answer, Refusal>) -> Vec<usize> {
    let longest: &[usize] = if set == ALL { &[RUNS, RUNS + 1] } else { &[] };
    match runs {
        Ok(runs) => (0..=runs.number as usize + 1).chain(longest.iter().copied()).collect(),
        Err(_) => vec![0, 1],
    }
}
