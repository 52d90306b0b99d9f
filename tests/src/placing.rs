// Placing and refusing, place by place.

use crate::conditions::{charges, draws, tables, Placed};
use crate::plan::{Activity, Plan};

// Sets of conditions are sums of W 1, D 2, U 4, S 8, E 16, P 32, B 64, V 128, H 256.
pub const ALL: u32 = 511;

#[derive(Clone, Copy, Debug, PartialEq)]
pub enum Outcome {
    Placed(i64),
    Refused(u32),
}

// A place's activity, its tables of starts and what came of it.
pub struct Place<'a> {
    pub activity: &'a Activity,
    pub tables: Vec<Vec<bool>>,
    pub outcome: Outcome,
}

// What is placed in the end, and all places.
pub struct Schedule<'a> {
    pub placed: Vec<Placed<'a>>,
    pub places: Vec<Place<'a>>,
}

// The first `count` places of the scheduling order.
pub fn schedule(plan: &Plan, count: usize) -> Schedule<'_> {
    let mut schedule = Schedule { placed: Vec::new(), places: Vec::new() };
    for i in plan.order().into_iter().take(count) {
        let activity = &plan.activities[i];
        let tables = tables(plan, activity, &schedule.placed);
        let outcome = decide(&tables, activity);
        if let Outcome::Placed(start) = outcome {
            schedule.placed.push(Placed { activity, start });
        }
        schedule.places.push(Place { activity, tables, outcome });
    }
    schedule
}

// The starts that meet every condition of a set.
pub fn meeting(tables: &[Vec<bool>], set: u32) -> Vec<bool> {
    let meets = |s: usize| (0..9).all(|c| set & 1 << c == 0 || tables[c][s]);
    (0..tables[0].len()).map(meets).collect()
}

// How far a start is from the preferred tick of the window that holds it; without windows, from the activity's own.
fn distance(activity: &Activity, start: i64) -> i64 {
    let holding = activity.windows.iter().find(|w| w.from <= start && start <= w.to);
    (start - holding.map_or(activity.preferred, |w| w.preferred)).abs()
}

fn decide(tables: &[Vec<bool>], activity: &Activity) -> Outcome {
    let valid = meeting(tables, ALL);
    let mut nearest: Option<i64> = None;
    for start in 0..valid.len() as i64 {
        let nearer = nearest.is_none_or(|best| distance(activity, start) < distance(activity, best));
        if valid[start as usize] && nearer {
            nearest = Some(start);
        }
    }
    match nearest {
        Some(start) => Outcome::Placed(start),
        None => Outcome::Refused(letters_left(tables)),
    }
}

fn letters_left(tables: &[Vec<bool>]) -> u32 {
    let mut kept = ALL;
    for c in 0..9 {
        let others = kept - (1 << c);
        if !meeting(tables, others).contains(&true) {
            kept = others;
        }
    }
    kept
}

// The longest unbroken runs of true, each with its first and last.
pub fn runs(meets: &[bool]) -> Vec<(usize, usize)> {
    let mut runs = Vec::new();
    let mut s = 0;
    while s < meets.len() {
        let first = s;
        while s < meets.len() && meets[s] {
            s += 1;
        }
        if s > first {
            runs.push((first, s - 1));
        }
        s += 1;
    }
    runs
}

// The charge at T of what is placed, the lowest at ticks 0 to T, and the first tick that has it.
pub fn last_and_lowest(plan: &Plan, placed: &[Placed]) -> (i64, i64, usize) {
    let charges = charges(plan, &draws(plan, placed));
    let mut first = 0;
    for t in 0..charges.len() {
        if charges[t] < charges[first] {
            first = t;
        }
    }
    (charges[plan.horizon as usize], charges[first], first)
}
