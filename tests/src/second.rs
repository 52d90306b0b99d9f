// The nine conditions a second time, by intervals and events where the scheduler goes by ticks.

use crate::plan::{Activity, Plan};

// An activity at a start, with its end. A list of these is in the order of places.
#[derive(Clone, Copy)]
pub struct Interval<'a> {
    pub activity: &'a Activity,
    pub start: i64,
    pub end: i64,
}

impl<'a> Interval<'a> {
    pub fn new(activity: &'a Activity, start: i64) -> Interval<'a> {
        Interval { activity, start, end: start + activity.duration }
    }
}

// For each letter in the order W D U S E P B V H, whether each start meets it.
pub fn tables(plan: &Plan, candidate: &Activity, placed: &[Interval]) -> Vec<Vec<bool>> {
    let count = (plan.horizon - candidate.duration + 1) as usize;
    let mut tables = vec![vec![false; count]; 9];
    let warm_up = warm_up_table();
    let free_from = free_from(candidate, placed);
    let base = steps(plan, placed, &warm_up);
    for s in 0..count {
        let start = s as i64;
        let mut all = placed.to_vec();
        all.push(Interval::new(candidate, start));
        let own = &all[placed.len()];
        tables[1][s] = free_from.is_some_and(|tick| tick <= start);
        tables[2][s] = placed.iter().all(|p| apart(p, own));
        tables[3][s] = needs_met(&all);
        tables[4][s] = greatest(&all, |a| a.engines) <= plan.engines;
        tables[5][s] = greatest(&all, |a| a.peak) <= plan.peak;
        tables[6][s] = lasts(plan, &base, own, &warm_up);
        tables[7][s] = plan.volume - all.iter().map(|p| p.activity.volume).sum::<i64>() >= 0;
        tables[8][s] = start - warmth(plan, own, &warm_up) >= 0;
    }
    for s in 0..count as i64 {
        let opens = candidate.windows.iter().filter(|w| w.from <= s).count();
        let closed = candidate.windows.iter().filter(|w| w.to < s).count();
        tables[0][s as usize] = candidate.windows.is_empty() || opens > closed;
    }
    tables
}

// The tick from which all of `after` have ended, if all are placed.
fn free_from(candidate: &Activity, placed: &[Interval]) -> Option<i64> {
    let mut tick = 0;
    for id in &candidate.after {
        let named = placed.iter().find(|p| p.activity.id == *id)?;
        tick = tick.max(named.end);
    }
    Some(tick)
}

// Whether two share no unit or no tick.
fn apart(one: &Interval, other: &Interval) -> bool {
    let share = one.activity.units.iter().any(|unit| other.activity.units.contains(unit));
    !share || one.end <= other.start || other.end <= one.start
}

// A need holds if it holds at the activity's start and at each effect tick before its end.
fn needs_met(all: &[Interval]) -> bool {
    for variable in 0..8 {
        let effects: Vec<(i64, usize, i64)> = (0..all.len())
            .flat_map(|place| all[place].activity.sets.iter().map(move |set| (place, set)))
            .filter(|(_, set)| set.0 == variable)
            .map(|(place, set)| (all[place].end, place, set.1))
            .collect();
        let at = |tick: i64| effects.iter().filter(|e| e.0 <= tick).max().map_or(0, |e| e.2);
        for p in all {
            for need in p.activity.needs.iter().filter(|need| need.0 == variable) {
                let inside = effects.iter().map(|e| e.0).filter(|&tick| p.start < tick && tick < p.end);
                if !inside.chain([p.start]).all(|tick| at(tick) == need.1) {
                    return false;
                }
            }
        }
    }
    true
}

// The greatest sum at a tick: it is reached where some activity starts.
fn greatest(all: &[Interval], quantity: fn(&Activity) -> i64) -> i64 {
    let sum_at = |tick: i64| -> i64 {
        all.iter().filter(|p| p.start <= tick && tick < p.end).map(|p| quantity(p.activity)).sum()
    };
    all.iter().map(|p| sum_at(p.start)).max().unwrap_or(0)
}

// The table of warm-ups, walked from 14:00 both ways round the clock.
pub fn warm_up_table() -> Vec<i64> {
    let mut table = vec![0; 288];
    for m in 0..=144 {
        table[(168 + m) % 288] = 4 + m as i64 / 12;
        table[(168 + 288 - m) % 288] = 4 + m as i64 / 12;
    }
    table
}

pub fn warmth(plan: &Plan, p: &Interval, table: &[i64]) -> i64 {
    p.activity.warm * table[((plan.minute + p.start).rem_euclid(1_440) / 5) as usize]
}

// At each tick by how much the draw per tick rises.
fn steps(plan: &Plan, all: &[Interval], table: &[i64]) -> Vec<i64> {
    let mut steps = vec![0; plan.horizon as usize + 1];
    for p in all {
        add_steps(plan, p, table, &mut steps);
    }
    steps
}

fn add_steps(plan: &Plan, p: &Interval, table: &[i64], steps: &mut [i64]) {
    steps[(p.start - warmth(plan, p, table)).max(0) as usize] += plan.heater;
    steps[p.start as usize] += p.activity.draw - plan.heater;
    steps[p.end as usize] -= p.activity.draw;
}

// With N(t) the net charge of ticks 0 to t - 1, c(t) = N(t) + min(first charge, least capacity - N(u), 0 < u <= t).
fn lasts(plan: &Plan, base: &[i64], own: &Interval, table: &[i64]) -> bool {
    let mut steps = base.to_vec();
    add_steps(plan, own, table, &mut steps);
    let (mut draw, mut net, mut least) = (0, 0, plan.first_charge);
    for t in 0..plan.horizon as usize {
        draw += steps[t];
        net += plan.rate - draw;
        least = least.min(plan.capacity - net);
        if net + least < plan.floor {
            return false;
        }
    }
    net + least >= plan.handover
}
