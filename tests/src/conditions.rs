// The nine conditions of document 01, each judged alone for every start of a candidate.

use crate::plan::{Activity, Plan};

pub const LETTERS: &str = "WDUSEPBVH";

// A placed activity with its start. A list of these is in the order of places.
#[derive(Clone, Copy)]
pub struct Placed<'a> {
    pub activity: &'a Activity,
    pub start: i64,
}

impl Placed<'_> {
    pub fn end(&self) -> i64 {
        self.start + self.activity.duration
    }

    // The ticks held.
    fn ticks(&self) -> std::ops::Range<usize> {
        self.start as usize..self.end() as usize
    }
}

// For each letter, whether each start from 0 to T - d meets it.
pub fn tables(plan: &Plan, candidate: &Activity, placed: &[Placed]) -> Vec<Vec<bool>> {
    let each = |meets: &dyn Fn(Placed) -> bool| -> Vec<bool> {
        let starts = 0..=plan.last_start(candidate);
        starts.map(|start| meets(Placed { activity: candidate, start })).collect()
    };
    let needed = needed(placed);
    let engines = sums(plan, placed, |a| a.engines);
    let peaks = sums(plan, placed, |a| a.peak);
    let held = held_units(plan, placed);
    let draws = draws(plan, placed);
    let volume: i64 = placed.iter().map(|p| p.activity.volume).sum();
    vec![
        each(&|c| in_window(c)),
        each(&|c| after_ends(c, placed)),
        each(&|c| c.ticks().all(|t| c.activity.units.iter().all(|&unit| !held[t][unit as usize]))),
        each(&|c| needs_met(plan, c, placed, &needed)),
        each(&|c| within(&engines, c, c.activity.engines, plan.engines)),
        each(&|c| within(&peaks, c, c.activity.peak, plan.peak)),
        each(&|c| charge_lasts(plan, c, &draws)),
        each(&|_| volume + candidate.volume <= plan.volume),
        each(&|c| warm_up(plan, candidate, c.start) <= c.start),
    ]
}

fn in_window(candidate: Placed) -> bool {
    let windows = &candidate.activity.windows;
    windows.is_empty() || windows.iter().any(|w| w.from <= candidate.start && candidate.start <= w.to)
}

fn after_ends(candidate: Placed, placed: &[Placed]) -> bool {
    let ended = |id: &i64| placed.iter().any(|p| p.activity.id == *id && p.end() <= candidate.start);
    candidate.activity.after.iter().all(ended)
}

// For each tick, which units are held by the placed.
fn held_units(plan: &Plan, placed: &[Placed]) -> Vec<[bool; 32]> {
    let mut held = vec![[false; 32]; plan.horizon as usize];
    for p in placed {
        for t in p.ticks() {
            for &unit in &p.activity.units {
                held[t][unit as usize] = true;
            }
        }
    }
    held
}

// For each variable, the ticks and values at which a placed activity needs it, each once.
fn needed(placed: &[Placed]) -> Vec<Vec<(usize, u8)>> {
    let mut needed = vec![Vec::new(); 8];
    for p in placed {
        for &(variable, value) in &p.activity.needs {
            needed[variable as usize].extend(p.ticks().map(|t| (t, value as u8)));
        }
    }
    for list in &mut needed {
        list.sort();
        list.dedup();
    }
    needed
}

fn needs_met(plan: &Plan, candidate: Placed, placed: &[Placed], needed: &[Vec<(usize, u8)>]) -> bool {
    for variable in 0..8 {
        let own = candidate.activity.needs.iter().find(|need| need.0 == variable);
        let others = &needed[variable as usize];
        if own.is_none() && others.is_empty() {
            continue;
        }
        let values = history(plan, variable, candidate, placed);
        if !others.iter().all(|&(t, value)| values[t] == value) {
            return false;
        }
        if let Some(&(_, value)) = own {
            if !candidate.ticks().all(|t| values[t] == value as u8) {
                return false;
            }
        }
    }
    true
}

// The variable's value at each tick: the sets by effect tick, at equal ticks by place, each over the last.
fn history(plan: &Plan, variable: i64, candidate: Placed, placed: &[Placed]) -> Vec<u8> {
    let mut sets = Vec::new();
    for p in placed.iter().chain([&candidate]) {
        for &(_, value) in p.activity.sets.iter().filter(|set| set.0 == variable) {
            sets.push((p.end() as usize, value as u8));
        }
    }
    sets.sort_by_key(|&(effect, _)| effect);
    let mut values = vec![0; plan.horizon as usize];
    for (effect, value) in sets {
        values[effect..].fill(value);
    }
    values
}

// For each tick, the sum of a quantity over the placed that hold it.
fn sums(plan: &Plan, placed: &[Placed], quantity: fn(&Activity) -> i64) -> Vec<i64> {
    let mut sums = vec![0; plan.horizon as usize];
    for p in placed {
        for t in p.ticks() {
            sums[t] += quantity(p.activity);
        }
    }
    sums
}

fn within(sums: &[i64], candidate: Placed, own: i64, limit: i64) -> bool {
    let held = candidate.ticks();
    (0..sums.len()).all(|t| sums[t] + if held.contains(&t) { own } else { 0 } <= limit)
}

// Warm-up in ticks of an activity at a start.
pub fn warm_up(plan: &Plan, activity: &Activity, start: i64) -> i64 {
    if activity.warm == 0 {
        return 0;
    }
    let q = (plan.minute + start) % 1_440 / 5;
    let apart = (q - 168).abs();
    4 + apart.min(288 - apart) / 12
}

fn add_draws(plan: &Plan, p: Placed, draws: &mut [i64]) {
    for t in p.ticks() {
        draws[t] += p.activity.draw;
    }
    for t in p.start - warm_up(plan, p.activity, p.start)..p.start {
        if t >= 0 {
            draws[t as usize] += plan.heater;
        }
    }
}

// For each tick, all draws and heater draws of the placed.
pub fn draws(plan: &Plan, placed: &[Placed]) -> Vec<i64> {
    let mut draws = vec![0; plan.horizon as usize];
    for &p in placed {
        add_draws(plan, p, &mut draws);
    }
    draws
}

// The charge at ticks 0 to T.
pub fn charges(plan: &Plan, draws: &[i64]) -> Vec<i64> {
    let mut charges = vec![plan.first_charge];
    for t in 0..draws.len() {
        charges.push(plan.capacity.min(charges[t] + plan.rate - draws[t]));
    }
    charges
}

fn charge_lasts(plan: &Plan, candidate: Placed, draws: &[i64]) -> bool {
    let mut draws = draws.to_vec();
    add_draws(plan, candidate, &mut draws);
    let charges = charges(plan, &draws);
    charges.iter().all(|&c| c >= plan.floor) && charges[draws.len()] >= plan.handover
}
