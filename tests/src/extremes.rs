// Plans with numbers from the ends of their ranges.

use crate::generator::{arrange, window, windows};
use crate::knots::idle;
use crate::plan::{Activity, Plan, Window};
use crate::random::Random;

pub fn plan(random: &mut Random) -> Plan {
    let horizon = match random.range(0, 19) {
        0..=6 => 1,
        7..=9 => 2,
        10 => 4_096,
        _ => random.range(3, 50),
    };
    let capacity = *random.pick(&[1, 2, 100, 1_000_000, 1_000_000_000]);
    let floor = *random.pick(&[0, 0, capacity / 2, capacity]);
    let between = random.range(floor, capacity);
    let first_charge = *random.pick(&[floor, capacity, between]);
    let most = if horizon == 4_096 { 5 } else { 12 };
    let count = random.range(0, most);
    let mut plan = Plan {
        horizon,
        minute: *random.pick(&[0, 1, 839, 840, 1_439]),
        capacity,
        floor,
        first_charge,
        rate: *random.pick(&[0, 0, 1, 999_999, 1_000_000]),
        handover: 0,
        engines: *random.pick(&[0, 1, 63, 64]),
        peak: *random.pick(&[0, 1, 999_999, 1_000_000]),
        volume: *random.pick(&[0, 1, 999_999_999, 1_000_000_000]),
        heater: *random.pick(&[0, 1, 1_000_000]),
        activities: (0..count).map(|place| activity(random, horizon, place)).collect(),
    };
    let reached = capacity.min(first_charge + plan.rate * horizon);
    plan.handover = *random.pick(&[0, reached, floor, reached / 2]);
    arrange(random, &mut plan);
    if random.chance(50) {
        stretch_numbers(&mut plan);
    }
    plan
}

// 64 activities with every list full, most of which find a start one after the other.
pub fn longest(random: &mut Random) -> Plan {
    let horizon = random.range(64, 140);
    let mut plan = Plan {
        horizon,
        minute: random.range(0, 1_439),
        capacity: 1_000_000_000,
        floor: random.range(0, 999_000_000),
        first_charge: 1_000_000_000,
        rate: 1_000_000,
        handover: random.range(0, 1_000_000_000),
        engines: 64,
        peak: 1_000_000,
        volume: 1_000_000_000,
        heater: random.range(0, 1_000_000),
        activities: (0..64).map(|place| full_lists(random, place, horizon)).collect(),
    };
    arrange(random, &mut plan);
    plan
}

fn full_lists(random: &mut Random, place: i64, horizon: i64) -> Activity {
    let mut activity = idle(random.range(1, 2));
    activity.preferred = random.range(0, 2 * place);
    let first = Window { from: 0, preferred: activity.preferred.min(horizon - 1), to: horizon - 1 };
    let others = [(1_000, 1_000), (1_001, 2_000), (4_094, 4_095)].map(|(from, to)| window(random, from, to));
    activity.windows = [&[first], &others[..]].concat();
    activity.after = random.rising(8, 0, place.max(1) - 1);
    if place == 0 {
        activity.after.clear();
    }
    activity.units = (0..32).collect();
    activity.needs = vec![(4, 0), (5, 0), (6, 0), (7, 0)];
    activity.sets = vec![(0, 255), (1, 254), (2, 253), (3, 252)];
    activity.engines = random.range(60, 64);
    activity.peak = random.range(999_990, 1_000_000);
    activity.draw = random.range(999_000, 1_000_000);
    activity.volume = random.range(1_000_000, 15_000_000);
    activity.warm = random.chance(5) as i64;
    activity
}

fn activity(random: &mut Random, horizon: i64, place: i64) -> Activity {
    let duration = *random.pick(&[1, 1, 2, horizon / 2, horizon]);
    let mut activity = idle(duration.clamp(1, horizon));
    activity.preferred = *random.pick(&[0, 1, horizon - 1, 4_095]);
    activity.windows = match random.range(0, 5) {
        0 => windows(random, horizon),
        1 => [0, 1, 3, 4_095].map(|tick| window(random, tick, tick)).to_vec(),
        2 => vec![window(random, 4_095, 4_095)],
        3 => vec![Window { from: 0, preferred: *random.pick(&[0, 1, horizon - 1, 4_095]), to: 4_095 }],
        _ => Vec::new(),
    };
    if random.chance(30) {
        activity.after = (0..place).rev().take(8).collect();
        activity.after.sort();
    }
    activity.units = match random.range(0, 5) {
        0 => (0..32).collect(),
        1 => vec![31],
        2 => vec![0, 31],
        _ => Vec::new(),
    };
    if random.chance(30) {
        activity.needs = vec![(0, 0), (3, 0), (6, 255), (7, 0)];
    }
    if random.chance(30) {
        activity.sets = vec![(0, 255), (3, 0), (6, 255), (7, 255)];
    }
    activity.engines = *random.pick(&[0, 0, 1, 63, 64]);
    activity.peak = *random.pick(&[0, 0, 1, 999_999, 1_000_000]);
    activity.draw = *random.pick(&[0, 0, 1, 999_999, 1_000_000]);
    activity.volume = *random.pick(&[0, 0, 1, 999_999_999, 1_000_000_000]);
    activity.warm = random.chance(25) as i64;
    activity
}

// The last place's priority and the greatest id become 65,535.
fn stretch_numbers(plan: &mut Plan) {
    let Some(&last) = plan.order().last() else {
        return;
    };
    plan.activities[last].priority = 65_535;
    let greatest = plan.activities.iter().map(|a| a.id).max().unwrap();
    for activity in &mut plan.activities {
        if activity.id == greatest {
            activity.id = 65_535;
        }
        for id in &mut activity.after {
            if *id == greatest {
                *id = 65_535;
            }
        }
    }
}
