// Plans of full size, 64 activities over 4,096 ticks, of several kinds: what a planner is slow at.

use crate::knots::{fixed, idle};
use crate::plan::{Activity, Plan, Window};
use crate::random::Random;

// The kinds, each with what it is.
pub const KINDS: [(&str, &str); 13] = [
    ("ordinary", "a little of everything, as in a real dive"),
    ("draws", "short activities that draw; the charge never stops at the capacity"),
    ("rising", "the same with a charge that begins at the floor and rises, so that nothing can be spared at tick 0"),
    ("battery", "a battery that is emptied and charged up again and again"),
    ("warm", "every activity warmed up"),
    ("state", "4 needs and 4 sets each, every end inside a candidate of half the horizon"),
    ("sets", "4 needs and 4 sets each, short"),
    ("loads", "engines and peaks near their limits"),
    ("units", "16 of 32 units each"),
    ("windows", "4 windows each"),
    ("refusals", "beside 24 placed, 40 refused with seven letters"),
    ("short", "duration 1, all placed"),
    ("long", "half the horizon each, all placed"),
];

const T: i64 = 4_096;

// The file of a kind.
pub fn full(kind: &str) -> Option<Vec<u8>> {
    let mut plan = match kind {
        "ordinary" => ordinary(),
        "draws" => all(amply(), |i| Activity { draw: 3, ..short(i) }),
        "rising" => all(Plan { first_charge: 0, rate: 1_000, ..amply() }, |i| Activity { draw: 3, ..short(i) }),
        "battery" => battery(),
        "warm" => all(Plan { heater: 7, ..amply() }, |i| Activity { draw: 3, warm: 1, ..short(i) }),
        "state" => all(amply(), |_| state(Activity { draw: 3, ..idle(T / 2) })),
        "sets" => all(amply(), |i| state(short(i))),
        "loads" => loads(),
        "units" => all(amply(), |i| Activity { units: (0..16).map(|u| 2 * u + i % 2).collect(), ..short(i) }),
        "windows" => all(amply(), windows),
        "refusals" => refusals(),
        "short" => all(amply(), short),
        "long" => all(amply(), |i| Activity { preferred: 32 * i, ..idle(T / 2) }),
        _ => return None,
    };
    for (place, activity) in plan.activities.iter_mut().enumerate() {
        activity.id = place as i64;
        activity.priority = place as i64;
    }
    Some(plan.bytes())
}

// A station with more of everything than is asked for, and no charging.
fn amply() -> Plan {
    Plan {
        horizon: T,
        minute: 840,
        capacity: 1_000_000_000,
        floor: 0,
        first_charge: 1_000_000_000,
        rate: 0,
        handover: 0,
        engines: 64,
        peak: 1_000_000,
        volume: 1_000_000_000,
        heater: 0,
        activities: Vec::new(),
    }
}

// 64 activities, each made from its place.
fn all(plan: Plan, activity: impl FnMut(i64) -> Activity) -> Plan {
    Plan { activities: (0..64).map(activity).collect(), ..plan }
}

fn short(place: i64) -> Activity {
    Activity { preferred: 64 * place, ..idle(1) }
}

// Four needs that are met everywhere, and four sets that leave them so.
fn state(activity: Activity) -> Activity {
    let values: Vec<(i64, i64)> = (4..8).map(|variable| (variable, 0)).collect();
    Activity { needs: values.clone(), sets: values, ..activity }
}

fn windows(place: i64) -> Activity {
    let bounds = [0, 1, 2, 3].map(|w| (8 * place + 1_000 * w, 8 * place + 1_000 * w + 30));
    Activity { windows: near(64 * place, &bounds), ..short(place) }
}

// Windows whose preferred tick is the activity's own, or the bound that is nearest to it.
fn near(preferred: i64, bounds: &[(i64, i64)]) -> Vec<Window> {
    bounds.iter().map(|&(from, to)| Window { from, preferred: preferred.clamp(from, to), to }).collect()
}

fn battery() -> Plan {
    let station = Plan { capacity: 10_000, floor: 1_000, first_charge: 9_000, rate: 20, handover: 9_000, ..amply() };
    all(station, |i| Activity { preferred: 60 * i, draw: 60, ..idle(30) })
}

fn loads() -> Plan {
    let station = Plan { engines: 8, peak: 800, ..amply() };
    all(station, |i| Activity { preferred: 50 * i, engines: 1 + i % 3, peak: 90 + i, ..idle(400 + i) })
}

// Of eight stretches, each is barred to 40 activities by a condition of its own: D U E P S B U W.
fn refusals() -> Plan {
    let station = Plan { capacity: 100, first_charge: 100, rate: 50, engines: 3, peak: 100, ..amply() };
    let hold = |stretch: i64| fixed(512 * stretch, 512);
    let mut activities = vec![
        hold(0),
        Activity { units: vec![5], ..hold(1) },
        Activity { engines: 3, ..hold(2) },
        Activity { peak: 70, ..hold(3) },
        Activity { sets: vec![(2, 7)], ..fixed(2_047, 1) },
        Activity { sets: vec![(2, 0)], ..fixed(2_559, 1) },
        Activity { draw: 50, ..hold(5) },
        Activity { draw: 100, ..fixed(2_560, 1) },
        Activity { units: vec![5], ..hold(6) },
    ];
    activities.extend((9..24).map(short));
    activities.extend((24..64).map(|place| Activity {
        windows: near(64 * place, &[(0, 3_583)]),
        after: vec![0],
        units: vec![5],
        needs: vec![(2, 0)],
        engines: 1,
        peak: 40,
        draw: 2,
        preferred: 64 * place,
        ..idle(2)
    }));
    Plan { activities, ..station }
}

fn ordinary() -> Plan {
    let random = &mut Random::new(5);
    let station = Plan {
        minute: 480,
        capacity: 100_000,
        floor: 20_000,
        first_charge: 80_000,
        rate: 30,
        handover: 30_000,
        engines: 4,
        peak: 200,
        volume: 5_000,
        heater: 40,
        ..amply()
    };
    all(station, |i| {
        let preferred = random.range(0, 4_000);
        let bounds: &[(i64, i64)] = if random.chance(30) { &[(500, 1_500), (2_500, 3_900)] } else { &[] };
        Activity {
            preferred,
            windows: near(preferred, bounds),
            after: if i > 0 && random.chance(20) { vec![random.range(0, i - 1)] } else { Vec::new() },
            units: random.rising(2, 0, 7),
            needs: random.pick(&[vec![], vec![], vec![(0, 0)], vec![(1, 2)]]).clone(),
            sets: random.pick(&[vec![], vec![(0, 1)], vec![(1, 2)]]).clone(),
            engines: random.range(0, 2),
            peak: random.range(0, 90),
            draw: random.range(0, 90),
            volume: random.range(0, 120),
            warm: random.range(0, 1),
            ..idle(random.range(5, 120))
        }
    })
}
