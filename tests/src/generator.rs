// Plans made from a seed.

use crate::cases::{cases, tabs, EXAMPLE};
use crate::damage;
use crate::extremes;
use crate::knots;
use crate::plan::{Activity, Plan, Window};
use crate::random::Random;
use crate::reading::{read, Refusal};

// A file and what it was made from; `aimed` is the refusal that it must draw, where that is known.
pub struct Generated {
    pub name: String,
    pub kind: &'static str,
    pub bytes: Vec<u8>,
    pub aimed: Option<Refusal>,
}

// The kinds, each as many times as it comes in one round of seeds.
const ROUND: [(&str, u64); 17] = [
    ("tiny", 5),
    ("small", 4),
    ("mid", 1),
    ("energy", 5),
    ("store", 3),
    ("state", 6),
    ("chain", 3),
    ("weave", 5),
    ("knot", 8),
    ("extreme", 4),
    ("longest", 1),
    ("aimed", 7),
    ("bytes", 5),
    ("fields", 5),
    ("lines", 4),
    ("noise", 1),
    ("large", 1),
];

// One seed in this many is a plan of full size.
const FULL: u64 = 1500;

pub fn kind_of(seed: u64) -> &'static str {
    if seed % FULL == FULL / 2 {
        return "full";
    }
    let mut slot = seed % ROUND.iter().map(|kind| kind.1).sum::<u64>();
    for (kind, times) in ROUND {
        if slot < times {
            return kind;
        }
        slot -= times;
    }
    unreachable!()
}

pub fn generate(seed: u64) -> Generated {
    let random = &mut Random::new(seed);
    let kind = kind_of(seed);
    let whole = undamaged(random);
    let mut aimed = None;
    let bytes = match kind {
        "aimed" => {
            let (bytes, refusal) = damage::aimed(random, whole);
            aimed = Some(refusal);
            bytes
        }
        "bytes" => damage::bytes(random, whole.bytes()),
        "fields" => damage::fields(random, whole),
        "lines" => damage::lines(random, whole),
        "noise" => damage::noise(random),
        "large" => damage::large(random, whole),
        _ => plan(random, kind).bytes(),
    };
    Generated { name: format!("seed {seed}"), kind, bytes, aimed }
}

// The cases worked by hand, then each kind of fault in each field of document 01's input.
pub fn fixed() -> Vec<Generated> {
    let file = |name, kind, bytes, aimed| Generated { name, kind, bytes, aimed };
    let by_hand = cases().into_iter().map(|case| file(format!("case {}", case.name), "by hand", case.plan, None));
    let whole = read(&tabs(EXAMPLE)).expect("the input of document 01");
    let sweep = damage::sweep(&whole).into_iter().enumerate();
    by_hand
        .chain(sweep.map(|(i, (bytes, refusal))| file(format!("fault {i}"), "fault", bytes, Some(refusal))))
        .collect()
}

// A plan to be damaged.
fn undamaged(random: &mut Random) -> Plan {
    let kind = *random.pick(&["tiny", "tiny", "small", "energy", "state", "chain", "knot", "extreme"]);
    plan(random, kind)
}

fn plan(random: &mut Random, kind: &str) -> Plan {
    match kind {
        "knot" => knots::plan(random),
        "extreme" => extremes::plan(random),
        "longest" => extremes::longest(random),
        _ => fill(random, &shape(kind)),
    }
}

// What the plans of a kind have in common: ranges, both ends included, and chances in a hundred.
#[derive(Clone)]
struct Shape {
    horizon: (i64, i64),
    count: (i64, i64),
    duration: (i64, i64),
    windows: i64,
    after: i64,
    units: (i64, usize),
    state: (i64, i64, i64),
    engines: (i64, i64),
    peak: (i64, i64),
    draw: (i64, i64),
    rate: (i64, i64),
    capacity: (i64, i64),
    volume: (i64, i64),
    warm: i64,
}

// A little of everything. `units` is a chance and how many there are; `state` a chance, variables and values;
// `engines`, `peak` and `volume` the greatest of an activity and of the plan.
const SMALL: Shape = Shape {
    horizon: (10, 40),
    count: (2, 9),
    duration: (1, 8),
    windows: 40,
    after: 15,
    units: (40, 4),
    state: (25, 3, 3),
    engines: (2, 4),
    peak: (20, 50),
    draw: (0, 6),
    rate: (0, 5),
    capacity: (20, 150),
    volume: (20, 90),
    warm: 30,
};

fn shape(kind: &str) -> Shape {
    let small = SMALL.clone();
    match kind {
        "tiny" => Shape { horizon: (1, 12), count: (0, 5), duration: (1, 4), units: (60, 2), warm: 15, ..small },
        "mid" => Shape {
            horizon: (60, 300),
            count: (8, 24),
            duration: (1, 40),
            capacity: (200, 900),
            volume: (20, 300),
            ..small
        },
        "full" => Shape {
            horizon: (4_090, 4_096),
            count: (64, 64),
            duration: (1, 300),
            capacity: (2_000, 20_000),
            volume: (20, 900),
            after: 10,
            state: (25, 8, 3),
            units: (50, 6),
            ..small
        },
        "energy" => Shape {
            horizon: (15, 60),
            draw: (1, 14),
            rate: (0, 6),
            capacity: (10, 80),
            engines: (0, 4),
            peak: (0, 0),
            volume: (0, 9),
            state: (5, 2, 2),
            ..small
        },
        "store" => Shape { volume: (30, 60), count: (4, 12), draw: (0, 2), windows: 20, ..small },
        "state" => Shape {
            horizon: (8, 40),
            count: (3, 11),
            duration: (1, 5),
            state: (65, 2, 2),
            windows: 35,
            units: (10, 2),
            draw: (0, 1),
            warm: 5,
            ..small
        },
        "chain" => {
            Shape { horizon: (20, 60), count: (5, 12), duration: (1, 5), after: 85, windows: 25, draw: (0, 2), ..small }
        }
        "weave" => Shape {
            horizon: (10, 30),
            count: (5, 12),
            duration: (1, 6),
            windows: 75,
            after: 35,
            units: (75, 3),
            state: (45, 2, 2),
            engines: (2, 2),
            peak: (20, 25),
            draw: (0, 9),
            warm: 45,
            ..small
        },
        _ => small,
    }
}

fn fill(random: &mut Random, shape: &Shape) -> Plan {
    let mut within = |range: (i64, i64)| random.range(range.0, range.1);
    let horizon = within(shape.horizon);
    let count = within(shape.count);
    let capacity = within(shape.capacity);
    let rate = within(shape.rate);
    let floor = random.range(0, capacity / 3);
    let first_charge = random.range(floor, capacity);
    let mut activities: Vec<Activity> =
        (0..count as usize).map(|place| activity(random, shape, horizon, place)).collect();
    if random.chance(35) {
        crowd(random, &mut activities, horizon);
    }
    let mut plan = Plan {
        horizon,
        minute: random.range(0, 1_439),
        capacity,
        floor,
        first_charge,
        rate,
        handover: 0,
        engines: random.range((shape.engines.1 / 2).min(1), shape.engines.1),
        peak: random.range(shape.peak.1 / 2, shape.peak.1),
        volume: random.range(shape.volume.1 / 4, shape.volume.1 * 2),
        heater: random.range(0, 3),
        activities,
    };
    plan.handover = handover(random, &plan);
    arrange(random, &mut plan);
    plan
}

// An activity of the place; its `after` are places until `arrange` gives the ids.
fn activity(random: &mut Random, shape: &Shape, horizon: i64, place: usize) -> Activity {
    let duration = random.range(shape.duration.0, shape.duration.1.min(horizon));
    let preferred = if random.chance(90) { random.range(0, horizon - 1) } else { random.range(0, 4_095) };
    let units = if random.chance(shape.units.0) {
        let count = random.range(1, 2) as usize;
        random.rising(count, 0, shape.units.1 as i64 - 1)
    } else {
        Vec::new()
    };
    Activity {
        id: 0,
        priority: 0,
        duration,
        preferred,
        windows: if random.chance(shape.windows) { windows(random, horizon) } else { Vec::new() },
        after: if random.chance(shape.after) { earlier(random, place, shape.after > 50) } else { Vec::new() },
        units,
        needs: values(random, shape.state),
        sets: values(random, shape.state),
        engines: random.range(0, shape.engines.0),
        peak: random.range(0, shape.peak.0),
        draw: random.range(shape.draw.0, shape.draw.1),
        volume: random.range(0, shape.volume.0),
        warm: random.chance(shape.warm) as i64,
    }
}

// Most activities want the first one's unit for as long and around the same tick, or in the same windows, so that two
// starts are equally near.
fn crowd(random: &mut Random, activities: &mut [Activity], horizon: i64) {
    let Some(first) = activities.first().cloned() else {
        return;
    };
    let shared = match random.range(0, 9) {
        0..=1 => windows(random, horizon),
        2..=5 => touching(random, horizon),
        _ => Vec::new(),
    };
    for activity in activities.iter_mut() {
        if random.chance(75) {
            activity.duration = first.duration;
            activity.preferred = first.preferred;
            activity.units = vec![1];
            activity.windows = shared.clone();
        }
    }
}

// One to four windows.
pub fn windows(random: &mut Random, horizon: i64) -> Vec<Window> {
    let mut windows = Vec::new();
    let mut free = 0;
    for _ in 0..*random.pick(&[1, 1, 1, 2, 2, 3, 4]) {
        let a = free + random.range(0, horizon / 3);
        let b = a + random.range(0, horizon / 4);
        if b > 4_095 {
            break;
        }
        windows.push(window(random, a, b));
        free = b + 1;
    }
    windows
}

// Up to four windows, each beginning right behind the one before, with their preferred ticks at ends or midway: there
// starts are as near in one window, and one may be nearer to the preferred tick of another window.
fn touching(random: &mut Random, horizon: i64) -> Vec<Window> {
    let mut windows = Vec::new();
    let mut from = random.range(0, horizon / 6);
    let count = random.range(1, 4);
    for _ in 0..count {
        let to = from + random.range(horizon / (2 * count), horizon / count);
        if to > 4_095 {
            break;
        }
        windows.push(Window { from, preferred: *random.pick(&[from, to, (from + to) / 2]), to });
        from = to + 1;
    }
    windows
}

// A window with its preferred tick at one end, at the other, or between them.
pub fn window(random: &mut Random, from: i64, to: i64) -> Window {
    let between = random.range(from, to);
    Window { from, preferred: *random.pick(&[from, to, between, between]), to }
}

// One to three earlier places, the last one among them in a chain.
fn earlier(random: &mut Random, place: usize, chain: bool) -> Vec<i64> {
    if place == 0 {
        return Vec::new();
    }
    let count = random.range(0, 2) as usize + !chain as usize;
    let mut places = random.rising(count, 0, place as i64 - 1);
    if chain && !places.contains(&(place as i64 - 1)) {
        places.push(place as i64 - 1);
    }
    places
}

fn values(random: &mut Random, (chance, variables, values): (i64, i64, i64)) -> Vec<(i64, i64)> {
    if !random.chance(chance) {
        return Vec::new();
    }
    let count = random.range(1, 2) as usize;
    let list = random.rising(count, 0, variables - 1);
    list.into_iter().map(|variable| (variable, random.range(0, values - 1))).collect()
}

// A handover charge that the plan reaches with nothing placed.
pub fn handover(random: &mut Random, plan: &Plan) -> i64 {
    let reached = plan.capacity.min(plan.first_charge + plan.rate * plan.horizon);
    match random.range(0, 9) {
        0..=3 => 0,
        4 => reached,
        5..=6 => plan.floor,
        _ => random.range(0, reached),
    }
}

// Ids, priorities and lines for activities listed by place, whose `after` name places.
pub fn arrange(random: &mut Random, plan: &mut Plan) {
    let count = plan.activities.len();
    let high = *random.pick(&[100, 999, 65_535]);
    let mut ids: Vec<i64> = (0..count as i64).map(|i| i * (high / 100) + random.range(0, high / 100 - 1)).collect();
    random.shuffle(&mut ids);
    let mut priority = random.range(0, 3);
    for (place, activity) in plan.activities.iter_mut().enumerate() {
        activity.id = ids[place];
        activity.priority = priority;
        activity.after = activity.after.iter().map(|&earlier| ids[earlier as usize]).collect();
        activity.after.sort();
        if random.chance(60) {
            priority += random.range(1, 4);
        }
    }
    shuffle_lines(random, &mut plan.activities);
}

// Shuffles the lines, those of equal priority kept in their order.
fn shuffle_lines(random: &mut Random, activities: &mut Vec<Activity>) {
    if random.chance(40) {
        return;
    }
    let mut priorities: Vec<i64> = activities.iter().map(|a| a.priority).collect();
    random.shuffle(&mut priorities);
    let mut left = std::mem::take(activities);
    for priority in priorities {
        let next = left.iter().position(|a| a.priority == priority).unwrap();
        activities.push(left.remove(next));
    }
}
