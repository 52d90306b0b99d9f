// Plans in which each of several conditions bars a stretch of its own, so that a refusal names them all.

use crate::generator::{arrange, window};
use crate::plan::{Activity, Plan, Window};
use crate::random::Random;

const RATE: i64 = 50;
const CAPACITY: i64 = 100;

// The activities that bar the stretches come first, then those that meet them.
struct Knot {
    cursor: i64,
    barring: Vec<Activity>,
    candidate: Activity,
    outside: Vec<(i64, i64)>,
}

pub fn plan(random: &mut Random) -> Plan {
    let minute = random.range(0, 1_439);
    let mut knot = Knot { cursor: 0, barring: Vec::new(), candidate: idle(random.range(1, 2)), outside: Vec::new() };
    match random.range(0, 2) {
        0 => knot.bar_before_an_end(random),
        1 => knot.bar_by_warm_up(minute),
        _ => {}
    }
    let mut letters: Vec<char> = "WUSEPB".chars().filter(|_| random.chance(60)).collect();
    random.shuffle(&mut letters);
    for letter in letters {
        if random.chance(8) {
            knot.cursor += 1;
        }
        knot.bar(random, letter);
    }
    if random.chance(20) {
        knot.cursor += random.range(1, 3);
    }
    knot.finish(random, minute)
}

impl Knot {
    // The candidate comes after an activity that holds the first ticks.
    fn bar_before_an_end(&mut self, random: &mut Random) {
        self.cursor = random.range(2, 5);
        self.candidate.after = vec![0];
        self.barring.push(fixed(0, self.cursor));
    }

    // The candidate needs warming up.
    fn bar_by_warm_up(&mut self, minute: i64) {
        self.candidate.warm = 1;
        let q = minute / 5;
        let apart = (q - 168).abs();
        self.cursor = 4 + apart.min(288 - apart) / 12;
    }

    // One more stretch, barred by the letter.
    fn bar(&mut self, random: &mut Random, letter: char) {
        let first = self.cursor;
        let end = first + random.range(2, 5);
        let mut one = fixed(first, end - first);
        match letter {
            'W' => self.outside.push((first, end)),
            'U' => {
                one.units = vec![5];
                self.candidate.units = vec![3, 5, 9];
                self.barring.push(one);
            }
            'S' => self.bar_by_state(first, end),
            'E' => {
                one.engines = 3;
                self.candidate.engines = random.range(1, 3);
                self.barring.push(one);
            }
            'P' => {
                one.peak = 70;
                self.candidate.peak = random.range(31, 100);
                self.barring.push(one);
            }
            _ => {
                one.draw = RATE;
                let mut drop = fixed(first, 1);
                drop.draw = CAPACITY;
                self.candidate.draw = random.range(1, RATE / 2);
                self.barring.extend([one, drop]);
            }
        }
        self.cursor = end;
    }

    // The variable has another value than the needed one from `first` to before `end`.
    fn bar_by_state(&mut self, first: i64, end: i64) {
        let mut back = fixed(end - 1, 1);
        if first == 0 {
            back.sets = vec![(2, 7)];
            self.candidate.needs = vec![(2, 7)];
        } else {
            let mut away = fixed(first - 1, 1);
            away.sets = vec![(2, 7)];
            back.sets = vec![(2, 0)];
            self.candidate.needs = vec![(2, 0)];
            self.barring.push(away);
        }
        self.barring.push(back);
    }

    fn finish(self, random: &mut Random, minute: i64) -> Plan {
        let horizon = (self.cursor + self.candidate.duration - 1).max(self.candidate.duration);
        let mut activities = self.barring;
        let mut candidate = self.candidate;
        for again in 0..random.range(1, 3) {
            candidate.preferred = random.range(0, horizon - 1);
            candidate.windows = around(random, &self.outside, horizon);
            activities.push(if again == 0 { candidate.clone() } else { eased(random, &candidate) });
        }
        let mut plan = Plan {
            horizon,
            minute,
            capacity: CAPACITY,
            floor: 0,
            first_charge: CAPACITY,
            rate: RATE,
            handover: 0,
            engines: 3,
            peak: 100,
            volume: if random.chance(90) { 10 } else { 0 },
            heater: if random.chance(80) { 0 } else { random.range(1, 9) },
            activities,
        };
        if random.chance(20) {
            plan.activities.last_mut().unwrap().volume = random.range(1, 12);
        }
        arrange(random, &mut plan);
        plan
    }
}

// An activity that asks for nothing.
pub fn idle(duration: i64) -> Activity {
    Activity {
        id: 0,
        priority: 0,
        duration,
        preferred: 0,
        windows: Vec::new(),
        after: Vec::new(),
        units: Vec::new(),
        needs: Vec::new(),
        sets: Vec::new(),
        engines: 0,
        peak: 0,
        draw: 0,
        volume: 0,
        warm: 0,
    }
}

// An activity with one start in its window.
pub fn fixed(start: i64, duration: i64) -> Activity {
    let only = Window { from: start, preferred: start, to: start };
    Activity { preferred: start, windows: vec![only], ..idle(duration) }
}

// Windows that leave the given stretches out.
fn around(random: &mut Random, outside: &[(i64, i64)], horizon: i64) -> Vec<Window> {
    let mut windows = Vec::new();
    let mut free = 0;
    for &(first, end) in outside {
        if free < first {
            windows.push(window(random, free, first - 1));
        }
        free = end;
    }
    if outside.is_empty() {
        return windows;
    }
    windows.push(window(random, free, free.max(horizon)));
    windows
}

// The candidate with some of its wishes left out.
fn eased(random: &mut Random, candidate: &Activity) -> Activity {
    let mut eased = candidate.clone();
    match random.range(0, 6) {
        0 => eased.windows.clear(),
        1 => eased.units.clear(),
        2 => eased.needs.clear(),
        3 => eased.engines = 0,
        4 => eased.peak = 0,
        5 => eased.draw = 0,
        _ => eased.warm = 0,
    }
    eased
}
