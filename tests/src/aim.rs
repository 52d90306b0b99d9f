// Plans with faults at known places, and the refusal that the order of checks gives for them.

use crate::knots::idle;
use crate::plan::{join, Plan};
use crate::random::Random;
use crate::reading::Refusal;

// A fault's rank in the order of checks. Lines come before what is judged after all lines.
type Rank = (usize, usize);

const AFTER_LINES: usize = 1_000;

// A plan file being damaged, the fields already damaged, and the faults made so far.
struct Damage {
    plan: Plan,
    lines: Vec<Vec<String>>,
    used: Vec<(usize, usize)>,
    faults: Vec<(Rank, Refusal)>,
}

// One to three faults.
pub fn aimed(random: &mut Random, mut plan: Plan) -> (Vec<u8>, Refusal) {
    let too_many = random.chance(8);
    if too_many {
        plan.activities.truncate(64);
        for id in (0..65_536).rev() {
            if plan.activities.len() == 65 {
                break;
            }
            if plan.activities.iter().all(|a| a.id != id) {
                plan.activities.push(idle(1));
                plan.activities.last_mut().unwrap().id = id;
            }
        }
    }
    let mut damage = Damage { lines: plan.fields(), plan, used: Vec::new(), faults: Vec::new() };
    if too_many {
        damage.fault((66, 1), 5, 66);
    }
    let wanted = damage.faults.len() + *random.pick(&[1, 1, 1, 2, 2, 3]) - too_many as usize;
    while damage.faults.len() < wanted {
        match random.range(0, 19) {
            0..=9 => damage.field(random),
            10..=12 => damage.same_id(random),
            13..=16 => damage.after(random),
            _ => damage.handover(),
        }
    }
    damage.finish(random)
}

impl Damage {
    fn fault(&mut self, rank: Rank, number: u32, line: usize) {
        self.faults.push((rank, Refusal { number, line }));
    }

    // Whether a field (line counted from 1) was still whole; from now on it isn't.
    fn take(&mut self, line: usize, field: usize) -> bool {
        let free = !self.used.contains(&(line, field));
        self.used.push((line, field));
        free
    }

    fn field(&mut self, random: &mut Random) {
        let line = 1 + random.below(self.lines.len());
        let wanted = *random.pick(&[3, 4, 8, 13]);
        let field = match wanted {
            13 => 5,
            8 => random.range(5, 9) as usize,
            _ => random.range(1, self.lines[line - 1].len() as i64 - 1) as usize,
        };
        let texts = if line == 1 { first_line_texts(&self.plan, field) } else { activity_texts(&self.plan, field) };
        let texts: Vec<_> = texts.into_iter().filter(|text| text.1 == wanted).collect();
        if texts.is_empty() {
            return;
        }
        let (text, number) = random.pick(&texts).clone();
        if self.take(line, field) {
            self.lines[line - 1][field] = text;
            self.fault((line, 1 + field), number, line);
        }
    }

    fn same_id(&mut self, random: &mut Random) {
        if self.lines.len() < 3 {
            return;
        }
        let line = random.range(3, self.lines.len() as i64) as usize;
        let earlier = random.range(2, line as i64 - 1) as usize;
        if self.take(line, 1) {
            self.lines[line - 1][1] = self.plan.activities[earlier - 2].id.to_string();
            self.fault((line, 100), 6, line);
        }
    }

    // `after` names the activity itself, one at a later place, or none.
    fn after(&mut self, random: &mut Random) {
        let order = self.plan.order();
        if order.is_empty() {
            return;
        }
        let place = random.below(order.len());
        let line = order[place] + 2;
        let later = order[random.range(place as i64, order.len() as i64 - 1) as usize];
        let unknown = (0..65_536).find(|id| self.plan.activities.iter().all(|a| a.id != *id)).unwrap();
        let id = *random.pick(&[self.plan.activities[later].id, unknown]);
        if self.take(line, 6) {
            self.lines[line - 1][6] = id.to_string();
            self.fault((AFTER_LINES, place), 7, line);
        }
    }

    fn handover(&mut self) {
        let plan = &self.plan;
        let reached = plan.capacity.min(plan.first_charge + plan.rate * plan.horizon);
        if reached < plan.capacity && self.take(1, 7) {
            self.lines[0][7] = (reached + 1).to_string();
            self.fault((AFTER_LINES + 1, 0), 9, 0);
        }
    }

    // Now and then a fault of a whole line, then the bytes and the first refusal.
    fn finish(mut self, random: &mut Random) -> (Vec<u8>, Refusal) {
        if random.chance(15) {
            let line = 1 + random.below(self.lines.len());
            let at = random.below(self.lines[line - 1].len());
            match random.range(0, 2) {
                0 => self.lines[line - 1][0] = random.pick(&["", "Act", "plan ", "ac", "acts", "pla"]).to_string(),
                1 => drop(self.lines[line - 1].remove(at)),
                _ => self.lines[line - 1].insert(at, "1".to_string()),
            }
            self.fault((line, 0), 2, line);
        }
        let mut bytes = join(&self.lines);
        if random.chance(10) {
            bytes.pop();
            let line = self.lines.len();
            self.fault((line, 0), 2, line);
        }
        let first = self.faults.iter().min_by_key(|fault| fault.0).unwrap();
        (bytes, first.1)
    }
}

// Every faulty text in every field of the first line and of one activity; then two faulty fields of a line.
pub fn sweep(plan: &Plan) -> Vec<(Vec<u8>, Refusal)> {
    let lines = plan.fields();
    let mut files = Vec::new();
    for line in [1, 3] {
        let texts = |field| if line == 1 { first_line_texts(plan, field) } else { activity_texts(plan, field) };
        let mut file = |fields: &[(usize, &str)], number| {
            let mut lines = lines.clone();
            for &(field, text) in fields {
                lines[line - 1][field] = text.to_string();
            }
            files.push((join(&lines), Refusal { number, line }));
        };
        for field in 1..lines[line - 1].len() {
            for (text, number) in texts(field) {
                file(&[(field, &text)], number);
            }
            for other in field + 1..lines[line - 1].len() {
                for wanted in [3, 4, 8, 13] {
                    if let Some((text, number)) = texts(field).iter().find(|text| text.1 == wanted) {
                        let lower = texts(other).into_iter().find(|text| text.1 == 3).unwrap();
                        file(&[(field, text), (other, &lower.0)], *number);
                    }
                }
            }
        }
    }
    files
}

// Faulty texts for a field of the first line, each with its number.
fn first_line_texts(plan: &Plan, field: usize) -> Vec<(String, u32)> {
    let high = match field {
        1 => 4_096,
        2 => 1_439,
        3 | 10 => 1_000_000_000,
        4 | 5 | 7 => plan.capacity,
        8 => 64,
        _ => 1_000_000,
    };
    let mut texts = number_texts(high);
    match field {
        1 | 3 => texts.push(("0".to_string(), 4)),
        5 if plan.floor > 0 => texts.push(((plan.floor - 1).to_string(), 4)),
        _ => {}
    }
    texts
}

// The same for a line of an activity.
fn activity_texts(plan: &Plan, field: usize) -> Vec<(String, u32)> {
    let high = match field {
        1 | 2 => 65_535,
        3 => plan.horizon,
        4 => 4_095,
        10 => 64,
        11 | 12 => 1_000_000,
        13 => 1_000_000_000,
        _ => 1,
    };
    let mut texts = number_texts(high);
    if field == 3 {
        texts.push(("0".to_string(), 4));
    }
    let list = match field {
        5 => WINDOWS,
        6 => AFTER,
        7 => UNITS,
        8 | 9 => VALUES,
        _ => return texts,
    };
    list.iter().map(|&(text, number)| (text.to_string(), number)).collect()
}

fn number_texts(high: i64) -> Vec<(String, u32)> {
    let mut texts = vec![((high + 1).to_string(), 4), ("9999999999".to_string(), 4)];
    for text in ["", "00", "07", "-", "-1", "+1", "1 ", "x", "1,2", "1:2", "10000000000", "0x1", "1\r"] {
        texts.push((text.to_string(), 3));
    }
    texts
}

#[rustfmt::skip]
const WINDOWS: &[(&str, u32)] = &[
    ("", 3), ("5", 3), ("0:8", 3), ("1:2:3:4", 3), ("1:2:3:", 3), ("1:2:", 3), ("1::2", 3), (":1:2", 3), ("::", 3),
    ("0:1:1,", 3), (",0:1:1", 3), ("0:1:1,-", 3), ("-,0:1:1", 3), ("0:1:1,2:3", 3), ("0:1,2:3:4", 3), ("--", 3),
    ("0=1=1", 3), ("0:1=1", 3), ("00:1:1", 3), ("0:01:1", 3), ("0:-1:1", 3), ("0:x:1", 3), ("9:8:8,x", 3),
    ("5:4:9,x", 3), ("4096:0:1,1", 3), ("0:0:10000000000", 3), ("0:10000000000:0", 3),
    ("4096:4096:4097", 4), ("5:5:4096", 4), ("5:4096:4095", 4), ("0:4096:4095", 4), ("0:9999999999:1", 4),
    ("9:9:8,4096:4096:4096", 4), ("0:0:1,1:1:2,0:0:9999999999", 4), ("4096:0:0", 4), ("5:4:9,4096:0:0", 4),
    ("9:8:7,0:4096:0", 4), ("0:0:0,1:1:1,2:2:2,3:3:3,4:4096:4", 4),
    ("9:9:8", 8), ("9:8:8", 8), ("9:20:8", 8), ("9:0:8", 8), ("0:0:1,1:1:2", 8), ("3:3:4,0:0:1", 8), ("0:2:5,3:3:4", 8),
    ("1:1:1,1:1:1", 8), ("0:0:1,2:2:3,4:4:5,6:6:7,8:8:9", 8), ("5:4:9,9:9:9", 8), ("5:9:4,6:6:6", 8),
    ("5:4:4,6:6:6", 8), ("0:1:0,2:2:3,4:4:5,6:6:7,8:8:9", 8), ("0:0:1,2:1:3,4:4:5,6:6:7,8:8:9", 8),
    ("5:4:9", 13), ("5:10:9", 13), ("0:1:0", 13), ("5:4:5", 13), ("5:6:5", 13), ("0:4095:4094", 13), ("1:0:4095", 13),
    ("4095:4094:4095", 13), ("0:0:1,3:2:4", 13), ("0:2:1,3:3:4", 13), ("0:3:1,3:3:4", 13), ("0:0:1,3:0:4", 13),
    ("0:0:0,1:1:1,2:2:2,3:4:3", 13), ("0:1:1,2:1:3,4:6:5", 13),
];

#[rustfmt::skip]
const AFTER: &[(&str, u32)] = &[
    ("", 3), ("1,,2", 3), ("1,", 3), (",1", 3), ("-,1", 3), ("1,-", 3), ("1:2", 3), ("01", 3), ("65536,x", 3),
    ("2,1,", 3), ("10000000000", 3), ("65536", 4), ("2,1,65536", 4), ("65536,65536", 4), ("9999999999", 4),
    ("1,1", 8), ("2,1", 8), ("0,1,2,3,4,5,6,7,8", 8), ("1,2,3,2", 8),
];

#[rustfmt::skip]
const UNITS: &[(&str, u32)] = &[
    ("", 3), ("1,,2", 3), ("1,", 3), (",1", 3), ("-,1", 3), ("1,-", 3), ("1=2", 3), ("01", 3), ("32,x", 3),
    ("32", 4), ("2,1,32", 4), ("0,1,99", 4), ("9999999999", 4),
    ("1,1", 8), ("2,1", 8), ("0,0", 8), ("1,2,3,4,5,6,7,8,9,8", 8),
    ("0,1,2,3,4,5,6,7,8,9,10,11,12,13,14,15,16,17,18,19,20,21,22,23,24,25,26,27,28,29,30,31,31", 8),
    ("0,1,2,3,4,5,6,7,8,9,10,11,12,13,14,15,16,17,18,19,20,21,22,23,24,25,26,27,28,29,30,31,32", 4),
];

#[rustfmt::skip]
const VALUES: &[(&str, u32)] = &[
    ("", 3), ("5", 3), ("1=", 3), ("=1", 3), ("=", 3), ("1=2=3", 3), ("0=1,", 3), (",0=1", 3), ("0=1,-", 3),
    ("-,0=1", 3), ("0:1", 3), ("0=01", 3), ("1=1,0=x", 3), ("8=1,1", 3), ("8=0", 4), ("0=256", 4),
    ("1=1,0=256", 4), ("8=0,8=0", 4), ("0=9999999999", 4), ("1=1,1=2", 8), ("2=0,1=0", 8), ("1=1,1=1", 8),
    ("0=0,1=1,2=2,3=3,4=4", 8),
];
