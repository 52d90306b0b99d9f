// Damaged plan files.

use crate::knots::idle;
use crate::plan::{join, Plan};
use crate::random::Random;

pub use crate::aim::{aimed, sweep};

// Bytes that are likely to matter.
const BYTES: &[u8] = b"0123456789\t\n,:=-\t\n plact\r\0\xff+.";

// Texts put into fields: ends of ranges, numbers beyond them, malformed ones, lists.
#[rustfmt::skip]
const TEXTS: &[&str] = &[
    "0", "1", "2", "3", "7", "8", "31", "32", "64", "65", "255", "256", "1439", "1440", "4095", "4096", "4097",
    "65535", "65536", "1000000", "1000001", "1000000000", "1000000001", "9999999999", "10000000000", "00", "07",
    "-", "--", "-1", "+1", "1.0", " 1", "1 ", "", "x", "plan", "act", ",", "0,", ",0", "0,,1", "0,1", "1,0", "1,1",
    "0:0:0", "0:0:4095", "0:4095:4095", "0:9:4096", "0:4096:9", "9:9:8", "9:8:8", "5:4:9", "5:10:9", "0:1:1,2:2:3",
    "0:0:1,1:2:2", "0:1:1,2:1:3", "0:0:1,2:2:3,4:5:5,6:6:7", "0:0:1,2:3:3,4:4:5,6:6:7,8:8:9", "1", "1:", ":1", "1:2",
    "1:2:3:4", "0:1:1,-", "0=0", "7=255", "8=0", "0=256", "0=0,1=1,2=2,3=3", "0=0,1=1,2=2,3=3,4=4", "1=1,1=2",
    "2=0,1=0", "1=", "=1", "1=2=3", "1:2:3=4", "0,1,2,3,4,5,6,7", "0,1,2,3,4,5,6,7,8", "70000,1,x", "9:8:7,5000:1:1",
    "9:8:7,5000:x:1", "1=256,1=0",
];

// One to four changes of bytes.
pub fn bytes(random: &mut Random, mut bytes: Vec<u8>) -> Vec<u8> {
    for _ in 0..random.range(1, 4) {
        if bytes.is_empty() {
            break;
        }
        let at = random.below(bytes.len());
        match random.range(0, 6) {
            0 => drop(bytes.remove(at)),
            1 => bytes[at] = *random.pick(BYTES),
            2 => bytes.insert(at, *random.pick(BYTES)),
            3 => bytes[at] = random.range(0, 255) as u8,
            4 => bytes.insert(at, bytes[at]),
            5 => drop(bytes.drain(at..(at + 7).min(bytes.len()))),
            _ if random.chance(25) => bytes.truncate(at),
            _ => bytes.swap(at, at.saturating_sub(1)),
        }
    }
    bytes
}

// One to three changes of fields.
pub fn fields(random: &mut Random, plan: Plan) -> Vec<u8> {
    let mut lines = plan.fields();
    for _ in 0..random.range(1, 3) {
        let line = random.below(lines.len());
        if lines[line].len() < 2 {
            continue;
        }
        let at = random.range(1, lines[line].len() as i64 - 1) as usize;
        let other = random.below(lines[line].len());
        match random.range(0, 9) {
            0..=3 => lines[line][at] = random.pick(TEXTS).to_string(),
            4 => lines[line].swap(at, other),
            5 => lines[line][at] = next_to(random, &lines[line][at]),
            6 => {
                let more = random.pick(TEXTS).to_string();
                lines[line][at] += &format!(",{more}");
            }
            7 => drop(lines[line].remove(at)),
            8 => lines[line].insert(at, random.pick(TEXTS).to_string()),
            _ => {
                let from = random.below(lines.len());
                if let Some(text) = lines[from].get(at) {
                    lines[line][at] = text.clone();
                }
            }
        }
    }
    join(&lines)
}

// A text with one of its numbers one up or down, or the text itself.
fn next_to(random: &mut Random, text: &str) -> String {
    let digit = |i: usize| text.as_bytes()[i].is_ascii_digit();
    let begins: Vec<usize> = (0..text.len()).filter(|&i| digit(i) && (i == 0 || !digit(i - 1))).collect();
    if begins.is_empty() {
        return text.to_string();
    }
    let begin = *random.pick(&begins);
    let end = (begin..text.len()).find(|&i| !digit(i)).unwrap_or(text.len());
    let number: i64 = text[begin..end].parse().expect("a number");
    format!("{}{}{}", &text[..begin], number + *random.pick(&[-1, 1]), &text[end..])
}

// One to three changes of lines.
pub fn lines(random: &mut Random, mut plan: Plan) -> Vec<u8> {
    if random.chance(20) {
        add_activities(random, &mut plan);
    }
    let mut lines = plan.fields();
    for _ in 0..random.range(0, 2) {
        let (one, other) = (random.below(lines.len()), random.below(lines.len()));
        match random.range(0, 4) {
            0 => lines.insert(other, lines[one].clone()),
            1 if lines.len() > 1 => drop(lines.remove(one)),
            2 => lines.swap(one, other),
            3 => lines.insert(other, vec![String::new()]),
            _ => {
                let kept = random.below(lines[one].len() + 1);
                lines[one].truncate(kept);
            }
        }
    }
    let mut bytes = join(&lines);
    match random.range(0, 9) {
        0..=3 => drop(bytes.pop()),
        4 => bytes.push(b'\n'),
        5 => bytes = String::from_utf8(bytes).unwrap().replace('\n', "\r\n").into_bytes(),
        6 => {
            let ends: Vec<usize> = (0..bytes.len()).filter(|&i| bytes[i] == b'\n').collect();
            bytes[*random.pick(&ends)] = b'\t';
        }
        _ => {}
    }
    bytes
}

// Activities that ask for nothing, up to 64, 65 or 66 of them.
fn add_activities(random: &mut Random, plan: &mut Plan) {
    let count = random.range(64, 66) as usize;
    let mut id = 65_000;
    while plan.activities.len() < count {
        plan.activities.push(idle(1));
        plan.activities.last_mut().unwrap().id = id;
        id += 1;
    }
}

// Bytes that were never a plan.
pub fn noise(random: &mut Random) -> Vec<u8> {
    let length = *random.pick(&[0, 0, 1, 2, 5, 30, 200]);
    match random.range(0, 2) {
        0 => (0..length).map(|_| random.range(0, 255) as u8).collect(),
        1 => (0..length).map(|_| *random.pick(BYTES)).collect(),
        _ => b"plan\t20\t840\t100\t20\t40\t1\t0\t1\t10\t50\t1\nact\t"[..(length as usize).min(40)].to_vec(),
    }
}

// A file of about 60,000 bytes.
pub fn large(random: &mut Random, mut plan: Plan) -> Vec<u8> {
    let length = *random.pick(&[59_999, 60_000, 60_000, 60_000, 60_001, 60_001, 60_002, 61_000, 200_000]);
    if plan.activities.is_empty() {
        plan.activities.push(idle(1));
    }
    let mut lines = plan.fields();
    let line = random.range(1, lines.len() as i64 - 1) as usize;
    match random.range(0, 2) {
        0 => {
            let field = random.range(6, 7) as usize;
            lines[line][field] = String::new();
            lines[line][field] = long_list(random, length - join(&lines).len());
            join(&lines)
        }
        1 => {
            let field = random.range(1, 14) as usize;
            lines[line][field] = String::new();
            lines[line][field] = "1".repeat(length - join(&lines).len());
            join(&lines)
        }
        _ => {
            let mut bytes = join(&lines);
            let again = join(&lines[line..=line]);
            while bytes.len() + again.len() < length {
                bytes.extend(&again);
            }
            bytes.resize(length, *random.pick(BYTES));
            bytes
        }
    }
}

// A list of `length` bytes with far too many items, now and then with another fault in it.
fn long_list(random: &mut Random, length: usize) -> String {
    let mut text = "1,".repeat(length / 2);
    if length % 2 == 0 {
        text.pop();
        text += "2";
    } else {
        text += "1";
    }
    match random.range(0, 3) {
        0 => text.replace_range(length - 3..length - 2, "x"),
        1 => text.replace_range(10..18, "65536,65"),
        _ => {}
    }
    text
}
