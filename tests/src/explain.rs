// The text of `bin/explain` (docs/EXPLAIN.md): what is made of a file, in words.

use crate::calls::{letters, starts_in};
use crate::conditions::LETTERS;
use crate::placing::{schedule, Outcome, Schedule, ALL};
use crate::plan::Plan;
use crate::reading::{digits, number, numbers, read, values, windows, Refusal};

pub fn explain(bytes: &[u8]) -> Vec<u8> {
    let text = match read(bytes) {
        Ok(plan) => accepted(&plan),
        Err(refusal) => refused(bytes, refusal),
    };
    text.into_bytes()
}

// The refusals that a file may draw, with their words.
const REFUSALS: [(u32, &str); 10] = [
    (1, "the file has more than 60000 bytes"),
    (2, "the first word or the number of fields is wrong, or the line does not end in LF"),
    (3, "a number or an item of a list is not written as it must be, or the field is empty"),
    (4, "a number is out of its range"),
    (5, "this is the 65th activity line, and a plan has at most 64"),
    (6, "an earlier line has the same id"),
    (7, "after names an id that no activity at an earlier place has"),
    (8, "the list does not rise, a window ends before it begins, or there are too many items"),
    (9, "with nothing placed, the charge at the horizon is under the handover charge"),
    (13, "a preferred tick lies outside its window"),
];

// What the first line must be, and its fields from 1 on.
const FIRST_LINE: [&str; 12] = [
    "12 fields parted by one tab each, the first of them plan, and LF at the end",
    "horizon, 1 to 4096",
    "minute of day at tick 0, 0 to 1439",
    "capacity, 1 to 1000000000",
    "floor, 0 to the capacity",
    "first charge, the floor to the capacity",
    "charging rate, 0 to 1000000",
    "handover charge, 0 to the capacity",
    "engines, 0 to 64",
    "peak limit, 0 to 1000000",
    "volume limit, 0 to 1000000000",
    "heater draw, 0 to 1000000",
];

// The same of every other line.
const OTHER_LINE: [&str; 15] = [
    "15 fields parted by one tab each, the first of them act, and LF at the end",
    "id, 0 to 65535",
    "priority, 0 to 65535",
    "duration, 1 to the horizon",
    "preferred tick, 0 to 4095",
    "windows, - or up to 4 of the form a:p:b, 0 to 4095, each a at most its b and above the b before, each p from its a to \
     its b",
    "after, - or up to 8 ids, 0 to 65535, rising",
    "units, - or up to 32 numbers, 0 to 31, rising",
    "needs, - or up to 4 of the form v=k, v 0 to 7 and rising, k 0 to 255",
    "sets, - or up to 4 of the form v=k, v 0 to 7 and rising, k 0 to 255",
    "engines, 0 to 64",
    "peak, 0 to 1000000",
    "draw, 0 to 1000000",
    "volume, 0 to 1000000000",
    "warm, 0 or 1",
];

// The words of the letters, in their order.
const CONDITIONS: [&str; 9] = [
    "the start is in one of its windows",
    "each activity in after is placed and ends by the start",
    "no placed activity that shares a unit holds one of its ticks",
    "every need, its own and those of the placed, is met in each tick that its activity holds",
    "in every tick the engines sum to at most those of the plan",
    "in every tick the peaks sum to at most the peak limit",
    "the charge keeps the floor, and the handover charge at the horizon",
    "the volumes sum to at most the volume limit",
    "the warm-up begins at tick 0 or later",
];

fn refused(bytes: &[u8], refusal: Refusal) -> String {
    let Refusal { number, line } = refusal;
    let (_, words) = REFUSALS.iter().find(|words| words.0 == number).expect("a refusal of a file");
    let said = format!("refused {number} at line {line}: {words}\n");
    if line == 0 {
        return said;
    }
    let fields = fields_of(bytes, line);
    let must_be = if line == 1 { &FIRST_LINE[..] } else { &OTHER_LINE[..] };
    let about = said + &numbered("line", line, line_of(bytes, line)) + &format!("fields: {}\n", fields.len());
    match field_of(bytes, refusal) {
        None => about + &format!("must be: {}\n", must_be[0]),
        Some(field) => about + &numbered("field", field + 1, fields[field]) + &format!("must be: {}\n", must_be[field]),
    }
}

// A line or field with its number and bytes. Where these are none or end in a space, so does the line of the text.
fn numbered(name: &str, number: usize, bytes: &[u8]) -> String {
    format!("{name} {number}: {}\n", shown(bytes))
}

// All bytes of a line, counted from 1.
fn line_of(bytes: &[u8], line: usize) -> &[u8] {
    bytes.split_inclusive(|&byte| byte == b'\n').nth(line - 1).unwrap_or_default()
}

// The parts between tabs of all bytes of a line but its last.
fn fields_of(bytes: &[u8], line: usize) -> Vec<&[u8]> {
    let whole = line_of(bytes, line);
    whole[..whole.len().saturating_sub(1)].split(|&byte| byte == b'\t').collect()
}

// Bytes as they are written in the text.
fn shown(bytes: &[u8]) -> String {
    let one = |&byte: &u8| match byte {
        b'\\' => "\\\\".to_string(),
        b'\t' => "\\t".to_string(),
        b'\n' => "\\n".to_string(),
        b'\r' => "\\r".to_string(),
        32..=126 => (byte as char).to_string(),
        _ => format!("\\x{byte:02x}"),
    };
    bytes.iter().map(one).collect()
}

// The field that draws a refusal, if it is one of a field.
fn field_of(bytes: &[u8], refusal: Refusal) -> Option<usize> {
    match refusal.number {
        3 | 4 | 8 | 13 => Some(first_wrong(bytes, refusal)),
        6 => Some(1),
        7 => Some(6),
        _ => None,
    }
}

// The first field of a line that is wrong. It must draw the refusal that reading gave.
fn first_wrong(bytes: &[u8], refusal: Refusal) -> usize {
    let (first, fields) = (fields_of(bytes, 1), fields_of(bytes, refusal.line));
    let draws = |field: usize| match refusal.line {
        1 => first_line_draws(&fields, field),
        _ => other_line_draws(&fields, field, value(first[1])),
    };
    let wrong = (1..fields.len()).find(|&field| draws(field).is_some()).expect("a field that is wrong");
    assert_eq!(draws(wrong), Some(refusal.number), "field {wrong}");
    wrong
}

// A field that is a number.
fn value(field: &[u8]) -> i64 {
    digits(field).expect("a number")
}

// What a field of the first line draws if those before it are right: 3, 4 or nothing.
fn first_line_draws(fields: &[&[u8]], field: usize) -> Option<u32> {
    let (low, high) = match field {
        1 => (1, 4_096),
        2 => (0, 1_439),
        3 => (1, 1_000_000_000),
        4 => (0, value(fields[3])),
        5 => (value(fields[4]), value(fields[3])),
        6 => (0, 1_000_000),
        7 => (0, value(fields[3])),
        8 => (0, 64),
        9 => (0, 1_000_000),
        10 => (0, 1_000_000_000),
        _ => (0, 1_000_000),
    };
    number(fields[field], low, high).err()
}

// The same of another line: 3, 4, 8, 13 or nothing.
fn other_line_draws(fields: &[&[u8]], field: usize, horizon: i64) -> Option<u32> {
    let text = fields[field];
    match field {
        1 | 2 => number(text, 0, 65_535).err(),
        3 => number(text, 1, horizon).err(),
        4 => number(text, 0, 4_095).err(),
        5 => windows(text).err(),
        6 => numbers(text, 65_535, 8).err(),
        7 => numbers(text, 31, 32).err(),
        8 | 9 => values(text).err(),
        10 => number(text, 0, 64).err(),
        11 | 12 => number(text, 0, 1_000_000).err(),
        13 => number(text, 0, 1_000_000_000).err(),
        _ => number(text, 0, 1).err(),
    }
}

fn accepted(plan: &Plan) -> String {
    let count = plan.activities.len();
    let schedule = schedule(plan, count);
    let places = (0..count).map(|place| placed_or_refused(&schedule, place));
    format!("accepted, activities: {count}\n") + &places.collect::<String>()
}

fn placed_or_refused(schedule: &Schedule, place: usize) -> String {
    let activity = schedule.places[place].activity;
    let said = format!("place {place}, activity {}", activity.id);
    match schedule.places[place].outcome {
        Outcome::Placed(start) => {
            let (end, valid) = (start + activity.duration, runs(schedule, place, ALL));
            format!("{said}: placed from {start} to {end}\n  valid starts: {valid}\n")
        }
        Outcome::Refused(set) => {
            let named = (0..9).filter(|c| set & 1 << c != 0).map(|c| letter(schedule, place, set, c));
            format!("{said}: refused {}\n", letters(set)) + &named.collect::<String>()
        }
    }
}

// A letter of a refusal, by its number.
fn letter(schedule: &Schedule, place: usize, set: u32, c: usize) -> String {
    let without = |set: u32| runs(schedule, place, set - (1 << c));
    let lines = [
        format!("  {}: {}\n", &LETTERS[c..=c], CONDITIONS[c]),
        format!("    starts that meet the other letters: {}\n", without(set)),
        format!("    starts that meet all other conditions: {}\n", without(ALL)),
    ];
    lines.concat()
}

// The runs of starts that meet a set.
fn runs(schedule: &Schedule, place: usize, set: u32) -> String {
    let runs = starts_in(schedule, place, set, usize::MAX).expect("a place and a set");
    if runs.is_empty() {
        return "none".to_string();
    }
    runs.iter().map(|(first, last)| format!("{first}-{last}")).collect::<Vec<_>>().join(" ")
}
