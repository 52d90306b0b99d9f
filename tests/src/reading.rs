// Reading a plan file: the plan, or the first refusal in the order of checks of documents 01 and 02.

use crate::plan::{Activity, Plan, Window};

// A refusal number and the line it is about.
#[derive(Clone, Copy, Debug, PartialEq)]
pub struct Refusal {
    pub number: u32,
    pub line: usize,
}

pub fn refuse<T>(number: u32, line: usize) -> Result<T, Refusal> {
    Err(Refusal { number, line })
}

pub fn read(bytes: &[u8]) -> Result<Plan, Refusal> {
    if bytes.len() > 60_000 {
        return refuse(1, 0);
    }
    let plan = read_lines(bytes)?;
    names_earlier_places(&plan)?;
    let mut charge = plan.first_charge;
    for _ in 0..plan.horizon {
        charge = plan.capacity.min(charge + plan.rate);
    }
    if charge < plan.handover {
        return refuse(9, 0);
    }
    Ok(plan)
}

// Refusals 2 to 6, 8 and 13, line by line.
fn read_lines(bytes: &[u8]) -> Result<Plan, Refusal> {
    let (fields, mut rest) = split_line(bytes, b"plan", 12, 1)?;
    let mut plan = read_first(&fields).or_else(|number| refuse(number, 1))?;
    let mut line = 2;
    while !rest.is_empty() {
        let (fields, behind) = split_line(rest, b"act", 15, line)?;
        if plan.activities.len() == 64 {
            return refuse(5, line);
        }
        let activity = read_activity(&fields, plan.horizon).or_else(|number| refuse(number, line))?;
        if plan.activities.iter().any(|earlier| earlier.id == activity.id) {
            return refuse(6, line);
        }
        plan.activities.push(activity);
        rest = behind;
        line += 1;
    }
    Ok(plan)
}

// The fields of the first line of `bytes` and what is behind it, or refusal 2.
fn split_line<'a>(
    bytes: &'a [u8],
    word: &[u8],
    count: usize,
    line: usize,
) -> Result<(Vec<&'a [u8]>, &'a [u8]), Refusal> {
    let Some(end) = bytes.iter().position(|&b| b == b'\n') else {
        return refuse(2, line);
    };
    let fields: Vec<&[u8]> = bytes[..end].split(|&b| b == b'\t').collect();
    if fields[0] != word || fields.len() != count {
        return refuse(2, line);
    }
    Ok((fields, &bytes[end + 1..]))
}

fn read_first(fields: &[&[u8]]) -> Result<Plan, u32> {
    let horizon = number(fields[1], 1, 4_096)?;
    let minute = number(fields[2], 0, 1_439)?;
    let capacity = number(fields[3], 1, 1_000_000_000)?;
    let floor = number(fields[4], 0, capacity)?;
    Ok(Plan {
        horizon,
        minute,
        capacity,
        floor,
        first_charge: number(fields[5], floor, capacity)?,
        rate: number(fields[6], 0, 1_000_000)?,
        handover: number(fields[7], 0, capacity)?,
        engines: number(fields[8], 0, 64)?,
        peak: number(fields[9], 0, 1_000_000)?,
        volume: number(fields[10], 0, 1_000_000_000)?,
        heater: number(fields[11], 0, 1_000_000)?,
        activities: Vec::new(),
    })
}

fn read_activity(fields: &[&[u8]], horizon: i64) -> Result<Activity, u32> {
    Ok(Activity {
        id: number(fields[1], 0, 65_535)?,
        priority: number(fields[2], 0, 65_535)?,
        duration: number(fields[3], 1, horizon)?,
        preferred: number(fields[4], 0, 4_095)?,
        windows: windows(fields[5])?,
        after: numbers(fields[6], 65_535, 8)?,
        units: numbers(fields[7], 31, 32)?,
        needs: values(fields[8])?,
        sets: values(fields[9])?,
        engines: number(fields[10], 0, 64)?,
        peak: number(fields[11], 0, 1_000_000)?,
        draw: number(fields[12], 0, 1_000_000)?,
        volume: number(fields[13], 0, 1_000_000_000)?,
        warm: number(fields[14], 0, 1)?,
    })
}

// Up to 4 windows, each `a:p:b`, each beginning after the last one's end, and each p from its a to its b.
pub fn windows(field: &[u8]) -> Result<Vec<Window>, u32> {
    let list = items(field, window)?;
    if list.iter().any(|w| w.from > 4_095 || w.preferred > 4_095 || w.to > 4_095) {
        return Err(4);
    }
    let rising = list.windows(2).all(|two| two[0].to < two[1].from);
    if list.len() > 4 || !rising || list.iter().any(|w| w.from > w.to) {
        return Err(8);
    }
    if list.iter().any(|w| w.preferred < w.from || w.preferred > w.to) {
        return Err(13);
    }
    Ok(list)
}

// Up to `most` numbers, none above `high`, rising.
pub fn numbers(field: &[u8], high: i64, most: usize) -> Result<Vec<i64>, u32> {
    let list = items(field, digits)?;
    if list.iter().any(|&n| n > high) {
        return Err(4);
    }
    if list.len() > most || !list.windows(2).all(|two| two[0] < two[1]) {
        return Err(8);
    }
    Ok(list)
}

// Up to 4 `v=k`, the variables rising.
pub fn values(field: &[u8]) -> Result<Vec<(i64, i64)>, u32> {
    let list = items(field, value)?;
    if list.iter().any(|&(v, k)| v > 7 || k > 255) {
        return Err(4);
    }
    if list.len() > 4 || !list.windows(2).all(|two| two[0].0 < two[1].0) {
        return Err(8);
    }
    Ok(list)
}

// A field of one number.
pub fn number(field: &[u8], low: i64, high: i64) -> Result<i64, u32> {
    match digits(field) {
        None => Err(3),
        Some(n) if n < low || n > high => Err(4),
        Some(n) => Ok(n),
    }
}

// The items of a list, or 3 if one is malformed.
fn items<T>(field: &[u8], item: impl Fn(&[u8]) -> Option<T>) -> Result<Vec<T>, u32> {
    if field == b"-" {
        return Ok(Vec::new());
    }
    field.split(|&b| b == b',').map(|text| item(text).ok_or(3)).collect()
}

fn window(item: &[u8]) -> Option<Window> {
    let [from, preferred, to] = parts(item, b':')?;
    Some(Window { from, preferred, to })
}

fn value(item: &[u8]) -> Option<(i64, i64)> {
    let [variable, value] = parts(item, b'=')?;
    Some((variable, value))
}

// So many numbers with one byte between each two.
fn parts<const COUNT: usize>(item: &[u8], between: u8) -> Option<[i64; COUNT]> {
    let numbers: Option<Vec<i64>> = item.split(|&b| b == between).map(digits).collect();
    numbers?.try_into().ok()
}

// A number: 1 to 10 digits, no leading zero unless it is 0.
pub fn digits(text: &[u8]) -> Option<i64> {
    if text.is_empty() || text.len() > 10 || (text[0] == b'0' && text.len() > 1) {
        return None;
    }
    let mut n = 0;
    for &b in text {
        if !b.is_ascii_digit() {
            return None;
        }
        n = n * 10 + (b - b'0') as i64;
    }
    Some(n)
}

// Refusal 7, least place first.
fn names_earlier_places(plan: &Plan) -> Result<(), Refusal> {
    let mut earlier = Vec::new();
    for i in plan.order() {
        let activity = &plan.activities[i];
        if activity.after.iter().any(|id| !earlier.contains(id)) {
            return refuse(7, i + 2);
        }
        earlier.push(activity.id);
    }
    Ok(())
}
