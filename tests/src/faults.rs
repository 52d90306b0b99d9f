// A second reading of the order of checks: every fault of a file is listed with its rank, and the least counts.

use crate::reading::Refusal;

// A fault: its rank, first by stage, then by line or place, then by position in the line; and its field.
#[derive(Clone, Debug, PartialEq, Eq, PartialOrd, Ord)]
pub struct Fault {
    stage: usize,
    line_or_place: usize,
    position: usize,
    pub number: u32,
    pub line: usize,
}

impl Fault {
    pub fn refusal(&self) -> Refusal {
        Refusal { number: self.number, line: self.line }
    }

    // The field the fault is in, where it is in one.
    pub fn field(&self) -> Option<usize> {
        (self.stage == 1 && self.position > FIELDS && self.position < SAME_ID).then(|| self.position - FIELDS)
    }
}

const WHOLE_LINE: usize = 0;
const TOO_MANY: usize = 1;
const FIELDS: usize = 2;
const SAME_ID: usize = 100;

pub fn first_fault(bytes: &[u8]) -> Option<Fault> {
    if bytes.len() > 60_000 {
        return Some(Fault { stage: 0, line_or_place: 0, position: 0, number: 1, line: 0 });
    }
    let text: String = bytes.iter().map(|&b| b as char).collect();
    let lines: Vec<&str> = text.split('\n').collect();
    let whole = lines.len() - 1;
    let mut faults = Vec::new();
    let mut at = |line: usize, position, number| {
        faults.push(Fault { stage: 1, line_or_place: line, position, number, line });
    };
    if !lines[whole].is_empty() || whole == 0 {
        at(whole + 1, WHOLE_LINE, 2);
    }
    let rows: Vec<Vec<&str>> = lines[..whole].iter().map(|line| line.split('\t').collect()).collect();
    for (i, row) in rows.iter().enumerate() {
        let (word, count) = if i == 0 { ("plan", 12) } else { ("act", 15) };
        if row[0] != word || row.len() != count {
            at(i + 1, WHOLE_LINE, 2);
            continue;
        }
        if i > 64 {
            at(i + 1, TOO_MANY, 5);
        }
        for field in 1..count {
            let form = if i == 0 { first_line_form(&rows[0], field) } else { activity_form(&rows[0], field) };
            for number in form.faults(row[field]) {
                at(i + 1, FIELDS + field, number);
            }
        }
        if i > 0 && rows[1..i].iter().any(|earlier| earlier.get(1) == Some(&row[1])) {
            at(i + 1, SAME_ID, 6);
        }
    }
    if faults.is_empty() {
        faults = faults_of_the_whole(&rows);
    }
    faults.into_iter().min()
}

// Refusals 7 and 9 of a file whose lines have no fault.
fn faults_of_the_whole(rows: &[Vec<&str>]) -> Vec<Fault> {
    let mut faults = Vec::new();
    let key = |i: usize| (value(rows[i][2]), i);
    for i in 1..rows.len() {
        let named = |id: &str| (1..rows.len()).any(|j| rows[j][1] == id && key(j) < key(i));
        if rows[i][6] != "-" && !rows[i][6].split(',').all(named) {
            let place = (1..rows.len()).filter(|&j| key(j) < key(i)).count();
            faults.push(Fault { stage: 2, line_or_place: place, position: 0, number: 7, line: i + 1 });
        }
    }
    let first: Vec<i64> = rows[0][1..].iter().map(|text| value(text)).collect();
    let (horizon, capacity, charge, rate, handover) = (first[0], first[2], first[4], first[5], first[6]);
    if capacity.min(charge + rate * horizon) < handover {
        faults.push(Fault { stage: 3, line_or_place: 0, position: 0, number: 9, line: 0 });
    }
    faults
}

// A number that is its own decimal text, of at most ten digits; else -1.
fn value(text: &str) -> i64 {
    match text.parse::<i64>() {
        Ok(n) if n >= 0 && n.to_string() == text && text.len() <= 10 => n,
        _ => -1,
    }
}

// What a field may hold: one number, or a list of items with one to three numbers each.
struct Form {
    low: i64,
    high: Vec<i64>,
    between: char,
    most: Option<usize>,
}

fn single(low: i64, high: i64) -> Form {
    Form { low, high: vec![high], between: ' ', most: None }
}

fn list(high: &[i64], between: char, most: usize) -> Form {
    Form { low: 0, high: high.to_vec(), between, most: Some(most) }
}

fn first_line_form(row: &[&str], field: usize) -> Form {
    match field {
        1 => single(1, 4_096),
        2 => single(0, 1_439),
        3 => single(1, 1_000_000_000),
        4 | 7 => single(0, value(row[3])),
        5 => single(value(row[4]), value(row[3])),
        8 => single(0, 64),
        10 => single(0, 1_000_000_000),
        _ => single(0, 1_000_000),
    }
}

fn activity_form(first: &[&str], field: usize) -> Form {
    match field {
        1 | 2 => single(0, 65_535),
        3 => single(1, first.get(1).map_or(0, |text| value(text))),
        4 => single(0, 4_095),
        5 => list(&[4_095; 3], ':', 4),
        6 => list(&[65_535], ' ', 8),
        7 => list(&[31], ' ', 32),
        8 | 9 => list(&[7, 255], '=', 4),
        10 => single(0, 64),
        13 => single(0, 1_000_000_000),
        14 => single(0, 1),
        _ => single(0, 1_000_000),
    }
}

impl Form {
    fn faults(&self, text: &str) -> Vec<u32> {
        if self.most.is_some() && text == "-" {
            return Vec::new();
        }
        let items: Vec<&str> = if self.most.is_some() { text.split(',').collect() } else { vec![text] };
        let split = |item: &&str| -> Vec<i64> {
            if self.high.len() == 1 {
                vec![value(item)]
            } else {
                item.split(self.between).map(value).collect()
            }
        };
        let numbers: Vec<Vec<i64>> = items.iter().map(split).collect();
        let mut faults = Vec::new();
        if numbers.iter().any(|item| item.len() != self.high.len() || item.contains(&-1)) {
            faults.push(3);
        }
        if numbers.iter().any(|item| item.iter().zip(&self.high).any(|(n, high)| n < &self.low || n > high)) {
            faults.push(4);
        }
        if self.most.is_some_and(|most| items.len() > most) || !self.rises(&numbers) {
            faults.push(8);
        }
        let outside = |item: &Vec<i64>| matches!(item[..], [a, p, b] if p < a || b < p);
        if self.between == ':' && numbers.iter().any(outside) {
            faults.push(13);
        }
        faults
    }

    // Ids, units and variables rise strictly; the bounds of windows rise, strictly from one window to the next.
    fn rises(&self, numbers: &[Vec<i64>]) -> bool {
        let last = |item: &Vec<i64>| if self.between == ':' { item[item.len() - 1] } else { item[0] };
        let own = |item: &Vec<i64>| item[0] <= last(item);
        numbers.iter().all(own) && (1..numbers.len()).all(|i| last(&numbers[i - 1]) < numbers[i][0])
    }
}
