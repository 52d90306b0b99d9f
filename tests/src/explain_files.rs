// Files for explain beside those made from a seed: every byte, lines of every length, faults behind fields at the ends
// of their ranges, many runs.

use crate::cases::{tabs, A, EXAMPLE, P};
use crate::generator::{fixed, Generated};
use crate::many_runs::{many_runs, many_runs_refused, SHORT};

// All files that aren't made from a seed.
pub fn explain_files() -> Vec<Generated> {
    let mut files = fixed();
    files.extend(every_byte());
    files.extend(cut());
    files.extend(behind_ends());
    files.extend(SHORT.map(many_runs));
    files.extend(SHORT.map(many_runs_refused));
    files
}

fn file(name: String, kind: &'static str, bytes: Vec<u8>) -> Generated {
    Generated { name, kind, bytes, aimed: None }
}

// Each byte as all of the first line, as a field of it, as an id, and behind the file.
fn every_byte() -> Vec<Generated> {
    let mut files = Vec::new();
    for byte in 0..=255 {
        let put = |text: &str| tabs(text).iter().map(|&b| if b == b'?' { byte } else { b }).collect::<Vec<u8>>();
        for (at, bytes) in [
            ("alone", vec![byte]),
            ("in line 1", put(&P.replace("840", "8?0"))),
            ("in an id", put(&(P.to_string() + &A.replace("act 7", "act ?7")))),
            ("behind the file", put(&(EXAMPLE.to_string() + "?"))),
        ] {
            files.push(file(format!("byte {byte} {at}"), "byte", bytes));
        }
    }
    files
}

// Document 01's input, cut off behind each of its bytes.
fn cut() -> Vec<Generated> {
    let whole = tabs(EXAMPLE);
    (0..whole.len()).map(|length| file(format!("cut to {length}"), "cut", whole[..length].to_vec())).collect()
}

// First lines, and lines of an activity behind each, with every number and list at an end of its range.
pub const ENDS: [(&str, &str); 4] = [
    ("plan 1 0 1 0 0 0 0 0 0 0 0", "act 0 0 1 0 - - - - - 0 0 0 0 0"),
    ("plan 1 0 1 1 1 0 1 0 0 0 0", "act 0 0 1 0 0:0:0 0 0 0=0 0=0 0 0 0 0 0"),
    ("plan 1 0 9 7 7 0 9 0 0 0 0", "act 0 0 1 0 4095:4095:4095 65535 31 7=255 7=255 0 0 0 0 1"),
    (
        "plan 4096 1439 1000000000 1000000000 1000000000 1000000 1000000000 64 1000000 1000000000 1000000",
        "act 65535 65535 4096 4095 0:0:0,1:1:1,2:2:2,3:4095:4095 0,1,2,3,4,5,6,65535 \
         0,1,2,3,4,5,6,7,8,9,10,11,12,13,14,15,16,17,18,19,20,21,22,23,24,25,26,27,28,29,30,31 0=255,1=0,2=255,7=255 \
         0=0,5=255,6=0,7=255 64 1000000 1000000 1000000000 1",
    ),
];

// Each of these lines with one field malformed or, if it is one number, out of its range.
fn behind_ends() -> Vec<Generated> {
    let mut files = Vec::new();
    for (which, (first, other)) in ENDS.iter().enumerate() {
        for (before, line) in [("".to_string(), first), (format!("{first}\n"), other)] {
            for field in 1..line.split(' ').count() {
                for text in ["x", "9999999999"] {
                    let name = format!("ends {which}, line {}, field {field} {text}", before.lines().count() + 1);
                    files.push(file(name, "ends", tabs(&(before.clone() + &with_field(line, field, text) + "\n"))));
                }
            }
        }
    }
    files
}

// A line, its fields parted by blanks, with one of them changed.
pub fn with_field(line: &str, field: usize, text: &str) -> String {
    let mut fields: Vec<&str> = line.split(' ').collect();
    fields[field] = text;
    fields.join(" ")
}
