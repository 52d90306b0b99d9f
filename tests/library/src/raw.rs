// The library's C functions, and the number that they answer.

use differential::placing::Outcome;
use differential::reading::Refusal;

// A run of starts, as C has it.
#[repr(C)]
pub struct Interval {
    pub first: u32,
    pub last: u32,
}

extern "C" {
    pub fn planner_outcome(plan: *const u8, plan_length: usize, place: usize) -> u64;
    pub fn planner_report(plan: *const u8, plan_length: usize, out: *mut u8, out_length: usize) -> u64;
    pub fn planner_starts(
        plan: *const u8,
        plan_length: usize,
        place: usize,
        set: u32,
        out: *mut Interval,
        out_count: usize,
    ) -> u64;
}

// The number for a refusal.
pub fn of_refusal(refusal: Refusal) -> u64 {
    (refusal.number as u64) << 32 | refusal.line as u64
}

// The number for an outcome.
pub fn of_outcome(outcome: Outcome) -> u64 {
    match outcome {
        Outcome::Placed(start) => 1 << 40 | start as u64,
        Outcome::Refused(set) => set as u64,
    }
}

// A number in words.
pub fn said(number: u64) -> String {
    let value = number as u32;
    match number >> 32 {
        0 => format!("{value}"),
        0x100 => format!("placed at {value}"),
        of @ 1..=13 => format!("no {of}, line {value}"),
        _ => format!("{number:#x}, which is no answer"),
    }
}
