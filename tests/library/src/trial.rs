// One call of the library, compared with what the scheduler answers.

use crate::lent::{Guarded, Lent};
use crate::raw::{of_refusal, planner_outcome, planner_report, planner_starts, said};
use differential::reading::{refuse, Refusal};
use std::fmt;
use std::ptr::{null, null_mut};

// Bytes of a record: its first and its last start.
const RECORD: usize = 8;

#[derive(Clone, Copy)]
pub enum Call {
    Outcome { place: usize },
    Report { room: usize },
    Starts { place: usize, set: u32, room: usize },
}

impl fmt::Display for Call {
    fn fmt(&self, out: &mut fmt::Formatter) -> fmt::Result {
        match self {
            Call::Outcome { place } => write!(out, "outcome of place {place}"),
            Call::Report { room } => write!(out, "report into {room} bytes"),
            Call::Starts { place, set, room } => write!(out, "starts of place {place}, set {set}, into {room} records"),
        }
    }
}

impl Call {
    // The bytes lent to it.
    pub fn lent(self) -> usize {
        match self {
            Call::Outcome { .. } => 0,
            Call::Report { room } => room,
            Call::Starts { room, .. } => room * RECORD,
        }
    }
}

// What a call answers, and what it writes to the front of a slice that is long enough.
pub struct Answer {
    pub number: u64,
    pub written: Vec<u8>,
}

// A call, and its answer or refusal in a slice that is long enough.
#[derive(Clone, Copy)]
pub struct Asked<'a> {
    pub call: Call,
    pub answer: &'a Result<Answer, Refusal>,
}

impl Asked<'_> {
    // What is expected in the slice lent: refusal 10 where the answer doesn't fit.
    pub fn expected(&self) -> Result<&Answer, Refusal> {
        match self.answer {
            Err(refusal) => Err(*refusal),
            Ok(answer) if answer.written.len() > self.call.lent() => refuse(10, 0),
            Ok(answer) => Ok(answer),
        }
    }
}

// A file for the calls, and the buffer that their slices are taken from.
pub struct Trial {
    plan: Guarded,
    lent: Lent,
    calls: usize,
}

impl Trial {
    pub fn new(bytes: &[u8], rest: usize) -> Trial {
        Trial { plan: Guarded::new(bytes, rest), lent: Lent::new(), calls: 0 }
    }

    // Makes a call: its number and its slice must be as expected, and everything else as it was.
    pub fn make(&mut self, asked: Asked) -> Result<(), String> {
        let call = asked.call;
        let number = self.answered(call);
        let (wanted, written) = match asked.expected() {
            Ok(answer) => (answer.number, &answer.written[..]),
            Err(refusal) => (of_refusal(refusal), &[][..]),
        };
        if number != wanted {
            return Err(format!("{call}: library {}, scheduler {}", said(number), said(wanted)));
        }
        if !self.plan.unchanged() {
            return Err(format!("{call}: the plan's bytes or those around them aren't as they were"));
        }
        self.lent.check(written).map_err(|said| format!("{call}: {said}"))
    }

    fn answered(&mut self, call: Call) -> u64 {
        self.calls += 1;
        let length = self.plan.length();
        let plan = if self.no_address(length) { null() } else { self.plan.pointer() };
        let out = self.lend(call);
        // Each slice is as long as said, at an address fit for its items, and apart from the plan.
        unsafe {
            match call {
                Call::Outcome { place } => planner_outcome(plan, length, place),
                Call::Report { room } => planner_report(plan, length, out, room),
                Call::Starts { place, set, room } => planner_starts(plan, length, place, set, out.cast(), room),
            }
        }
    }

    // Every second slice of no bytes has no address.
    fn no_address(&self, length: usize) -> bool {
        length == 0 && self.calls % 2 == 0
    }

    // A slice for a call: bytes at any address, records at a multiple of 4.
    fn lend(&mut self, call: Call) -> *mut u8 {
        let rest = match call {
            Call::Report { .. } => self.calls % 16,
            _ => self.calls % 4 * 4,
        };
        let out = self.lent.lend(call.lent(), rest);
        if self.no_address(call.lent()) {
            return null_mut();
        }
        out
    }
}
