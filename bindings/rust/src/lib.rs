//! The planner of the seabed stations, proved in Rattle, as safe Rust.
//!
//! The calls are those of document 01, with the requests of document 02 that have landed, over a plan file's bytes. A
//! start is a tick, a minute counted from the plan's beginning. An activity is named by its place: its position in the
//! scheduling order, from 0. That order is by priority, the lowest number first, and of equal priorities by line; so a
//! place is neither an id nor a line number. Line k of the report, counted from 0, is the line of place k, and begins with
//! the activity's id: [`place_of`] looks an id up there.
//!
//! Since version 3 a window is `a:p:b`: its first start, its preferred tick and its last start. An activity with windows
//! is placed as near as can be to the p of the window that holds its start; the preferred tick of its line counts only
//! where it has none. A window `a:b`, as before, is malformed.
//!
//! ```
//! use bovkact_planner::{outcome, place_of, report, starts, version, Conditions, Outcome, REPORT_MOST, VERSION};
//!
//! assert_eq!(version(), VERSION);
//!
//! // 20 ticks, and activity 4 has unit 0 in the first two. Activity 5 needs it for 4 ticks; it may start from 0 to 3,
//! // preferred 0, or from 12 to 20, preferred 14.
//! let plan = b"plan\t20\t840\t100\t20\t40\t1\t0\t1\t10\t50\t1\n\
//!              act\t4\t1\t2\t0\t-\t-\t0\t-\t-\t0\t0\t0\t0\t0\n\
//!              act\t5\t2\t4\t0\t0:0:3,12:14:20\t-\t0\t-\t-\t0\t0\t0\t0\t0\n";
//!
//! assert_eq!(outcome(plan, 1)?, Outcome::Placed { start: 14 });
//! assert_eq!(starts(plan, 1, Conditions::ALL)?, [2..=3, 12..=16]);
//! let mut room = [0; REPORT_MOST];
//! let text = report(plan, &mut room)?;
//! assert_eq!(text, b"4\tplaced\t0\t2\n5\tplaced\t14\t18\nend\t2\t0\t60\t0\t40\t0\n");
//! assert_eq!(place_of(text, 5), Some(1));
//! # Ok::<(), bovkact_planner::Refusal>(())
//! ```
//!
//! Every plan is allowed, whatever its bytes and its length, and so are every place, set and slice: each draws an
//! answer or one [`Refusal`], and each call ends. A call that is refused writes nothing; what stands behind an answer
//! in a lent slice remains as it was. The calls use no heap, but for the list that [`starts`] gives, keep nothing from
//! one call to the next and may run in several threads at once. [`STACK_MOST`] says what stack they take; a thread of
//! Rust has 2 MB unless it is told otherwise.
//!
//! # Without std
//!
//! The crate uses `core` alone but for [`starts`], which gives a `Vec` and is there with the feature `alloc`. That
//! feature is on unless the crate is taken with `default-features = false`; [`starts_into`] needs no heap. The folder
//! `bindings/firmware` is a library without std that calls the planner.
//!
//! # Why it is safe
//!
//! The four `unsafe` blocks are the four calls of the library. Its functions are proved for every byte string, place,
//! set and lent slice, so all that is left to the caller is what a reference of Rust says already:
//!
//! - A slice is lent as its own pointer and length. The pointer is not null and is aligned, for an empty slice too, and
//!   a slice has at most `isize::MAX` bytes.
//! - A plan lent as `&[u8]` is only read. An output slice is lent by `&mut`, so that it overlaps no plan and no other
//!   thread sees it. The library keeps no pointer.
//! - What the library may write, bytes and records of two `u32`, is valid whatever its bits; [`Interval`] is laid out
//!   as in C.
//! - A call never unwinds. In a thread whose stack is too small it ends the process, as any function of Rust does: the
//!   library's code touches each page of its stack in turn and so meets the guard page.
//!
//! No memory is trusted to an answer: the front of a slice is taken by an index that Rust checks. A refusal's number
//! over 13, or a length beyond the slice, panics. Neither can come from the proved library, only from another one
//! linked in its place.

#![no_std]
#![deny(missing_docs)]
#![deny(unsafe_op_in_unsafe_fn)]

#[cfg(feature = "alloc")]
extern crate alloc;
#[cfg(test)]
extern crate std;

mod conditions;
mod refusal;

pub use conditions::{Condition, Conditions};
pub use refusal::{Reason, Refusal};

#[cfg(feature = "alloc")]
use alloc::vec::Vec;
use core::ops::RangeInclusive;

#[cfg(not(all(target_arch = "x86_64", any(target_os = "linux", target_os = "none"))))]
compile_error!("libstation.a is for x86-64, with Linux or without an operating system");

/// The version of the library that this crate is for; [`version`] gives that of the one linked.
pub const VERSION: u32 = 3;

/// The most bytes of a plan; a longer one is refused.
pub const PLAN_MOST: usize = 60_000;
/// The most activities of a plan.
pub const ACTIVITIES_MOST: usize = 64;
/// Bytes: room enough for every report.
pub const REPORT_MOST: usize = 1_584;
/// Records: room enough for every list of runs.
pub const RUNS_MOST: usize = 2_048;
/// Bytes of stack that are enough for every call, whatever the plan; [`starts`] takes 16,384 more for its own list.
pub const STACK_MOST: usize = 131_072;

/// How an activity is answered.
///
/// ```
/// use bovkact_planner::{outcome, Outcome};
///
/// let plan = include_bytes!("../../../examples/worked.plan");
/// for place in 0..4 {
///     match outcome(plan, place)? {
///         Outcome::Placed { start } => println!("place {place} starts at {start}"),
///         Outcome::Refused { conditions } => println!("place {place} is refused: {conditions}"),
///     }
/// }
/// # Ok::<(), bovkact_planner::Refusal>(())
/// ```
#[derive(Clone, Copy, Debug, PartialEq, Eq, Hash)]
pub enum Outcome {
    /// It is placed.
    Placed {
        /// Its first tick.
        start: u32,
    },
    /// It is refused.
    Refused {
        /// The conditions that have no start in common; without any one of them the others have.
        conditions: Conditions,
    },
}

/// A run of starts, both bounds included.
///
/// ```
/// use bovkact_planner::Interval;
/// use std::ops::RangeInclusive;
///
/// let run = RangeInclusive::from(Interval { first: 15, last: 18 });
/// assert!(run.contains(&18) && !run.contains(&14));
/// ```
#[derive(Clone, Copy, Debug, Default, PartialEq, Eq, Hash)]
#[repr(C)]
pub struct Interval {
    /// The first start.
    pub first: u32,
    /// The last start.
    pub last: u32,
}

impl From<Interval> for RangeInclusive<u32> {
    fn from(run: Interval) -> RangeInclusive<u32> {
        run.first..=run.last
    }
}

// As in include/planner.h.
extern "C" {
    fn planner_version() -> u32;
    fn planner_outcome(plan: *const u8, plan_length: usize, place: usize) -> u64;
    fn planner_report(plan: *const u8, plan_length: usize, out: *mut u8, out_length: usize) -> u64;
    fn planner_starts(
        plan: *const u8,
        plan_length: usize,
        place: usize,
        set: u32,
        out: *mut Interval,
        out_count: usize,
    ) -> u64;
}

// The value of an answer, or its refusal.
fn value(answer: u64) -> Result<u32, Refusal> {
    let value = answer as u32;
    match (answer >> 32) as u8 {
        0 => Ok(value),
        number => {
            let Some(reason) = Reason::numbered(number) else {
                panic!("there is no refusal {number}: libstation.a isn't the planner");
            };
            Err(Refusal { reason, line: value })
        }
    }
}

// What an answer of planner_outcome says.
fn outcome_of(answer: u64) -> Result<Outcome, Refusal> {
    let value = value(answer)?;
    if answer >> 40 & 1 == 1 {
        Ok(Outcome::Placed { start: value })
    } else {
        Ok(Outcome::Refused { conditions: Conditions::from_bits(value) })
    }
}

// What an answer of the other two says: how much of the slice is written.
fn front<T>(out: &[T], answer: u64) -> Result<&[T], Refusal> {
    Ok(&out[..value(answer)? as usize])
}

/// The version of the library that is linked. A program that is linked with another library than it was compiled for
/// finds out by one comparison with [`VERSION`], before its first call.
pub fn version() -> u32 {
    // SAFETY: nothing is lent.
    unsafe { planner_version() }
}

/// How the activity at a place is answered.
///
/// ```
/// use bovkact_planner::{outcome, Condition, Outcome, Reason};
///
/// let plan = include_bytes!("../../../examples/worked.plan");
/// assert_eq!(outcome(plan, 0)?, Outcome::Placed { start: 10 });
/// assert_eq!(outcome(plan, 1)?, Outcome::Refused { conditions: Condition::W | Condition::D });
/// assert_eq!(outcome(plan, 4).unwrap_err().reason, Reason::NoSuchPlace);
/// # Ok::<(), bovkact_planner::Refusal>(())
/// ```
pub fn outcome(plan: &[u8], place: usize) -> Result<Outcome, Refusal> {
    // SAFETY: the plan is a slice lent for the call, which only reads it.
    outcome_of(unsafe { planner_outcome(plan.as_ptr(), plan.len(), place) })
}

/// The report of a plan, written to the front of `out` and borrowed from it; [`REPORT_MOST`] bytes are always enough.
///
/// It is ASCII: a line for each place, place 0 first, then the end line: the word `end`, how many are placed and how
/// many refused, the charge at the horizon, the volume placed, the lowest charge at ticks 0 to the horizon, and the first
/// tick that has it.
///
/// ```
/// use bovkact_planner::{report, Reason, REPORT_MOST};
///
/// let plan = include_bytes!("../../../examples/worked.plan");
/// let mut room = [0; REPORT_MOST];
/// let text = report(plan, &mut room)?;
/// assert_eq!(text, include_bytes!("../../../examples/worked.report"));
/// assert_eq!(report(plan, &mut []).unwrap_err().reason, Reason::SliceTooShort);
/// # Ok::<(), bovkact_planner::Refusal>(())
/// ```
pub fn report<'a>(plan: &[u8], out: &'a mut [u8]) -> Result<&'a [u8], Refusal> {
    // SAFETY: the plan is a slice lent for the call, which only reads it; `out` is one that nobody else has, to be
    // written.
    let answer = unsafe { planner_report(plan.as_ptr(), plan.len(), out.as_mut_ptr(), out.len()) };
    front(out, answer)
}

/// From an id to its place: the line of a report that begins with it. None where no activity has it.
///
/// ```
/// use bovkact_planner::{outcome, place_of, report, Outcome, REPORT_MOST};
///
/// let plan = include_bytes!("../../../examples/worked.plan");
/// let mut room = [0; REPORT_MOST];
/// let text = report(plan, &mut room)?;
/// let place = place_of(text, 10).expect("the plan has an activity 10");
/// assert_eq!(place, 3);
/// assert_eq!(outcome(plan, place)?, Outcome::Placed { start: 15 });
/// assert_eq!(place_of(text, 11), None);
/// # Ok::<(), bovkact_planner::Refusal>(())
/// ```
pub fn place_of(report: &[u8], id: u32) -> Option<usize> {
    report.split(|&byte| byte == b'\n').position(|line| id_of(line) == Some(id))
}

// The id that a line of a report begins with; none of the end line.
fn id_of(line: &[u8]) -> Option<u32> {
    let field = line.split(|&byte| byte == b'\t').next()?;
    core::str::from_utf8(field).ok()?.parse().ok()
}

/// The starts of the activity at a place that meet every condition of a set, beside the activities placed at earlier
/// places: the longest unbroken runs of them, rising.
///
/// ```
/// use bovkact_planner::{starts, Condition, Conditions, Reason};
///
/// let plan = include_bytes!("../../../examples/worked.plan");
/// assert_eq!(starts(plan, 1, Conditions::NONE)?, [0..=17]);
/// assert_eq!(starts(plan, 1, Condition::W)?, [0..=8]);
/// assert_eq!(starts(plan, 1, Condition::W | Condition::D)?, []);
/// assert_eq!(starts(plan, 1, Conditions::from_bits(512)).unwrap_err().reason, Reason::SetTooLarge);
/// # Ok::<(), bovkact_planner::Refusal>(())
/// ```
#[cfg(feature = "alloc")]
pub fn starts(plan: &[u8], place: usize, set: impl Into<Conditions>) -> Result<Vec<RangeInclusive<u32>>, Refusal> {
    let mut room = [Interval::default(); RUNS_MOST];
    Ok(starts_into(plan, place, set, &mut room)?.iter().map(|&run| run.into()).collect())
}

/// [`starts`] without a heap: the runs, written to the front of `out` and borrowed from it; [`RUNS_MOST`] records are
/// always enough.
///
/// ```
/// use bovkact_planner::{starts_into, Conditions, Interval, Reason};
///
/// let plan = include_bytes!("../../../examples/worked.plan");
/// let mut room = [Interval::default(); 8];
/// assert_eq!(starts_into(plan, 3, Conditions::ALL, &mut room)?, [Interval { first: 15, last: 18 }]);
/// assert_eq!(starts_into(plan, 3, Conditions::ALL, &mut []).unwrap_err().reason, Reason::SliceTooShort);
/// # Ok::<(), bovkact_planner::Refusal>(())
/// ```
pub fn starts_into<'a>(
    plan: &[u8],
    place: usize,
    set: impl Into<Conditions>,
    out: &'a mut [Interval],
) -> Result<&'a [Interval], Refusal> {
    let set = set.into().bits();
    // SAFETY: as in `report`; a record is laid out as in C, and all its bits are valid.
    let answer = unsafe { planner_starts(plan.as_ptr(), plan.len(), place, set, out.as_mut_ptr(), out.len()) };
    front(out, answer)
}

#[cfg(test)]
mod tests {
    use super::*;

    #[test]
    fn every_number_has_its_reason() {
        for number in 1..=13 {
            let refusal = value((number as u64) << 32 | 0xffff_ffff).unwrap_err();
            assert_eq!((refusal.reason.number(), refusal.line), (number, u32::MAX));
        }
    }

    #[test]
    fn every_value_is_given() {
        let placed = 1 << 40;
        for value in [0, u32::MAX] {
            assert_eq!(outcome_of(placed | value as u64), Ok(Outcome::Placed { start: value }));
            let conditions = Conditions::from_bits(value);
            assert_eq!(outcome_of(value as u64), Ok(Outcome::Refused { conditions }));
        }
        assert_eq!(value(0xffff_ffff), Ok(u32::MAX));
        assert_eq!(front(&[7, 8, 9], 2), Ok(&[7, 8][..]));
    }

    #[test]
    #[should_panic(expected = "no refusal 14")]
    fn number_14_panics() {
        let _ = value(14 << 32);
    }

    #[test]
    #[should_panic(expected = "no refusal 255")]
    fn number_255_panics() {
        let _ = value(255 << 32);
    }

    #[test]
    #[should_panic(expected = "out of range")]
    fn a_length_beyond_the_slice_panics() {
        let _ = front(&[7, 8, 9], 4);
    }
}
