// The refusals of document 01, "When the planner says no", and those that document 02 adds.

use core::error::Error;
use core::fmt::{Display, Formatter, Result};

/// Why a call is refused, with the numbers of the documents.
///
/// With 1 to 9 and 13 the plan itself is refused, by every call alike; 10 to 12 are of the call.
///
/// ```
/// use bovkact_planner::Reason;
///
/// assert_eq!(Reason::OutOfRange.number(), 4);
/// assert_eq!(Reason::OutOfRange.to_string(), "number out of range");
/// ```
#[derive(Clone, Copy, Debug, PartialEq, Eq, Hash)]
#[repr(u8)]
pub enum Reason {
    /// Over 60,000 bytes; line 0.
    PlanTooLong = 1,
    /// First word or field count wrong, or no LF.
    LineWrong = 2,
    /// Malformed number or item, or an empty field.
    Malformed = 3,
    /// Number out of range.
    OutOfRange = 4,
    /// 65th activity line.
    TooManyActivities = 5,
    /// Id of an earlier line.
    IdRepeated = 6,
    /// `after` names no activity at an earlier place.
    AfterNotEarlier = 7,
    /// List not rising, a > b, or too many items.
    ListWrong = 8,
    /// Charge at horizon T with nothing placed is under the handover charge; line 0.
    HandoverUnmet = 9,
    /// Lent slice too short for the answer; line 0.
    SliceTooShort = 10,
    /// Place not below the activity count; line 0.
    NoSuchPlace = 11,
    /// Set over 511; line 0.
    SetTooLarge = 12,
    /// Preferred tick outside its window.
    OutOfWindow = 13,
}

impl Reason {
    /// The thirteen reasons by number, from 1.
    pub const ALL: [Reason; 13] = [
        Reason::PlanTooLong,
        Reason::LineWrong,
        Reason::Malformed,
        Reason::OutOfRange,
        Reason::TooManyActivities,
        Reason::IdRepeated,
        Reason::AfterNotEarlier,
        Reason::ListWrong,
        Reason::HandoverUnmet,
        Reason::SliceTooShort,
        Reason::NoSuchPlace,
        Reason::SetTooLarge,
        Reason::OutOfWindow,
    ];

    /// Its number, 1 to 13.
    pub const fn number(self) -> u8 {
        self as u8
    }

    // The reason with this number.
    pub(crate) fn numbered(number: u8) -> Option<Reason> {
        Reason::ALL.into_iter().find(|reason| reason.number() == number)
    }
}

impl Display for Reason {
    fn fmt(&self, to: &mut Formatter<'_>) -> Result {
        to.write_str(match self {
            Reason::PlanTooLong => "over 60,000 bytes",
            Reason::LineWrong => "first word or field count wrong, or no LF",
            Reason::Malformed => "malformed number or item, or an empty field",
            Reason::OutOfRange => "number out of range",
            Reason::TooManyActivities => "65th activity line",
            Reason::IdRepeated => "id of an earlier line",
            Reason::AfterNotEarlier => "`after` names no activity at an earlier place",
            Reason::ListWrong => "list not rising, a > b, or too many items",
            Reason::HandoverUnmet => "charge at horizon T with nothing placed is under the handover charge",
            Reason::SliceTooShort => "lent slice too short for the answer",
            Reason::NoSuchPlace => "place not below the activity count",
            Reason::SetTooLarge => "set over 511",
            Reason::OutOfWindow => "preferred tick outside its window",
        })
    }
}

/// The refusal of a call: the first in the documents' order of checks. The call has written nothing.
///
/// ```
/// use bovkact_planner::{outcome, Reason, Refusal};
///
/// let refusal = outcome(b"", 0).unwrap_err();
/// assert_eq!(refusal, Refusal { reason: Reason::LineWrong, line: 1 });
/// assert_eq!(refusal.reason.number(), 2);
/// assert_eq!(refusal.to_string(), "refusal 2, line 1: first word or field count wrong, or no LF");
/// ```
#[derive(Clone, Copy, Debug, PartialEq, Eq, Hash)]
pub struct Refusal {
    /// Why.
    pub reason: Reason,
    /// The line of the plan that it is about, counted from 1; 0 where it is about no single line.
    pub line: u32,
}

impl Display for Refusal {
    fn fmt(&self, to: &mut Formatter<'_>) -> Result {
        write!(to, "refusal {}", self.reason.number())?;
        if self.line != 0 {
            write!(to, ", line {}", self.line)?;
        }
        write!(to, ": {}", self.reason)
    }
}

impl Error for Refusal {}
