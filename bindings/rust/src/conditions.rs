// The nine conditions of document 01 and sets of them.

use core::fmt::{Display, Formatter, Result, Write};
use core::ops::BitOr;

/// A condition that a start of an activity must meet beside those placed at earlier places.
///
/// ```
/// use bovkact_planner::Condition;
///
/// assert_eq!(Condition::B.bit(), 64);
/// assert_eq!(Condition::B.letter(), 'B');
/// ```
#[derive(Clone, Copy, Debug, PartialEq, Eq, Hash)]
#[repr(u32)]
pub enum Condition {
    /// The start is in a window, or the activity has none.
    W = 1,
    /// Each activity that it comes after is placed and has ended by the start.
    D = 2,
    /// No placed activity that shares a unit holds a tick that it holds.
    U = 4,
    /// Every need, its own and those of the placed, is met in each tick of the needing one.
    S = 8,
    /// In each tick the engines of those holding it sum to at most the limit.
    E = 16,
    /// In each tick the peaks of those holding it sum to at most the limit.
    P = 32,
    /// The charge is never under the floor, nor at the horizon under the handover charge.
    B = 64,
    /// The volumes, its own and those of the placed, sum to at most the limit.
    V = 128,
    /// Its warm-up, if it has one, begins at tick 0 or later.
    H = 256,
}

impl Condition {
    /// The nine conditions in the document's order.
    pub const ALL: [Condition; 9] = [
        Condition::W,
        Condition::D,
        Condition::U,
        Condition::S,
        Condition::E,
        Condition::P,
        Condition::B,
        Condition::V,
        Condition::H,
    ];

    /// Its number in a set.
    pub const fn bit(self) -> u32 {
        self as u32
    }

    /// Its letter, as the report has it.
    pub const fn letter(self) -> char {
        match self {
            Condition::W => 'W',
            Condition::D => 'D',
            Condition::U => 'U',
            Condition::S => 'S',
            Condition::E => 'E',
            Condition::P => 'P',
            Condition::B => 'B',
            Condition::V => 'V',
            Condition::H => 'H',
        }
    }
}

impl Display for Condition {
    fn fmt(&self, to: &mut Formatter<'_>) -> Result {
        to.write_char(self.letter())
    }
}

/// A set of conditions: their numbers, added. Written with `|`, or made from one condition.
///
/// Any number can stand for a set; [`starts`](crate::starts) refuses those over 511.
///
/// ```
/// use bovkact_planner::{Condition, Conditions};
///
/// let set = Condition::D | Condition::W;
/// assert_eq!(set.bits(), 3);
/// assert_eq!(set.to_string(), "WD");
/// assert!(set.contains(Condition::W) && !set.contains(Condition::B));
/// assert!(set.iter().eq([Condition::W, Condition::D]));
/// assert_eq!(Conditions::from_bits(511), Conditions::ALL);
/// ```
#[derive(Clone, Copy, Debug, Default, PartialEq, Eq, Hash)]
pub struct Conditions(u32);

impl Conditions {
    /// No condition: every start meets it.
    pub const NONE: Conditions = Conditions(0);
    /// All nine: the starts that meet it are the valid ones.
    pub const ALL: Conditions = Conditions(511);

    /// All but one: the starts that meet it are those that the activity would have without that condition.
    ///
    /// ```
    /// use bovkact_planner::{starts, Condition, Conditions};
    ///
    /// let plan = include_bytes!("../../../examples/worked.plan");
    /// assert_eq!(Conditions::all_but(Condition::W).to_string(), "DUSEPBVH");
    /// assert_eq!(starts(plan, 1, Conditions::all_but(Condition::D))?, [0..=8]);
    /// assert_eq!(starts(plan, 1, Conditions::all_but(Condition::W))?, [15..=17]);
    /// # Ok::<(), bovkact_planner::Refusal>(())
    /// ```
    pub const fn all_but(condition: Condition) -> Conditions {
        Conditions(Conditions::ALL.0 & !condition.bit())
    }

    /// The set that a number stands for.
    pub const fn from_bits(bits: u32) -> Conditions {
        Conditions(bits)
    }

    /// The number that stands for it.
    pub const fn bits(self) -> u32 {
        self.0
    }

    /// Whether a condition is in it.
    pub const fn contains(self, condition: Condition) -> bool {
        self.0 & condition.bit() != 0
    }

    /// Its conditions in the document's order.
    pub fn iter(self) -> impl Iterator<Item = Condition> {
        Condition::ALL.into_iter().filter(move |&condition| self.contains(condition))
    }
}

impl From<Condition> for Conditions {
    fn from(condition: Condition) -> Conditions {
        Conditions(condition.bit())
    }
}

impl<C: Into<Conditions>> BitOr<C> for Condition {
    type Output = Conditions;

    fn bitor(self, other: C) -> Conditions {
        Conditions::from(self) | other
    }
}

impl<C: Into<Conditions>> BitOr<C> for Conditions {
    type Output = Conditions;

    fn bitor(self, other: C) -> Conditions {
        Conditions(self.0 | other.into().0)
    }
}

/// Its letters in order, as the report has them; nothing for the empty set.
impl Display for Conditions {
    fn fmt(&self, to: &mut Formatter<'_>) -> Result {
        self.iter().try_for_each(|condition| to.write_char(condition.letter()))
    }
}
