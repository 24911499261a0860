//! What the calls answer, as types.

use std::cmp::Ordering;
use std::fmt;

/// What a register holds.
#[derive(Clone, Copy, PartialEq, Eq, Hash, Debug)]
pub struct RegisterCounts {
    pub items: u64,
    pub links: u64,
}

/// What a requirement holds: nodes of the outer tree as written, thresholds.
#[derive(Clone, Copy, PartialEq, Eq, Hash, Debug)]
pub struct RequirementCounts {
    pub nodes: u64,
    pub thresholds: u64,
}

/// Where a written node of a requirement goes.
#[derive(Clone, Copy, PartialEq, Eq, Hash, Debug)]
pub enum Place {
    Item(u16),
    /// Its parent goes nowhere, or to an item with no such successor that counts.
    Unmapped,
    /// A sibling says all that it says, so it does not count.
    Dropped,
}

impl Place {
    pub(crate) fn of(number: u16) -> Place {
        match number {
            65_535 => Place::Unmapped,
            65_534 => Place::Dropped,
            item => Place::Item(item),
        }
    }
}

/// As the listing program prints it.
impl fmt::Display for Place {
    fn fmt(&self, f: &mut fmt::Formatter<'_>) -> fmt::Result {
        match self {
            Place::Item(item) => write!(f, "{item}"),
            Place::Unmapped => f.write_str("-"),
            Place::Dropped => f.write_str("="),
        }
    }
}

/// The degree num/den, in lowest terms and at most 1, with a map that reaches
/// it: one place for each written node, in reading order.
#[derive(Clone, PartialEq, Eq, Hash, Debug)]
pub struct Degree {
    pub num: u64,
    pub den: u64,
    pub map: Vec<Place>,
}

/// The degree alone: for its map there is [`Degree::map`].
impl fmt::Display for Degree {
    fn fmt(&self, f: &mut fmt::Formatter<'_>) -> fmt::Result {
        write!(f, "{}/{}", self.num, self.den)
    }
}

/// How far a degree lies above a threshold: value/over, exactly.
#[derive(Clone, Copy, PartialEq, Eq, Hash, Debug)]
pub struct Margin {
    /// Negative below the threshold, 0 at it, positive above.
    pub value: i64,
    pub over: u64,
}

impl Margin {
    /// How the degree compares with the threshold.
    pub fn side(&self) -> Ordering {
        self.value.cmp(&0)
    }
}

/// Whether an item meets a requirement, thresholds included.
#[derive(Clone, PartialEq, Eq, Hash, Debug)]
pub enum Verdict {
    /// With the item that each written node goes to, in reading order.
    Yes(Vec<u16>),
    No,
}
