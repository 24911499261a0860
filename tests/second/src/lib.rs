//! The second program: document 01, with the requests of document 02 that have
//! landed, written out as plainly as possible.
//!
//! It is run beside the proved library, input by input, and a difference
//! means that one of the two is wrong. So it shares no code with the library
//! and prefers the obvious way to the quick one: trees as trees, facts as
//! values, exact fractions in wide integers, the whole image rebuilt after
//! each edit.
//!
//! | Module | Section of document 01 |
//! |---|---|
//! | `field` | the common head; number 1, 2, 3 of "Refusal numbers" |
//! | `register` | "Register image" |
//! | `requirement` | "Requirement message"; §2 of document 02 |
//! | `judged` | §5 of document 02 |
//! | `reduce` | "Reduction and degree", its first paragraph |
//! | `fraction`, `degree` | "Reduction and degree", "Map shown" |
//! | `member` | "Reduction and degree", its last paragraph; "Map shown" |
//! | `brute` | the same definitions, by trying every map |
//! | `session` | "Session" |
//! | `model` | what a session means, kept as sets and a history |
//! | `writing` | §1 of document 02 |
//! | `list` | §3 of document 02 |
//! | `listing` | the listing program of "Sheet of examples" |
//! | `gen` | seeded inputs, good and damaged |

#![forbid(unsafe_code)]

pub mod brute;
pub mod degree;
pub mod field;
pub mod fraction;
pub mod gen;
pub mod judged;
pub mod list;
pub mod listing;
pub mod member;
pub mod model;
pub mod reduce;
pub mod register;
pub mod requirement;
pub mod session;
pub mod writing;

use std::fmt;

/// Whose fault a refusal is: the place is counted from that side's first byte.
#[derive(Clone, Copy, PartialEq, Eq, PartialOrd, Ord, Hash, Debug)]
pub enum Side {
    Register,
    Requirement,
    Call,
}

/// A refusal: the side, the number of the table's row, and the byte place.
#[derive(Clone, Copy, PartialEq, Eq, PartialOrd, Ord, Hash, Debug)]
pub struct Refusal {
    pub side: Side,
    pub number: u32,
    pub place: usize,
}

impl Refusal {
    pub fn new(side: Side, number: u32, place: usize) -> Refusal {
        Refusal {
            side,
            number,
            place,
        }
    }

    pub fn register(number: u32, place: usize) -> Refusal {
        Refusal::new(Side::Register, number, place)
    }

    pub fn requirement(number: u32, place: usize) -> Refusal {
        Refusal::new(Side::Requirement, number, place)
    }

    /// A call's place is always 0.
    pub fn call(number: u32) -> Refusal {
        Refusal::new(Side::Call, number, 0)
    }
}

/// The line of the listing program, without its newline.
impl fmt::Display for Refusal {
    fn fmt(&self, f: &mut fmt::Formatter<'_>) -> fmt::Result {
        let side = match self.side {
            Side::Register => "register",
            Side::Requirement => "requirement",
            Side::Call => "call",
        };
        write!(f, "{} refused {} at {}", side, self.number, self.place)
    }
}
