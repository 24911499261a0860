//! A refusal: the side, the number of the document's table, the byte place.

use std::fmt;

use crate::calls::{Answer, REFUSED};

/// Whose fault it is. The place is counted from that side's first byte.
#[derive(Clone, Copy, PartialEq, Eq, Hash, Debug)]
pub enum Side {
    Register,
    Requirement,
    Call,
}

impl Side {
    fn of(number: u64) -> Side {
        match number {
            0 => Side::Register,
            1 => Side::Requirement,
            2 => Side::Call,
            _ => unreachable!("the library has three sides"),
        }
    }
}

impl fmt::Display for Side {
    fn fmt(&self, f: &mut fmt::Formatter<'_>) -> fmt::Result {
        f.write_str(match self {
            Side::Register => "register",
            Side::Requirement => "requirement",
            Side::Call => "call",
        })
    }
}

/// Nothing was answered, and nothing that was lent has changed.
#[derive(Clone, Copy, PartialEq, Eq, Hash, Debug)]
pub struct Refusal {
    pub side: Side,
    /// 1 to 26: see [`Refusal::sentence`].
    pub number: u64,
    /// 0 on the call's side.
    pub place: u64,
}

impl Refusal {
    /// The answer, unless it is a refusal.
    pub(crate) fn or(answer: Answer) -> Result<Answer, Refusal> {
        let [kind, side, number, place] = answer;
        if kind != REFUSED {
            return Ok(answer);
        }
        Err(Refusal {
            side: Side::of(side),
            number,
            place,
        })
    }

    /// What the number says.
    pub fn sentence(&self) -> &'static str {
        match self.number {
            1 => "there are under 3 bytes, or a field or an inner concept runs past the end",
            2 => "the version is not 1",
            3 => "the length in the head is not that of the bytes that follow",
            4 => "the count of items or links is out of its range",
            5 => "a link's end names no item",
            6 => "a link is not above the one before it",
            7 => "a role is above 31",
            8 => "bytes are left over",
            9 => "a node lies deeper than 16",
            10 => "there are more than 64 nodes",
            11 => "a threshold stands inside an inner concept, or where none may stand",
            12 => "there is a 17th threshold",
            13 => "a threshold's comparison is none of <, <=, > and >=",
            14 => "the reduced size of a concept is above 60",
            15 => "the item or the name that is asked for is out of range",
            16 => "the map has too few places for the nodes, or the table for nodes times items",
            17 => {
                "the step count is above the log's length or 64, or the last step is out of range"
            }
            18 => "the log is full",
            19 => "there is no step to undo",
            20 => "a link more does not fit: 4,096 stand, or the buffer has no room",
            21 => "the output is shorter than the message",
            22 => "a list is empty or forms no tree, or a threshold's node is out of its place",
            23 => "a threshold's q is 0 or above 1,000",
            24 => "a threshold's p is above its q",
            25 => "a threshold's p and q share a factor above 1",
            26 => "the item that is asked for is withdrawn",
            _ => "the number is not known here",
        }
    }
}

/// The line of the listing program, and what it means.
impl fmt::Display for Refusal {
    fn fmt(&self, f: &mut fmt::Formatter<'_>) -> fmt::Result {
        let Refusal {
            side,
            number,
            place,
        } = self;
        write!(f, "{side} refused {number} at {place}: {}", self.sentence())
    }
}

impl std::error::Error for Refusal {}
