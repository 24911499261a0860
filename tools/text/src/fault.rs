//! What is wrong with an input, and where.

use std::fmt;

/// Lines count from 1, as editors count them; bytes from 0, as the document
/// counts them.
#[derive(Clone, Copy, PartialEq, Eq, Debug)]
pub enum Where {
    Line(usize),
    Byte(usize),
}

#[derive(Clone, PartialEq, Eq, Debug)]
pub struct Fault {
    pub at: Where,
    pub what: String,
}

impl Fault {
    pub fn line(number: usize, what: impl Into<String>) -> Fault {
        Fault {
            at: Where::Line(number),
            what: what.into(),
        }
    }

    pub fn byte(place: usize, what: impl Into<String>) -> Fault {
        Fault {
            at: Where::Byte(place),
            what: what.into(),
        }
    }
}

impl fmt::Display for Fault {
    fn fmt(&self, f: &mut fmt::Formatter<'_>) -> fmt::Result {
        match self.at {
            Where::Line(number) => write!(f, "line {number}: {}", self.what),
            Where::Byte(place) => write!(f, "byte {place}: {}", self.what),
        }
    }
}

impl std::error::Error for Fault {}
