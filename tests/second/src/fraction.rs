//! Exact fractions in lowest terms.
//!
//! Renders, of "Reduction and degree" in document 01, "answered in lowest
//! terms". No common scale is used here: the library counts over a scale, and
//! two ways to the same number check each other. With a reduced size of at
//! most 60 every denominator divides a scale of at most 3^20, so products of
//! two stay far inside 128 bits.

use std::cmp::Ordering;

pub fn greatest_common_factor(a: u128, b: u128) -> u128 {
    if b == 0 {
        a
    } else {
        greatest_common_factor(b, a % b)
    }
}

/// A number from 0 up, in lowest terms; 0 is 0/1.
#[derive(Clone, Copy, PartialEq, Eq, Hash, Debug)]
pub struct Fraction {
    pub num: u128,
    pub den: u128,
}

impl Fraction {
    pub const ZERO: Fraction = Fraction { num: 0, den: 1 };
    pub const ONE: Fraction = Fraction { num: 1, den: 1 };

    /// `den` must not be 0.
    pub fn new(num: u128, den: u128) -> Fraction {
        let factor = greatest_common_factor(num, den);
        Fraction {
            num: num / factor,
            den: den / factor,
        }
    }

    pub fn whole(num: u128) -> Fraction {
        Fraction { num, den: 1 }
    }

    pub fn plus(self, other: Fraction) -> Fraction {
        Fraction::new(
            self.num * other.den + other.num * self.den,
            self.den * other.den,
        )
    }

    /// Divided by a number that is not 0.
    pub fn over(self, n: u128) -> Fraction {
        Fraction::new(self.num, self.den * n)
    }
}

impl Ord for Fraction {
    fn cmp(&self, other: &Fraction) -> Ordering {
        (self.num * other.den).cmp(&(other.num * self.den))
    }
}

impl PartialOrd for Fraction {
    fn partial_cmp(&self, other: &Fraction) -> Option<Ordering> {
        Some(self.cmp(other))
    }
}
