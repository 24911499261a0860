//! A set of items as bits.

use crate::{Ones, MOST_ITEMS};

const WORDS: usize = MOST_ITEMS / 64;

#[derive(Clone, Copy)]
pub struct Items([u64; WORDS]);

impl Items {
    pub const NONE: Items = Items([0; WORDS]);

    /// The items below a number.
    pub fn below(items: usize) -> Items {
        let mut set = Items::NONE;
        for (number, word) in set.0.iter_mut().enumerate() {
            let from = 64 * number;
            if items >= from + 64 {
                *word = u64::MAX;
            } else if items > from {
                *word = (1 << (items - from)) - 1;
            }
        }
        set
    }

    #[inline]
    pub fn insert(&mut self, item: usize) {
        self.0[item / 64 % WORDS] |= 1 << (item % 64);
    }

    #[inline]
    pub fn has(&self, item: usize) -> bool {
        self.0[item / 64 % WORDS] >> (item % 64) & 1 == 1
    }

    pub fn is_empty(&self) -> bool {
        self.0.iter().fold(0, |all, word| all | word) == 0
    }

    pub fn count(&self) -> usize {
        self.0.iter().map(|word| word.count_ones() as usize).sum()
    }

    /// The item, if there is one and no other.
    pub fn only(&self) -> Option<usize> {
        let mut some = self.0.iter().enumerate().filter(|(_, word)| **word != 0);
        let (number, word) = some.next()?;
        let alone = word & (word - 1) == 0 && some.next().is_none();
        alone.then_some(64 * number + word.trailing_zeros() as usize)
    }

    #[inline]
    pub fn each(&self, mut see: impl FnMut(usize)) {
        for (number, word) in self.0.iter().enumerate() {
            for bit in Ones(*word) {
                see(64 * number + bit);
            }
        }
    }
}
