//! The yardstick: every call of include/svelgandur.h as a good Rust program
//! makes it, with the same answers and refusals. It is held to that by the
//! whole comparison (`bench/check`), and is as quick as it could be made
//! without a heap, a copy of the register or anything kept between calls.
//!
//! | Module | What it is |
//! |---|---|
//! | `register` | reading an image, a link in one load |
//! | `message` | reading a message into trees, with reduction |
//! | `tree` | a tree as rows in reading order, and its reduction |
//! | `graph` | which links leave an item under a role, looked up once an item |
//! | `items` | a set of items as bits |
//! | `scales` | what degrees are counted over |
//! | `numbers` | degrees, at the items that are reached and no others |
//! | `meeting` | the yes or no, at the items that are reached |
//! | `calls` | degree, margin, yes or no, and reading, as four numbers |
//! | `list` | the whole list: each node's number at each item |
//! | `writing` | writing a message from lists |
//! | `session` | open, edit, undo and keep |
//! | `listing` | what the listing program prints |

pub mod calls;
pub mod graph;
pub mod items;
pub mod list;
pub mod listing;
pub mod meeting;
pub mod message;
pub mod numbers;
pub mod register;
pub mod scales;
pub mod session;
pub mod tree;
pub mod writing;

pub const MOST_ITEMS: usize = 512;
pub const MOST_LINKS: usize = 4096;
pub const MOST_ROLE: u64 = 31;
pub const MOST_NODES: usize = 64;
pub const MOST_DEPTH: usize = 16;
pub const MOST_THRESHOLDS: usize = 16;
pub const MOST_SIZE: u32 = 60;

pub const UNMAPPED: u16 = 65_535;
pub const DROPPED: u16 = 65_534;

/// The four numbers of an answer: the kind, then three that go with it.
pub type Answer = [u64; 4];

/// Side, number and place.
#[derive(Clone, Copy, Debug)]
pub struct Refusal {
    pub side: Side,
    pub number: u8,
    pub place: u32,
}

#[derive(Clone, Copy, Debug)]
pub enum Side {
    Register,
    Requirement,
    Call,
}

#[cold]
pub fn refuse<T>(side: Side, number: u8, place: usize) -> Result<T, Refusal> {
    let place = place as u32;
    Err(Refusal {
        side,
        number,
        place,
    })
}

/// The end of the message that `bytes` begin with: its head is in order. A
/// whole message has nothing behind it.
pub fn head(bytes: &[u8], side: Side, whole: bool) -> Result<usize, Refusal> {
    let [version, high, low, behind @ ..] = bytes else {
        return refuse(side, 1, 0);
    };
    if *version != 1 {
        return refuse(side, 2, 0);
    }
    let length = usize::from(u16::from_be_bytes([*high, *low]));
    if length > behind.len() || (whole && length < behind.len()) {
        return refuse(side, 3, 1);
    }
    Ok(3 + length)
}

/// The number of two bytes.
#[inline]
pub fn pair(bytes: &[u8], at: usize) -> usize {
    usize::from(u16::from_be_bytes([bytes[at], bytes[at + 1]]))
}

/// The number of eight bytes.
#[inline]
pub fn eight(bytes: &[u8], at: usize) -> u64 {
    let mut word = [0; 8];
    word.copy_from_slice(&bytes[at..at + 8]);
    u64::from_be_bytes(word)
}

/// The greatest common factor, by halves.
pub fn common_factor(a: u64, b: u64) -> u64 {
    if a == 0 || b == 0 {
        return a | b;
    }
    let twos = (a | b).trailing_zeros();
    let (mut a, mut b) = (a >> a.trailing_zeros(), b);
    while b != 0 {
        b >>= b.trailing_zeros();
        (a, b) = (a.min(b), a.abs_diff(b));
    }
    a << twos
}

/// What is wrong with p/q, if something is: the number, and how far behind a
/// threshold's first byte the p or q at fault stands.
#[inline]
pub fn fraction_fault(p: u64, q: u64) -> Option<(u8, usize)> {
    if !(1..=1000).contains(&q) {
        return Some((23, 3));
    }
    if p > q {
        return Some((24, 1));
    }
    (common_factor(p, q) > 1).then_some((25, 1))
}

/// The numbers of the ones of a word, lowest first.
#[derive(Clone, Copy)]
pub struct Ones(pub u64);

impl Iterator for Ones {
    type Item = usize;

    #[inline]
    fn next(&mut self) -> Option<usize> {
        if self.0 == 0 {
            return None;
        }
        let lowest = self.0.trailing_zeros() as usize;
        self.0 &= self.0 - 1;
        Some(lowest)
    }
}
