//! Which links leave an item under a role. An item's links stand side by side
//! in order of role, so those under one role are a run of them. All runs of an
//! item are looked up when the first is asked for; where its links begin is
//! searched for by halves, and once that was done often it is noted for all
//! items in one pass. A withdrawn item has no runs, and no run begins or ends with
//! a link to one; between its ends there may be some.

use std::mem::MaybeUninit;

use crate::items::Items;
use crate::register::{Register, LINK};
use crate::{MOST_ITEMS, MOST_ROLE};

const ROLES: usize = MOST_ROLE as usize + 1;
/// So many searches, and a pass over all links is the less work.
const MANY: usize = 24;

/// Links from `start` up to `end`.
#[derive(Clone, Copy)]
pub struct Run {
    pub start: u16,
    pub end: u16,
}

impl Run {
    pub const NONE: Run = Run { start: 0, end: 0 };

    #[inline]
    pub fn len(self) -> usize {
        usize::from(self.end) - usize::from(self.start)
    }

    /// As many as go in fours, and the rest.
    #[inline]
    pub fn fours(self) -> (Run, Run) {
        let Run { start, end } = self;
        let middle = end - (end - start) % 4;
        (Run { start, end: middle }, Run { start: middle, end })
    }

    #[inline]
    pub fn is_empty(self) -> bool {
        self.start == self.end
    }
}

/// The items at which a run's links end, lowest first.
#[inline]
pub fn ends(links: &[u8], run: Run) -> impl Iterator<Item = usize> + '_ {
    let (start, end) = (usize::from(run.start), usize::from(run.end));
    links[LINK * start..LINK * end]
        .chunks_exact(LINK)
        .map(|link| usize::from(u16::from_be_bytes([link[3], link[4]])))
}

/// The same, four at a time.
#[inline]
pub fn ends_of_fours(links: &[u8], run: Run) -> impl Iterator<Item = [usize; 4]> + '_ {
    let (start, end) = (usize::from(run.start), usize::from(run.end));
    let end_at = |some: &[u8], at| usize::from(u16::from_be_bytes([some[at], some[at + 1]]));
    links[LINK * start..LINK * end]
        .chunks_exact(4 * LINK)
        .map(move |some| [3, 8, 13, 18].map(|at| end_at(some, at)))
}

pub struct Graph<'a> {
    pub register: Register<'a>,
    pub links: &'a [u8],
    known: Items,
    searches: usize,
    starts: [u16; MOST_ITEMS + 1],
    runs: [MaybeUninit<[Run; ROLES]>; MOST_ITEMS],
}

impl<'a> Graph<'a> {
    #[inline(always)]
    pub fn of(register: Register<'a>) -> Graph<'a> {
        Graph {
            register,
            links: register.link_bytes(),
            known: Items::NONE,
            searches: 0,
            starts: [0; MOST_ITEMS + 1],
            runs: [const { MaybeUninit::uninit() }; MOST_ITEMS],
        }
    }

    /// The runs of an item, one for each role.
    #[inline]
    pub fn runs(&mut self, item: usize) -> &[Run; ROLES] {
        let item = item % MOST_ITEMS;
        if !self.known.has(item) {
            self.look_up(item);
        }
        // SAFETY: of a known item they were written.
        unsafe { self.runs[item].assume_init_ref() }
    }

    #[inline]
    pub fn run(&mut self, item: usize, role: u8) -> Run {
        self.runs(item)[usize::from(role) % ROLES]
    }

    fn look_up(&mut self, item: usize) {
        self.searches += 1;
        if self.searches == MANY {
            self.note_all();
        }
        let register = self.register;
        let first = match self.searches < MANY {
            true => first_of(&register, item),
            false => usize::from(self.starts[item]),
        };
        let runs = self.runs[item].write([Run::NONE; ROLES]);
        let links = match register.judged(item) {
            true => first..register.links,
            false => 0..0,
        };
        let (mut start, mut before) = (first, u64::MAX);
        for link in links {
            let key = register.key(link);
            let from_and_role = key >> 16;
            if from_and_role >> 8 != item as u64 {
                break;
            }
            if !register.judged(key as usize & 0xFFFF) {
                continue;
            }
            // No branch: whether a run goes on cannot be foreseen.
            start = if from_and_role == before { start } else { link };
            before = from_and_role;
            runs[from_and_role as usize % ROLES] = Run {
                start: start as u16,
                end: link as u16 + 1,
            };
        }
        self.known.insert(item);
    }

    fn note_all(&mut self) {
        for (number, link) in self.links.chunks_exact(LINK).enumerate() {
            let from = usize::from(u16::from_be_bytes([link[0], link[1]]));
            self.starts[from % MOST_ITEMS + 1] = number as u16 + 1;
        }
        // Where an item has no links they begin where those before it end.
        let mut end = 0;
        for start in &mut self.starts {
            end = end.max(*start);
            *start = end;
        }
    }
}

/// The first link that does not begin at a lower item.
fn first_of(register: &Register, item: usize) -> usize {
    let lowest = (item as u64) << 24;
    place_of(register, lowest)
}

/// The first link whose number is not below another, by halves.
pub fn place_of(register: &Register, key: u64) -> usize {
    let (mut base, mut size) = (0, register.links);
    while size > 1 {
        let half = size / 2;
        let middle = base + half;
        base = if register.key(middle) < key {
            middle
        } else {
            base
        };
        size -= half;
    }
    base + usize::from(size == 1 && register.key(base) < key)
}
