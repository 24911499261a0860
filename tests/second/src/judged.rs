//! The graph that is judged: a register without its withdrawn items and the
//! links at them.
//!
//! Renders §5 of document 02. Items keep their numbers. Every degree and every
//! yes or no is taken here and not of the register, which has all facts.

use crate::register::{Link, Register};
use crate::Refusal;

/// The name of a withdrawn item.
pub const WITHDRAWN: u32 = 63;

/// Whether an item with these names is withdrawn.
pub fn withdrawn(names: u64) -> bool {
    names >> WITHDRAWN & 1 == 1
}

#[derive(Clone, PartialEq, Eq, Debug)]
pub struct Judged {
    /// Item by item; None where it is withdrawn.
    names: Vec<Option<u64>>,
    links: Vec<Link>,
}

impl Judged {
    pub fn of(register: &Register) -> Judged {
        let out = |item: u16| withdrawn(register.names[usize::from(item)]);
        let names = register.names.iter();
        let links = register.links.iter().copied();
        Judged {
            names: names
                .map(|names| (!withdrawn(*names)).then_some(*names))
                .collect(),
            links: links
                .filter(|(from, _, to)| !out(*from) && !out(*to))
                .collect(),
        }
    }

    /// How many items the register has, withdrawn ones among them.
    pub fn items(&self) -> usize {
        self.names.len()
    }

    /// Whether the item is one of this graph.
    pub fn has(&self, item: u16) -> bool {
        matches!(self.names.get(usize::from(item)), Some(Some(_)))
    }

    /// The items that are not withdrawn, lowest-numbered first.
    pub fn each(&self) -> impl Iterator<Item = u16> + '_ {
        (0..self.items() as u16).filter(|item| self.has(*item))
    }

    /// The asked number as an item: 15 where the register has none such, then
    /// 26 where it is withdrawn.
    pub fn asked(&self, item: u64) -> Result<u16, Refusal> {
        if item >= self.items() as u64 {
            return Err(Refusal::call(15));
        }
        let item = item as u16;
        if !self.has(item) {
            return Err(Refusal::call(26));
        }
        Ok(item)
    }

    /// The names of an item of this graph.
    pub fn names(&self, item: u16) -> u64 {
        self.names[usize::from(item)].expect("no withdrawn item is judged")
    }

    pub fn has_link(&self, link: Link) -> bool {
        self.links.binary_search(&link).is_ok()
    }

    /// The items that `from` is linked to under `role`, lowest-numbered first:
    /// in a rising list they stand side by side.
    pub fn successors(&self, from: u16, role: u8) -> impl Iterator<Item = u16> + '_ {
        let first = self
            .links
            .partition_point(|link| (link.0, link.1) < (from, role));
        self.links[first..]
            .iter()
            .take_while(move |link| (link.0, link.1) == (from, role))
            .map(|link| link.2)
    }

    /// All links that leave an item.
    pub fn leaving(&self, from: u16) -> Vec<Link> {
        let links = self.links.iter().copied();
        links.filter(|link| link.0 == from).collect()
    }
}
