//! A register without its withdrawn items, by another way than `judged`: what is
//! left is a register of its own, and the answers there are the answers wanted.

use crate::degree::{DROPPED, UNMAPPED};
use crate::judged::withdrawn;
use crate::register::{Link, Register};

/// The register without its withdrawn items and the links at them, the others
/// numbered anew in their order; and for each of these its old number. None
/// where no item is left.
pub fn taken_out(register: &Register) -> Option<(Register, Vec<u16>)> {
    let mut old = Vec::new();
    let mut new = Vec::new();
    for (item, names) in register.names.iter().enumerate() {
        if withdrawn(*names) {
            new.push(None);
        } else {
            new.push(Some(old.len() as u16));
            old.push(item as u16);
        }
    }
    let at = |item: u16| new[usize::from(item)];
    let link = |(from, role, to): &Link| Some((at(*from)?, *role, at(*to)?));
    let names = old.iter().map(|item| register.names[usize::from(*item)]);
    let less = Register {
        names: names.collect(),
        links: register.links.iter().filter_map(link).collect(),
    };
    (!old.is_empty()).then_some((less, old))
}

/// A map into such a register in the old numbers.
pub fn renumbered(map: &[u16], old: &[u16]) -> Vec<u16> {
    let goes_to = |value: &u16| match *value {
        UNMAPPED | DROPPED => *value,
        item => old[usize::from(item)],
    };
    map.iter().map(goes_to).collect()
}
