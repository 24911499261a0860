//! Good registers, small to largest, with cycles, links of an item to itself,
//! successors that many items share, and withdrawn items.

use std::collections::BTreeSet;

use super::rng::Rng;
use crate::judged::WITHDRAWN;
use crate::register::{Register, MOST_ITEMS, MOST_LINKS};

/// The names and roles that a register and its requirement draw from. Few of
/// each make common names and successors likely.
#[derive(Clone, Debug)]
pub struct Palette {
    /// Where name 63 is among them, a requirement asks for it and no item holds
    /// it for that.
    pub names: Vec<u8>,
    pub roles: Vec<u8>,
    /// One item in so many is withdrawn, and none where this is 0.
    pub withdrawn: u64,
}

impl Palette {
    pub fn any(rng: &mut Rng) -> Palette {
        let (mut names, roles): (Vec<u8>, Vec<u8>) = match rng.below(6) {
            0 | 1 => (vec![0, 1, 2], vec![0, 1]),
            2 => (vec![1, 2], vec![0]),
            3 => (vec![59, 60, 61, 62], vec![30, 31]),
            4 => (vec![0, 7, 8, 31, 32, 62], vec![0, 15, 31]),
            _ => ((0..63).collect(), (0..32).collect()),
        };
        if rng.chance(8) {
            names.push(WITHDRAWN as u8);
        }
        // Most registers have none or few, and a few have no other.
        let withdrawn = match rng.below(16) {
            0 => 1,
            1 | 2 => 2,
            3..=7 => 6,
            _ => 0,
        };
        Palette {
            names,
            roles,
            withdrawn,
        }
    }

    /// A set of names, about half of the palette's.
    pub fn names(&self, rng: &mut Rng) -> u64 {
        self.names.iter().fold(
            0,
            |set, name| if rng.chance(2) { set | 1 << name } else { set },
        )
    }

    /// What an item holds: such a set, and whether it is withdrawn.
    pub fn held(&self, rng: &mut Rng) -> u64 {
        let names = self.names(rng) & !(1 << WITHDRAWN);
        if self.withdrawn > 0 && rng.chance(self.withdrawn) {
            names | 1 << WITHDRAWN
        } else {
            names
        }
    }

    /// A set of few names, as a node of a large tree has them.
    pub fn few_names(&self, rng: &mut Rng) -> u64 {
        let mut set = 0;
        for _ in 0..rng.below(4) {
            set |= 1 << rng.pick(&self.names);
        }
        set
    }

    pub fn role(&self, rng: &mut Rng) -> u8 {
        rng.pick(&self.roles)
    }
}

/// Small enough for trying every map.
pub fn small_register(rng: &mut Rng, palette: &Palette) -> Register {
    let items = rng.between(1, 4);
    let links = rng.between(0, 9);
    register_of(rng, palette, items, links)
}

pub fn medium_register(rng: &mut Rng, palette: &Palette) -> Register {
    let items = rng.between(5, 60);
    let links = rng.between(0, 300);
    register_of(rng, palette, items, links)
}

/// 512 items and 4,096 links: an image of 24,583 bytes.
pub fn largest_register(rng: &mut Rng, palette: &Palette) -> Register {
    register_of(rng, palette, MOST_ITEMS, MOST_LINKS)
}

/// A register with so many items and, where there is room for them, links.
pub fn register_of(rng: &mut Rng, palette: &Palette, items: usize, links: usize) -> Register {
    let names = (0..items).map(|_| palette.held(rng)).collect();
    let mut set = BTreeSet::new();
    // Small registers may have fewer different links than were asked for.
    for _ in 0..links * 40 {
        if set.len() == links {
            break;
        }
        let from = rng.index(items);
        let to = match rng.below(8) {
            0 => from,
            1 | 2 => (from + 1) % items,
            3 => rng.index(items.min(3)),
            _ => rng.index(items),
        };
        set.insert((from as u16, palette.role(rng), to as u16));
    }
    Register {
        names,
        links: set.into_iter().collect(),
    }
}
