//! Calls of a session: mostly sensible, some aimed past each range, and steps
//! that no session wrote.

use super::registers::Palette;
use super::rng::Rng;
use crate::judged::WITHDRAWN;
use crate::register::Register;
use crate::session::{Fact, Step};

#[derive(Clone, Copy, PartialEq, Eq, Debug)]
pub enum Action {
    Edit { fact: Fact, there: bool },
    Undo,
    Keep,
}

/// A fact in range, one that already stands about half of the time; of the names
/// one in six is that an item is withdrawn.
pub fn fact(rng: &mut Rng, palette: &Palette, register: &Register) -> Fact {
    let item = rng.index(register.items()) as u64;
    match rng.below(4) {
        0 => {
            let name = match rng.chance(6) {
                true => u64::from(WITHDRAWN),
                false => u64::from(rng.pick(&palette.names)),
            };
            Fact::Name { item, name }
        }
        1 | 2 if !register.links.is_empty() => {
            let (from, role, to) = rng.pick(&register.links);
            Fact::Link {
                from: from.into(),
                role: role.into(),
                to: to.into(),
            }
        }
        _ => {
            let to = rng.index(register.items()) as u64;
            Fact::Link {
                from: item,
                role: palette.role(rng).into(),
                to,
            }
        }
    }
}

/// A number near a bound, or one that would be small if its high bits were
/// lost on the way.
fn junk_number(rng: &mut Rng, items: usize) -> u64 {
    match rng.below(8) {
        0 => items as u64,
        1 => items as u64 - 1,
        2 => rng.pick(&[31, 32, 63, 64, 255, 256, 511, 512, 65_535, 65_536]),
        3 => 1 << rng.pick(&[8, 16, 32, 63]),
        4 => (1 << 32) + rng.below(items as u64),
        5 => u64::MAX,
        6 => rng.word(),
        _ => rng.below(items as u64),
    }
}

/// A fact whose numbers may be anything.
pub fn junk_fact(rng: &mut Rng, items: usize) -> Fact {
    if rng.chance(2) {
        Fact::Name {
            item: junk_number(rng, items),
            name: junk_number(rng, items),
        }
    } else {
        Fact::Link {
            from: junk_number(rng, items),
            role: junk_number(rng, items),
            to: junk_number(rng, items),
        }
    }
}

/// A record that no edit of this session wrote.
pub fn junk_step(rng: &mut Rng, palette: &Palette, register: &Register) -> Step {
    let fact = if rng.chance(2) {
        junk_fact(rng, register.items())
    } else {
        fact(rng, palette, register)
    };
    Step {
        fact,
        was_there: rng.chance(2),
    }
}

/// The next call: mostly edits, so that logs fill up.
pub fn action(rng: &mut Rng, palette: &Palette, register: &Register) -> Action {
    match rng.below(64) {
        0 => Action::Keep,
        1..=12 => Action::Undo,
        13..=18 => Action::Edit {
            fact: junk_fact(rng, register.items()),
            there: rng.chance(2),
        },
        _ => Action::Edit {
            fact: fact(rng, palette, register),
            there: rng.chance(2),
        },
    }
}
