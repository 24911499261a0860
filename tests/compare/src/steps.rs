//! A step of a session as a number of the log, as include/svelgandur.h says it:
//! bit 0 whether the fact was there, bit 1 whether it is a link; then a name's
//! item (16 bits) and name, or a link's to (16 bits), role (8 bits) and from.

use second::session::{Fact, Step};

/// The number of a step; its item or to is below 2^16 and its role below 2^8.
pub fn coded(step: Step) -> u64 {
    let fact = match step.fact {
        Fact::Name { item, name } => name << 18 | item << 2,
        Fact::Link { from, role, to } => from << 26 | role << 18 | to << 2 | 2,
    };
    fact | u64::from(step.was_there)
}

/// The step of any number.
pub fn decoded(number: u64) -> Step {
    let fact = if number & 2 == 0 {
        Fact::Name {
            item: number >> 2 & 0xFFFF,
            name: number >> 18,
        }
    } else {
        Fact::Link {
            from: number >> 26,
            role: number >> 18 & 0xFF,
            to: number >> 2 & 0xFFFF,
        }
    };
    Step {
        fact,
        was_there: number & 1 == 1,
    }
}
