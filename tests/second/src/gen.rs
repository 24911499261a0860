//! Seeded inputs for comparing the two programs: good ones of every size, ones
//! at each edge of the rules, and damaged ones.
//!
//! Renders no section of document 01; it aims at all of them. The same seed
//! gives the same inputs on every machine.

pub mod damage;
pub mod edges;
pub mod registers;
pub mod requirements;
pub mod rng;
pub mod sessions;
pub mod taken_out;

pub use damage::{damaged_register, damaged_requirement, random_bytes};
pub use edges::{call_fractions, concept_edges, register_edges, requirement_edges, Edge};
pub use registers::{largest_register, medium_register, small_register, Palette};
pub use requirements::{
    met_somewhere, plain, plain_within_size, small_plain, small_with_thresholds, with_thresholds,
};
pub use rng::Rng;
pub use sessions::{action, fact, junk_fact, junk_step, Action};
pub use taken_out::{renumbered, taken_out};

use crate::register::{self, Register};
use crate::requirement::{self, Node};

/// A register and a requirement that speak of the same names and roles, so
/// that degrees between 0 and 1 and answers of both kinds are common.
pub fn small_pair(rng: &mut Rng) -> (Register, Node) {
    let palette = Palette::any(rng);
    let register = small_register(rng, &palette);
    let root = match rng.below(4) {
        0 => small_plain(rng, &palette),
        1 => {
            let nodes = rng.between(1, 5);
            met_somewhere(rng, &register, nodes, 4)
        }
        _ => small_with_thresholds(rng, &palette, &register),
    };
    (register, root)
}

/// A pair of any size, small ones being the most common.
pub fn any_pair(rng: &mut Rng) -> (Register, Node) {
    let palette = Palette::any(rng);
    let register = match rng.below(32) {
        0 => largest_register(rng, &palette),
        1..=9 => medium_register(rng, &palette),
        _ => small_register(rng, &palette),
    };
    let root = match rng.below(8) {
        0 => plain(rng, &palette),
        1..=2 => plain_within_size(rng, &palette),
        3 => small_plain(rng, &palette),
        4 => {
            let nodes = rng.between(1, 64);
            met_somewhere(rng, &register, nodes, 16)
        }
        5..=6 => small_with_thresholds(rng, &palette, &register),
        _ => with_thresholds(rng, &palette, &register),
    };
    (register, root)
}

/// The bytes of a pair, each side whole or, one time in four, damaged.
pub fn any_pair_bytes(rng: &mut Rng) -> (Vec<u8>, Vec<u8>) {
    let (register, root) = any_pair(rng);
    let register_bytes = if rng.chance(4) {
        damaged_register(rng, &register)
    } else {
        register::encode(&register)
    };
    let requirement_bytes = if rng.chance(4) {
        damaged_requirement(rng, &root)
    } else {
        requirement::encode(&root)
    };
    (register_bytes, requirement_bytes)
}
