//! The degree of an item in a plain requirement, its map, and its margin.
//!
//! Renders "Reduction and degree" and the degree's half of "Map shown" in
//! document 01, over the graph of §5 of document 02: worked out from below,
//! each (node, item) once.

use std::collections::HashMap;

pub use crate::brute::degree as brute_degree;

use crate::fraction::Fraction;
use crate::judged::Judged;
use crate::reduce::{reduce, Concept, Kept, MOST_SIZE};
use crate::register::read_whole;
use crate::requirement::{self, fraction_fault, Node};
use crate::Refusal;

/// The map's value where the parent is unmapped or has no such successor.
pub const UNMAPPED: u16 = 65_535;
/// The map's value for a dropped node and all below it.
pub const DROPPED: u16 = 65_534;

/// The degrees of one graph's items in one reduced concept. A degree that
/// was worked out is remembered under (node, item), so the work grows with
/// nodes times links and not with the number of maps.
pub struct Degrees<'a> {
    judged: &'a Judged,
    concept: &'a Concept,
    known: HashMap<(usize, u16), Fraction>,
}

impl<'a> Degrees<'a> {
    /// None where the reduced size is above 60: no degree is taken then.
    pub fn of(judged: &'a Judged, concept: &'a Concept) -> Option<Degrees<'a>> {
        if concept.size() > MOST_SIZE {
            return None;
        }
        Some(Degrees {
            judged,
            concept,
            known: HashMap::new(),
        })
    }

    /// The degree of an item of the graph in the concept.
    pub fn at(&mut self, item: u16) -> Fraction {
        self.at_node(&self.concept.root, item)
    }

    fn at_node(&mut self, node: &'a Kept, item: u16) -> Fraction {
        if let Some(degree) = self.known.get(&(node.number, item)) {
            return *degree;
        }
        let degree = if node.n() == 0 {
            Fraction::ONE
        } else {
            let held = self.judged.names(item);
            let mut sum = Fraction::whole(u128::from((node.names & held).count_ones()));
            for (role, child) in &node.children {
                if let Some((_, best)) = self.best_successor(*role, child, item) {
                    sum = sum.plus(best);
                }
            }
            sum.over(node.n() as u128)
        };
        self.known.insert((node.number, item), degree);
        degree
    }

    /// The lowest-numbered among the successors of greatest degree in the
    /// child, with that degree. Successors come lowest first, so only a
    /// greater degree may take the place of an earlier one.
    fn best_successor(&mut self, role: u8, child: &'a Kept, item: u16) -> Option<(u16, Fraction)> {
        let mut best: Option<(u16, Fraction)> = None;
        for to in self.judged.successors(item, role) {
            let degree = self.at_node(child, to);
            if best.is_none_or(|(_, so_far)| degree > so_far) {
                best = Some((to, degree));
            }
        }
        best
    }

    /// The map shown for an item: one number for each written node.
    pub fn map(&mut self, item: u16) -> Vec<u16> {
        let mut map: Vec<u16> = self
            .concept
            .dropped
            .iter()
            .map(|dropped| if *dropped { DROPPED } else { UNMAPPED })
            .collect();
        self.write_map(&self.concept.root, item, &mut map);
        map
    }

    fn write_map(&mut self, node: &'a Kept, item: u16, map: &mut [u16]) {
        map[node.number] = item;
        for (role, child) in &node.children {
            if let Some((to, _)) = self.best_successor(*role, child, item) {
                self.write_map(child, to, map);
            }
        }
    }
}

/// What a degree and a margin test after reading and before the call's own
/// numbers: 11 at the first threshold, 14 at the outer root.
pub fn plain_concept(root: &Node) -> Result<Concept, Refusal> {
    if let Some(first) = requirement::thresholds(root).first() {
        return Err(Refusal::requirement(11, first.place()));
    }
    let concept = reduce(root);
    if concept.size() > MOST_SIZE {
        return Err(outer_too_large());
    }
    Ok(concept)
}

/// Number 14 for the outer concept: its root stands behind the head.
fn outer_too_large() -> Refusal {
    Refusal::requirement(14, 3)
}

/// The degree call, in the order register, requirement, 11, 14, 15, 26, 16.
/// Answers numerator, denominator and the map's values; `map_room` is how
/// many values the lent map buffer can take.
pub fn degree(
    register: &[u8],
    requirement: &[u8],
    item: u64,
    map_room: usize,
) -> Result<(u64, u64, Vec<u16>), Refusal> {
    let judged = Judged::of(&read_whole(register)?);
    let root = requirement::read(requirement)?;
    let concept = plain_concept(&root)?;
    let item = judged.asked(item)?;
    if map_room < concept.written_nodes() {
        return Err(Refusal::call(16));
    }
    let mut degrees = Degrees::of(&judged, &concept).ok_or(outer_too_large())?;
    let degree = degrees.at(item);
    Ok((degree.num as u64, degree.den as u64, degrees.map(item)))
}

/// The margin call, in the order register, requirement, 11, 14, 15, 26, 23,
/// 24, 25.
/// Answers N × q − p × D and what it stands over, D × q.
pub fn margin(
    register: &[u8],
    requirement: &[u8],
    item: u64,
    p: u64,
    q: u64,
) -> Result<(i64, u64), Refusal> {
    let judged = Judged::of(&read_whole(register)?);
    let root = requirement::read(requirement)?;
    let concept = plain_concept(&root)?;
    let item = judged.asked(item)?;
    if let Some((number, _)) = fraction_fault(p, q) {
        return Err(Refusal::call(number));
    }
    let mut degrees = Degrees::of(&judged, &concept).ok_or(outer_too_large())?;
    let degree = degrees.at(item);
    // All four are below 2^32, so the products are far inside 128 bits.
    let margin = degree.num as i128 * i128::from(q) - i128::from(p) * degree.den as i128;
    let over = degree.den * u128::from(q);
    Ok((margin as i64, over as u64))
}
