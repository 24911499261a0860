//! The whole list: a number for every written node at every item.
//!
//! Renders §3 of document 02, and of its §5 that a withdrawn item has 0. Each
//! kept node is taken as a requirement of its own, and its number at an item is
//! its degree there times its scale. No row is made out of another: the library
//! makes each out of those below it, and two ways to the same numbers check each
//! other.

use crate::degree::{plain_concept, Degrees};
use crate::fraction::Fraction;
use crate::judged::Judged;
use crate::reduce::{reduce, Concept};
use crate::register::read_whole;
use crate::requirement::{self, written, Node};
use crate::Refusal;

#[derive(Clone, PartialEq, Eq, Debug)]
pub struct List {
    pub items: usize,
    /// Written nodes.
    pub nodes: usize,
    /// The root's.
    pub scale: u32,
    /// Node by node, and for each node item by item.
    pub table: Vec<u32>,
}

impl List {
    /// The list of a plain requirement within size. `degrees` answers those of
    /// all items of the graph in a reduced concept, each with its item.
    pub fn of(
        judged: &Judged,
        root: &Node,
        degrees: impl Fn(&Judged, &Concept) -> Vec<(u16, Fraction)>,
    ) -> List {
        let dropped = reduce(root).dropped;
        let mut table = Vec::new();
        for (number, written) in written(root).iter().enumerate() {
            // Reduction goes from the leaves up, so what is kept below a node
            // does not depend on what stands above it.
            let own = reduce(written.node);
            let mut row = vec![0; judged.items()];
            if !dropped[number] {
                for (item, degree) in degrees(judged, &own) {
                    row[usize::from(item)] = over(degree, scale(&own));
                }
            }
            table.extend(row);
        }
        List {
            items: judged.items(),
            nodes: dropped.len(),
            scale: whole(scale(&reduce(root))),
            table,
        }
    }

    /// The degree of an item that is not withdrawn.
    pub fn degree(&self, item: usize) -> Fraction {
        Fraction::new(self.table[item].into(), self.scale.into())
    }
}

/// The degrees of all items in a reduced concept, each asked for by itself.
pub fn single_degrees(judged: &Judged, concept: &Concept) -> Vec<(u16, Fraction)> {
    let mut degrees = Degrees::of(judged, concept).expect("within size");
    let items = judged.each();
    items.map(|item| (item, degrees.at(item))).collect()
}

fn scale(concept: &Concept) -> u128 {
    concept.scale().expect("within size")
}

/// A degree as a whole number over a scale.
fn over(degree: Fraction, scale: u128) -> u32 {
    assert_eq!(scale % degree.den, 0, "no whole number over its scale");
    whole(degree.num * (scale / degree.den))
}

/// No scale is above 3^20, and no degree above 1.
fn whole(number: u128) -> u32 {
    u32::try_from(number).expect("32 bits are enough")
}

/// The list call, in the order register, requirement, 11, 14, 16. `room` is how
/// many numbers the lent table can take.
pub fn list(register: &[u8], requirement: &[u8], room: usize) -> Result<List, Refusal> {
    let judged = Judged::of(&read_whole(register)?);
    let root = requirement::read(requirement)?;
    let concept = plain_concept(&root)?;
    if room < concept.written_nodes() * judged.items() {
        return Err(Refusal::call(16));
    }
    Ok(List::of(&judged, &root, single_degrees))
}
