//! The yes or no: whether an item meets a requirement, with or without
//! thresholds, and the map that shows a yes.
//!
//! Renders the last paragraph of "Reduction and degree" and the second half of
//! "Map shown" in document 01, over the graph of §5 of document 02. The outer tree is taken as written: nothing is
//! dropped from it and its size has no bound of its own.

use std::collections::HashMap;

pub use crate::brute::member as brute_member;

use crate::degree::Degrees;
use crate::judged::Judged;
use crate::reduce::{reduce, Concept};
use crate::register::read_whole;
use crate::requirement::{self, written, Node, Threshold, Written};
use crate::Refusal;

/// A requirement made ready: its written nodes, and for each of them the
/// thresholds with their reduced inner concepts.
pub struct Ready<'a> {
    nodes: Vec<Written<'a>>,
    inner: Vec<Vec<(&'a Threshold, Concept)>>,
}

impl<'a> Ready<'a> {
    pub fn of(root: &'a Node) -> Ready<'a> {
        let nodes = written(root);
        let inner = nodes
            .iter()
            .map(|written| {
                written
                    .node
                    .thresholds
                    .iter()
                    .map(|threshold| (threshold, reduce(&threshold.inner)))
                    .collect()
            })
            .collect();
        Ready { nodes, inner }
    }

    pub fn written_nodes(&self) -> usize {
        self.nodes.len()
    }
}

/// Which items of one graph meet which nodes of one requirement, each
/// (node, item) decided once.
pub struct Meeting<'a> {
    judged: &'a Judged,
    ready: &'a Ready<'a>,
    degrees: Vec<Vec<Degrees<'a>>>,
    known: HashMap<(usize, u16), bool>,
}

impl<'a> Meeting<'a> {
    /// Refused with 14 where an inner concept is too large for its degree to
    /// be taken; reading has refused such a requirement already.
    pub fn of(judged: &'a Judged, ready: &'a Ready<'a>) -> Result<Meeting<'a>, Refusal> {
        let mut degrees = Vec::new();
        for list in &ready.inner {
            let mut of_node = Vec::new();
            for (threshold, concept) in list {
                of_node.push(
                    Degrees::of(judged, concept)
                        .ok_or(Refusal::requirement(14, threshold.start))?,
                );
            }
            degrees.push(of_node);
        }
        Ok(Meeting {
            judged,
            ready,
            degrees,
            known: HashMap::new(),
        })
    }

    /// Whether the item meets the node with this number and all below it.
    pub fn meets(&mut self, number: usize, item: u16) -> bool {
        if let Some(answer) = self.known.get(&(number, item)) {
            return *answer;
        }
        let answer = self.holds_names(number, item)
            && self.satisfies_thresholds(number, item)
            && self.meets_children(number, item);
        self.known.insert((number, item), answer);
        answer
    }

    fn holds_names(&self, number: usize, item: u16) -> bool {
        self.ready.nodes[number].node.names & !self.judged.names(item) == 0
    }

    fn satisfies_thresholds(&mut self, number: usize, item: u16) -> bool {
        let ready = self.ready;
        ready.inner[number]
            .iter()
            .zip(&mut self.degrees[number])
            .all(|((threshold, _), degrees)| {
                threshold
                    .comparison
                    .satisfied(degrees.at(item), threshold.p, threshold.q)
            })
    }

    fn meets_children(&mut self, number: usize, item: u16) -> bool {
        let ready = self.ready;
        ready.nodes[number]
            .children
            .iter()
            .all(|(role, child)| self.first_that_meets(*role, *child, item).is_some())
    }

    /// The lowest-numbered successor that meets the child.
    fn first_that_meets(&mut self, role: u8, child: usize, item: u16) -> Option<u16> {
        let judged = self.judged;
        judged
            .successors(item, role)
            .find(|to| self.meets(child, *to))
    }

    /// The map of a yes, one item for each written node; None on no.
    pub fn map(&mut self, item: u16) -> Option<Vec<u16>> {
        if !self.meets(0, item) {
            return None;
        }
        let ready = self.ready;
        let mut map = Vec::new();
        for written in &ready.nodes {
            // A parent stands before its children, so its place is known.
            let goes_to = match written.above {
                None => item,
                Some((parent, role)) => self.first_that_meets(role, map.len(), map[parent])?,
            };
            map.push(goes_to);
        }
        Some(map)
    }
}

/// The yes/no call, in the order register, requirement, 15, 26, 16. Some is yes
/// with its map, None is no. 16 is tested before the answer is known.
pub fn member(
    register: &[u8],
    requirement: &[u8],
    item: u64,
    map_room: usize,
) -> Result<Option<Vec<u16>>, Refusal> {
    let judged = Judged::of(&read_whole(register)?);
    let root = requirement::read(requirement)?;
    let item = judged.asked(item)?;
    let ready = Ready::of(&root);
    if map_room < ready.written_nodes() {
        return Err(Refusal::call(16));
    }
    let mut meeting = Meeting::of(&judged, &ready)?;
    Ok(meeting.map(item))
}
