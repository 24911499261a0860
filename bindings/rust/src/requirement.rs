//! Requirements built node by node, and their messages.
//!
//! A tree is kept as the lists that the proved call takes: its nodes in
//! reading order, each with names, depth and role. So a child is put behind
//! what stands there already, one deeper.

use crate::calls;
use crate::refusal::Refusal;

/// No message is longer.
pub const LONGEST_MESSAGE: usize = 12_066;

/// How a degree is to stand to the threshold.
#[derive(Clone, Copy, PartialEq, Eq, Hash, Debug)]
pub enum Comparison {
    Below,
    AtMost,
    Above,
    AtLeast,
}

/// Names, depth, role.
type Node = [u64; 3];
/// Node, comparison, p, q, how many inner nodes.
type Threshold = [u64; 5];

fn set(names: impl IntoIterator<Item = u32>) -> u64 {
    names.into_iter().fold(0, |all, name| {
        assert!(name < 64, "name {name} is above 63");
        all | 1 << name
    })
}

/// The nodes of a tree as they stand below a parent, under a role.
fn below(nodes: &[Node], role: u8) -> impl Iterator<Item = Node> + '_ {
    nodes
        .iter()
        .enumerate()
        .map(move |(at, [names, depth, own])| {
            let role = if at == 0 { role.into() } else { *own };
            [*names, depth + 1, role]
        })
}

/// A plain concept: names, and children under roles.
///
/// ```
/// use svelgandur::Concept;
///
/// let lamp = Concept::new().names([4]).child(0, Concept::new().names([5, 6]));
/// # drop(lamp);
/// ```
#[derive(Clone, PartialEq, Eq, Hash, Debug)]
#[must_use]
pub struct Concept {
    nodes: Vec<Node>,
}

impl Concept {
    /// A node without names and children, which every item meets.
    pub fn new() -> Concept {
        Concept {
            nodes: vec![[0; 3]],
        }
    }

    /// These names, too.
    ///
    /// # Panics
    /// Where a name is above 63.
    pub fn names(mut self, names: impl IntoIterator<Item = u32>) -> Concept {
        self.nodes[0][0] |= set(names);
        self
    }

    /// A child more, under a role.
    pub fn child(mut self, role: u8, child: Concept) -> Concept {
        self.nodes.extend(below(&child.nodes, role));
        self
    }
}

impl Default for Concept {
    fn default() -> Concept {
        Concept::new()
    }
}

/// A requirement: names, children under roles, and thresholds ("at least 2/3
/// of this").
///
/// ```
/// use svelgandur::{read_requirement, Concept, Requirement};
///
/// let message = Requirement::new()
///     .names([0, 1])
///     .child(2, Requirement::new().names([3]))
///     .at_least(2, 3, Concept::new().names([4]).child(0, Concept::new().names([5])))
///     .message()?;
/// let counts = read_requirement(&message)?;
/// assert_eq!((counts.nodes, counts.thresholds), (2, 1));
/// # Ok::<(), svelgandur::Refusal>(())
/// ```
#[derive(Clone, PartialEq, Eq, Hash, Debug)]
#[must_use]
pub struct Requirement {
    nodes: Vec<Node>,
    thresholds: Vec<Threshold>,
    inner: Vec<Node>,
    /// How many thresholds the root has: they stand before all others.
    own: usize,
    own_inner: usize,
}

impl Requirement {
    /// A node without names, thresholds and children, which every item meets.
    pub fn new() -> Requirement {
        Concept::new().into()
    }

    /// These names, too.
    ///
    /// # Panics
    /// Where a name is above 63.
    pub fn names(mut self, names: impl IntoIterator<Item = u32>) -> Requirement {
        self.nodes[0][0] |= set(names);
        self
    }

    /// A child more, under a role.
    pub fn child(mut self, role: u8, child: impl Into<Requirement>) -> Requirement {
        let child = child.into();
        let first = self.nodes.len() as u64;
        self.nodes.extend(below(&child.nodes, role));
        self.thresholds
            .extend(child.thresholds.iter().map(|[node, rest @ ..]| {
                let [how, p, q, inner] = *rest;
                [node + first, how, p, q, inner]
            }));
        self.inner.extend(child.inner);
        self
    }

    /// A threshold more: the degree in `concept` is to stand so to p/q.
    pub fn threshold(mut self, how: Comparison, p: u64, q: u64, concept: Concept) -> Requirement {
        let count = concept.nodes.len();
        let numbers = [0, how as u64, p, q, count as u64];
        self.thresholds.insert(self.own, numbers);
        self.inner
            .splice(self.own_inner..self.own_inner, concept.nodes);
        self.own += 1;
        self.own_inner += count;
        self
    }

    /// The degree in `concept` is to be at least p/q.
    pub fn at_least(self, p: u64, q: u64, concept: Concept) -> Requirement {
        self.threshold(Comparison::AtLeast, p, q, concept)
    }

    /// The degree in `concept` is to be above p/q.
    pub fn above(self, p: u64, q: u64, concept: Concept) -> Requirement {
        self.threshold(Comparison::Above, p, q, concept)
    }

    /// The degree in `concept` is to be at most p/q.
    pub fn at_most(self, p: u64, q: u64, concept: Concept) -> Requirement {
        self.threshold(Comparison::AtMost, p, q, concept)
    }

    /// The degree in `concept` is to be below p/q.
    pub fn below(self, p: u64, q: u64, concept: Concept) -> Requirement {
        self.threshold(Comparison::Below, p, q, concept)
    }

    /// The message, written by the proved call.
    pub fn message(&self) -> Result<Vec<u8>, Refusal> {
        let mut message = vec![0; LONGEST_MESSAGE];
        let length = self.message_into(&mut message)?;
        message.truncate(length);
        Ok(message)
    }

    /// The same without memory of its own: how many bytes were written. Bytes
    /// behind them stay as they were, and after a refusal all do.
    pub fn message_into(&self, message: &mut [u8]) -> Result<usize, Refusal> {
        let answer = calls::write_requirement(
            self.nodes.as_flattened(),
            self.thresholds.as_flattened(),
            self.inner.as_flattened(),
            message,
        );
        let [_, length, ..] = Refusal::or(answer)?;
        Ok(length as usize)
    }
}

impl Default for Requirement {
    fn default() -> Requirement {
        Requirement::new()
    }
}

impl From<Concept> for Requirement {
    fn from(concept: Concept) -> Requirement {
        Requirement {
            nodes: concept.nodes,
            thresholds: Vec::new(),
            inner: Vec::new(),
            own: 0,
            own_inner: 0,
        }
    }
}
