//! The requirement: a tree of nodes, each with names, thresholds and children.
//!
//! Renders "Requirement message" of document 01 and the requirement's numbers
//! 1 to 3 and 7 to 14, with the numbers 23 to 25 of §2 of document 02. (The 11
//! of a requirement that must be plain and the 14 of the outer concept come
//! after reading: see `degree`.)

use crate::field::{with_head, Behind, Fields};
use crate::fraction::{greatest_common_factor, Fraction};
use crate::reduce::{reduce, MOST_SIZE};
use crate::register::MOST_ROLE;
use crate::{Refusal, Side};

pub const MOST_DEPTH: usize = 16;
pub const MOST_NODES: usize = 64;
pub const MOST_THRESHOLDS: usize = 16;
pub const MOST_Q: u64 = 1000;

/// Bytes of a threshold before its inner concept: comparison, p, q, length.
pub const THRESHOLD_HEAD: usize = 7;

#[derive(Clone, Copy, PartialEq, Eq, Hash, Debug)]
pub enum Comparison {
    Below,
    AtMost,
    Above,
    AtLeast,
}

impl Comparison {
    pub fn from_byte(byte: u64) -> Option<Comparison> {
        match byte {
            0 => Some(Comparison::Below),
            1 => Some(Comparison::AtMost),
            2 => Some(Comparison::Above),
            3 => Some(Comparison::AtLeast),
            _ => None,
        }
    }

    pub fn byte(self) -> u8 {
        match self {
            Comparison::Below => 0,
            Comparison::AtMost => 1,
            Comparison::Above => 2,
            Comparison::AtLeast => 3,
        }
    }

    /// Whether a degree stands so to the threshold p/q. Both are exact.
    pub fn satisfied(self, degree: Fraction, p: u16, q: u16) -> bool {
        let ours = degree.num * u128::from(q);
        let theirs = u128::from(p) * degree.den;
        match self {
            Comparison::Below => ours < theirs,
            Comparison::AtMost => ours <= theirs,
            Comparison::Above => ours > theirs,
            Comparison::AtLeast => ours >= theirs,
        }
    }
}

#[derive(Clone, PartialEq, Eq, Debug)]
pub struct Threshold {
    pub comparison: Comparison,
    pub p: u16,
    pub q: u16,
    pub inner: Node,
    /// Where the inner concept begins in the message, and its bytes. Both are
    /// 0 in a tree that was built and not read.
    pub start: usize,
    pub len: usize,
}

impl Threshold {
    /// Where the threshold itself begins in the message it was read from.
    pub fn place(&self) -> usize {
        self.start.saturating_sub(THRESHOLD_HEAD)
    }
}

#[derive(Clone, PartialEq, Eq, Debug, Default)]
pub struct Node {
    pub names: u64,
    pub thresholds: Vec<Threshold>,
    pub children: Vec<(u8, Node)>,
}

impl Node {
    /// A node with these names and nothing else.
    pub fn leaf(names: u64) -> Node {
        Node {
            names,
            thresholds: Vec::new(),
            children: Vec::new(),
        }
    }

    /// The same tree without the places it was read from.
    pub fn without_places(&self) -> Node {
        Node {
            names: self.names,
            thresholds: self
                .thresholds
                .iter()
                .map(|threshold| Threshold {
                    inner: threshold.inner.without_places(),
                    start: 0,
                    len: 0,
                    ..threshold.clone()
                })
                .collect(),
            children: self
                .children
                .iter()
                .map(|(role, child)| (*role, child.without_places()))
                .collect(),
        }
    }
}

/// A node of the outer tree with what reading order adds: its parent's number
/// and the role of the edge to it (none at the root), its children's numbers.
#[derive(Clone, Debug)]
pub struct Written<'a> {
    pub node: &'a Node,
    pub above: Option<(usize, u8)>,
    pub children: Vec<(u8, usize)>,
}

/// The written nodes in reading order: a node before all that hangs below it,
/// children in their order. Inner concepts are not among them.
pub fn written(root: &Node) -> Vec<Written<'_>> {
    fn visit<'a>(node: &'a Node, above: Option<(usize, u8)>, list: &mut Vec<Written<'a>>) {
        let number = list.len();
        list.push(Written {
            node,
            above,
            children: Vec::new(),
        });
        for (role, child) in &node.children {
            let child_number = list.len();
            list[number].children.push((*role, child_number));
            visit(child, Some((number, *role)), list);
        }
    }
    let mut list = Vec::new();
    visit(root, None, &mut list);
    list
}

/// The thresholds of the outer tree in reading order.
pub fn thresholds(root: &Node) -> Vec<&Threshold> {
    written(root)
        .iter()
        .flat_map(|written| written.node.thresholds.iter())
        .collect()
}

/// The number of a fraction that is at fault.
#[derive(Clone, Copy, PartialEq, Eq, Debug)]
pub enum AtFault {
    P,
    Q,
}

/// What is wrong with p/q, if something is: the refusal number, in the order
/// 23, 24, 25, and which of the two is at fault. The same rules hold for a
/// threshold in a message, for one in a list and for a margin's own fraction.
pub fn fraction_fault(p: u64, q: u64) -> Option<(u32, AtFault)> {
    if q == 0 || q > MOST_Q {
        return Some((23, AtFault::Q));
    }
    if p > q {
        return Some((24, AtFault::P));
    }
    if greatest_common_factor(u128::from(p), u128::from(q)) > 1 {
        return Some((25, AtFault::P));
    }
    None
}

/// Reads a whole message.
pub fn read(bytes: &[u8]) -> Result<Node, Refusal> {
    let mut fields = Fields::after_head(bytes, Side::Requirement, Behind::Nothing)?;
    let mut tree = Tree {
        inner: false,
        nodes: 0,
        thresholds: 0,
    };
    let root = tree.node(&mut fields, 0)?;
    fields.finish()?;
    Ok(root)
}

/// What is counted while one tree is read, the outer one or an inner one.
struct Tree {
    inner: bool,
    nodes: usize,
    thresholds: usize,
}

impl Tree {
    /// At a node: 1 (all 10 bytes), 9, 10, 11. Then its thresholds, then edges with nodes.
    fn node(&mut self, fields: &mut Fields<'_>, depth: usize) -> Result<Node, Refusal> {
        let place = fields.place();
        let names = fields.take(8)?;
        let threshold_count = fields.take(1)?;
        let child_count = fields.take(1)?;
        if depth > MOST_DEPTH {
            return Err(fields.refuse(9, place));
        }
        self.nodes += 1;
        if self.nodes > MOST_NODES {
            return Err(fields.refuse(10, place));
        }
        if self.inner && threshold_count > 0 {
            return Err(fields.refuse(11, place + 8));
        }
        let mut node = Node::leaf(names);
        for _ in 0..threshold_count {
            node.thresholds.push(self.threshold(fields)?);
        }
        for _ in 0..child_count {
            // At an edge: 1, 7.
            let role_place = fields.place();
            let role = fields.take(1)?;
            if role > MOST_ROLE {
                return Err(fields.refuse(7, role_place));
            }
            let child = self.node(fields, depth + 1)?;
            node.children.push((role as u8, child));
        }
        Ok(node)
    }

    /// At a threshold: 12, 1 (the first 5 bytes), 13, 23, 24, 25, 1 (inner
    /// length), then the inner concept, 8, 14.
    fn threshold(&mut self, fields: &mut Fields<'_>) -> Result<Threshold, Refusal> {
        let place = fields.place();
        self.thresholds += 1;
        if self.thresholds > MOST_THRESHOLDS {
            return Err(fields.refuse(12, place));
        }
        let comparison = fields.take(1)?;
        let p_place = fields.place();
        let p = fields.take(2)?;
        let q_place = fields.place();
        let q = fields.take(2)?;
        let comparison = match Comparison::from_byte(comparison) {
            Some(comparison) => comparison,
            None => return Err(fields.refuse(13, place)),
        };
        match fraction_fault(p, q) {
            Some((number, AtFault::P)) => return Err(fields.refuse(number, p_place)),
            Some((number, AtFault::Q)) => return Err(fields.refuse(number, q_place)),
            None => {}
        }
        let length_place = fields.place();
        let len = fields.take(2)? as usize;
        let start = fields.place();
        let mut part = match fields.part(len) {
            Some(part) => part,
            None => return Err(fields.refuse(1, length_place)),
        };
        // Depth and nodes are counted anew in the inner concept.
        let mut inner_tree = Tree {
            inner: true,
            nodes: 0,
            thresholds: 0,
        };
        let inner = inner_tree.node(&mut part, 0)?;
        part.finish()?;
        if reduce(&inner).size() > MOST_SIZE {
            return Err(fields.refuse(14, start));
        }
        Ok(Threshold {
            comparison,
            p: p as u16,
            q: q as u16,
            inner,
            start,
            len,
        })
    }
}

/// The message of a tree. Trees that break the rules are written as well (a
/// generator makes some); counts and lengths then keep their low bits.
pub fn encode(root: &Node) -> Vec<u8> {
    let mut body = Vec::new();
    put_node(root, &mut body);
    with_head(&body)
}

/// The bytes of one node with its thresholds and all below it.
pub fn put_node(node: &Node, body: &mut Vec<u8>) {
    body.extend_from_slice(&node.names.to_be_bytes());
    body.push(node.thresholds.len() as u8);
    body.push(node.children.len() as u8);
    for threshold in &node.thresholds {
        let mut inner = Vec::new();
        put_node(&threshold.inner, &mut inner);
        body.push(threshold.comparison.byte());
        body.extend_from_slice(&threshold.p.to_be_bytes());
        body.extend_from_slice(&threshold.q.to_be_bytes());
        body.extend_from_slice(&(inner.len() as u16).to_be_bytes());
        body.extend_from_slice(&inner);
    }
    for (role, child) in &node.children {
        body.push(*role);
        put_node(child, body);
    }
}

/// The start and length of the k-th inner concept in the message, from 0 in
/// reading order. None is the part without bytes: message bad, or no k-th.
pub fn inner_part(message: &[u8], k: u64) -> Option<(usize, usize)> {
    let root = read(message).ok()?;
    let k = usize::try_from(k).ok()?;
    let list = thresholds(&root);
    let threshold = list.get(k)?;
    Some((threshold.start, threshold.len))
}
