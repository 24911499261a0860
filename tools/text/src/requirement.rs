//! A requirement, and its bytes: "Requirement message" of document 01.

use crate::fault::Fault;
use crate::field::{with_head, Fields};
use crate::register::MOST_ROLE;

pub const MOST_DEPTH: usize = 16;
pub const MOST_NODES: usize = 64;
pub const MOST_THRESHOLDS: usize = 16;
pub const MOST_Q: u64 = 1000;

/// The comparisons, each at the place of its byte.
pub const COMPARISONS: [&str; 4] = ["<", "<=", ">", ">="];

// What is wrong with a threshold, in the words of the wrapper for Rust for the
// library's refusals 13, 23, 24 and 25, with the bound `MOST_Q` in the second.
pub const NO_COMPARISON: &str = "a threshold's comparison is none of <, <=, > and >=";
pub const Q_OUT_OF_RANGE: &str = "a threshold's q is 0 or above 1,000";
pub const P_ABOVE_Q: &str = "a threshold's p is above its q";
pub const COMMON_FACTOR: &str = "a threshold's p and q share a factor above 1";

/// One node, with all below it.
#[derive(Clone, PartialEq, Eq, Debug)]
pub struct Node {
    pub names: u64,
    pub thresholds: Vec<Threshold>,
    pub children: Vec<(u8, Node)>,
}

/// The degree in the inner concept, compared with p/q. The comparison is an
/// index of `COMPARISONS`.
#[derive(Clone, PartialEq, Eq, Debug)]
pub struct Threshold {
    pub comparison: u8,
    pub p: u16,
    pub q: u16,
    pub inner: Node,
}

/// A requirement is its root.
#[derive(Clone, PartialEq, Eq, Debug)]
pub struct Requirement {
    pub root: Node,
}

/// The bounds of a requirement, held to while it is read, from bytes or text.
/// There is one for the outer tree and one for each inner concept.
pub struct Bounds {
    pub inner: bool,
    nodes: usize,
    thresholds: usize,
}

impl Bounds {
    pub fn new(inner: bool) -> Bounds {
        Bounds {
            inner,
            nodes: 0,
            thresholds: 0,
        }
    }

    /// One more node, at this depth.
    pub fn node(&mut self, depth: usize) -> Result<(), String> {
        if depth > MOST_DEPTH {
            return Err(format!("a node at depth {depth}; {MOST_DEPTH} is the most"));
        }
        self.nodes += 1;
        if self.nodes > MOST_NODES {
            return Err(format!("more than {MOST_NODES} nodes"));
        }
        Ok(())
    }

    /// One more threshold.
    pub fn threshold(&mut self) -> Result<(), String> {
        self.thresholds += 1;
        if self.thresholds > MOST_THRESHOLDS {
            return Err(format!("more than {MOST_THRESHOLDS} thresholds"));
        }
        Ok(())
    }
}

/// The number of a fraction that is at fault.
pub enum AtFault {
    P,
    Q,
}

/// The rules for p/q, in the document's order: what is wrong, and with which of
/// the two.
pub fn fraction(p: u64, q: u64) -> Result<(u16, u16), (AtFault, String)> {
    if !(1..=MOST_Q).contains(&q) {
        return Err((AtFault::Q, Q_OUT_OF_RANGE.to_string()));
    }
    if p > q {
        return Err((AtFault::P, P_ABOVE_Q.to_string()));
    }
    let factor = greatest_common_factor(p, q);
    if factor > 1 {
        let (p, q) = (p / factor, q / factor);
        let what = format!("{COMMON_FACTOR} ({p}/{q} is the same)");
        return Err((AtFault::P, what));
    }
    Ok((p as u16, q as u16))
}

fn greatest_common_factor(one: u64, other: u64) -> u64 {
    if other == 0 {
        one
    } else {
        greatest_common_factor(other, one % other)
    }
}

impl Requirement {
    pub fn from_bytes(bytes: &[u8]) -> Result<Requirement, Fault> {
        let mut fields = Fields::after_head(bytes)?;
        let root = take_node(&mut fields, &mut Bounds::new(false), 0)?;
        fields.finish()?;
        Ok(Requirement { root })
    }

    pub fn to_bytes(&self) -> Vec<u8> {
        let mut body = Vec::new();
        put_node(&self.root, &mut body);
        with_head(&body)
    }
}

/// Reads a node and all below it; its fixed fields are there before one is
/// looked at.
fn take_node(fields: &mut Fields<'_>, bounds: &mut Bounds, depth: usize) -> Result<Node, Fault> {
    let place = fields.place();
    let names = fields.take(8, "the names of a node")?;
    let thresholds = fields.take(1, "the count of thresholds")?;
    let children = fields.take(1, "the count of children")?;
    bounds
        .node(depth)
        .map_err(|what| Fault::byte(place, what))?;
    if bounds.inner && thresholds > 0 {
        return Err(Fault::byte(place + 8, INSIDE));
    }
    let mut node = Node {
        names,
        thresholds: Vec::new(),
        children: Vec::new(),
    };
    for _ in 0..thresholds {
        node.thresholds.push(take_threshold(fields, bounds)?);
    }
    for _ in 0..children {
        let place = fields.place();
        let role = fields.take(1, "the role of a child")?;
        if role > MOST_ROLE {
            let what = format!("role {role} is above {MOST_ROLE}");
            return Err(Fault::byte(place, what));
        }
        let child = take_node(fields, bounds, depth + 1)?;
        node.children.push((role as u8, child));
    }
    Ok(node)
}

pub const INSIDE: &str = "a threshold inside the concept of a threshold";

fn take_threshold(fields: &mut Fields<'_>, bounds: &mut Bounds) -> Result<Threshold, Fault> {
    let place = fields.place();
    bounds
        .threshold()
        .map_err(|what| Fault::byte(place, what))?;
    let comparison = fields.take(1, "a comparison")?;
    let p_place = fields.place();
    let p = fields.take(2, "a threshold's p")?;
    let q_place = fields.place();
    let q = fields.take(2, "a threshold's q")?;
    if comparison >= COMPARISONS.len() as u64 {
        let what = format!("{comparison}: {NO_COMPARISON}");
        return Err(Fault::byte(place, what));
    }
    let (p, q) = fraction(p, q).map_err(|(number, what)| {
        let place = match number {
            AtFault::P => p_place,
            AtFault::Q => q_place,
        };
        Fault::byte(place, format!("{p}/{q}: {what}"))
    })?;
    let length_place = fields.place();
    let length = fields.take(2, "the length of an inner concept")?;
    let mut part = fields.part(length as usize, length_place)?;
    let inner = take_node(&mut part, &mut Bounds::new(true), 0)?;
    part.finish()?;
    Ok(Threshold {
        comparison: comparison as u8,
        p,
        q,
        inner,
    })
}

fn put_node(node: &Node, body: &mut Vec<u8>) {
    body.extend_from_slice(&node.names.to_be_bytes());
    body.push(node.thresholds.len() as u8);
    body.push(node.children.len() as u8);
    for threshold in &node.thresholds {
        let mut inner = Vec::new();
        put_node(&threshold.inner, &mut inner);
        body.push(threshold.comparison);
        body.extend_from_slice(&threshold.p.to_be_bytes());
        body.extend_from_slice(&threshold.q.to_be_bytes());
        body.extend_from_slice(&(inner.len() as u16).to_be_bytes());
        body.extend_from_slice(&inner);
    }
    for (role, child) in &node.children {
        body.push(*role);
        put_node(child, body);
    }
}
