//! Reading a requirement message in one walk. An inner concept is reduced as
//! soon as it is read.

use crate::tree::Tree;
use crate::{
    eight, fraction_fault, head, pair, refuse, Refusal, Side, MOST_DEPTH, MOST_NODES, MOST_ROLE,
    MOST_SIZE, MOST_THRESHOLDS,
};

/// A threshold, and where its inner concept stands.
#[derive(Clone, Copy, Default)]
pub struct Threshold {
    pub node: u8,
    pub comparison: u8,
    pub p: u16,
    pub q: u16,
    pub start: u16,
    pub length: u16,
}

impl Threshold {
    /// Whether number/scale stands so to p/q.
    pub fn satisfied(&self, number: u32, scale: u32) -> bool {
        let ours = u64::from(number) * u64::from(self.q);
        let theirs = u64::from(self.p) * u64::from(scale);
        match self.comparison {
            0 => ours < theirs,
            1 => ours <= theirs,
            2 => ours > theirs,
            _ => ours >= theirs,
        }
    }
}

/// Where inner concepts are put.
pub trait Room {
    fn room(&mut self, number: usize) -> &mut Tree;
}

/// One place for all of them, for who does not need them.
pub struct Passing(pub Option<Tree>);

impl Room for Passing {
    fn room(&mut self, _: usize) -> &mut Tree {
        self.0.insert(Tree::EMPTY)
    }
}

/// A place for each.
pub struct Each(pub [Option<Tree>; MOST_THRESHOLDS]);

impl Each {
    pub const NONE: Each = Each([const { None }; MOST_THRESHOLDS]);
}

impl Room for Each {
    fn room(&mut self, number: usize) -> &mut Tree {
        self.0[number].insert(Tree::EMPTY)
    }
}

/// A message that was read.
pub struct Message {
    pub tree: Tree,
    pub count: usize,
    pub thresholds: [Threshold; MOST_THRESHOLDS],
}

impl Message {
    pub fn read(bytes: &[u8], inner: &mut impl Room) -> Result<Message, Refusal> {
        head(bytes, Side::Requirement, true)?;
        let mut message = Message {
            tree: Tree::EMPTY,
            count: 0,
            thresholds: [Threshold::default(); MOST_THRESHOLDS],
        };
        let Message {
            tree,
            count,
            thresholds,
        } = &mut message;
        let end = node(bytes, 3, bytes.len(), tree, |place, node, many| {
            let mut at = place;
            for _ in 0..many {
                let Some(next) = thresholds.get_mut(*count) else {
                    return refuse(Side::Requirement, 12, at);
                };
                (*next, at) = threshold(bytes, at, node, *count, inner)?;
                *count += 1;
            }
            Ok(at)
        })?;
        if end < bytes.len() {
            return refuse(Side::Requirement, 8, end);
        }
        Ok(message)
    }

    /// A message that must be plain and within size: its reduced tree.
    pub fn plain(bytes: &[u8]) -> Result<Tree, Refusal> {
        let Message {
            mut tree,
            count,
            thresholds,
        } = Message::read(bytes, &mut Passing(None))?;
        if count > 0 {
            let place = usize::from(thresholds[0].start) - 7;
            return refuse(Side::Requirement, 11, place);
        }
        if tree.reduce() > MOST_SIZE {
            return refuse(Side::Requirement, 14, 3);
        }
        Ok(tree)
    }
}

/// Reads one node and all below it, up to `end` at most; `thresholds` reads
/// those of a node, so many from a place on, and says where they end.
#[inline]
fn node(
    bytes: &[u8],
    start: usize,
    end: usize,
    tree: &mut Tree,
    mut thresholds: impl FnMut(usize, u8, u8) -> Result<usize, Refusal>,
) -> Result<usize, Refusal> {
    let bytes = &bytes[..end];
    // At each depth the node that is open, and its children still to come.
    let mut open = [(0u8, 0u8); MOST_DEPTH + 1];
    let (mut at, mut depth, mut above, mut role) = (start, 0, 0u8, 0u8);
    loop {
        let Some(fields) = bytes.get(at..at + 10) else {
            let left = end - at;
            let into = if left < 8 { 0 } else { left };
            return refuse(Side::Requirement, 1, at + into);
        };
        if depth > MOST_DEPTH {
            return refuse(Side::Requirement, 9, at);
        }
        let number = tree.nodes;
        if number >= MOST_NODES {
            return refuse(Side::Requirement, 10, at);
        }
        tree.nodes = number + 1;
        tree.names[number] = eight(fields, 0);
        tree.role[number] = role;
        tree.above[number] = above;
        if number > 0 {
            tree.kids[usize::from(above) & 63] |= 1 << number;
        }
        at += 10;
        if fields[8] > 0 {
            at = thresholds(at, number as u8, fields[8])?;
        }
        open[depth] = (number as u8, fields[9]);
        while open[depth].1 == 0 {
            if depth == 0 {
                return Ok(at);
            }
            depth -= 1;
        }
        open[depth].1 -= 1;
        above = open[depth].0;
        let Some(&next) = bytes.get(at) else {
            return refuse(Side::Requirement, 1, at);
        };
        if u64::from(next) > MOST_ROLE {
            return refuse(Side::Requirement, 7, at);
        }
        role = next;
        at += 1;
        depth += 1;
    }
}

/// Reads a threshold and its inner concept, and says where it ends.
fn threshold(
    bytes: &[u8],
    at: usize,
    of: u8,
    number: usize,
    inner: &mut impl Room,
) -> Result<(Threshold, usize), Refusal> {
    let left = bytes.len() - at;
    match left {
        0 => return refuse(Side::Requirement, 1, at),
        1 | 2 => return refuse(Side::Requirement, 1, at + 1),
        3 | 4 => return refuse(Side::Requirement, 1, at + 3),
        _ => {}
    }
    let (comparison, p, q) = (bytes[at], pair(bytes, at + 1), pair(bytes, at + 3));
    if comparison > 3 {
        return refuse(Side::Requirement, 13, at);
    }
    if let Some((number, behind)) = fraction_fault(p as u64, q as u64) {
        return refuse(Side::Requirement, number, at + behind);
    }
    if left < 7 {
        return refuse(Side::Requirement, 1, at + 5);
    }
    let (start, length) = (at + 7, pair(bytes, at + 5));
    if length > bytes.len() - start {
        return refuse(Side::Requirement, 1, at + 5);
    }
    let end = start + length;
    let tree = inner.room(number);
    let read = node(bytes, start, end, tree, |place, _, _| {
        refuse(Side::Requirement, 11, place - 2)
    })?;
    if read < end {
        return refuse(Side::Requirement, 8, read);
    }
    if tree.reduce() > MOST_SIZE {
        return refuse(Side::Requirement, 14, start);
    }
    let threshold = Threshold {
        node: of,
        comparison,
        p: p as u16,
        q: q as u16,
        start: start as u16,
        length: length as u16,
    };
    Ok((threshold, end))
}
