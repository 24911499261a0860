//! Reduction: which written nodes are kept, and the size and scale of those.
//!
//! Renders the first paragraph of "Reduction and degree" in document 01, and
//! the scale of its third.

use crate::requirement::Node;

/// The greatest reduced size of a concept whose degree is taken.
pub const MOST_SIZE: usize = 60;

/// A kept node: its number among the written nodes, its names and the
/// children that were not dropped.
#[derive(Clone, PartialEq, Eq, Debug)]
pub struct Kept {
    pub number: usize,
    pub names: u64,
    pub children: Vec<(u8, Kept)>,
}

impl Kept {
    /// n: the names plus the children of the node.
    pub fn n(&self) -> usize {
        self.names.count_ones() as usize + self.children.len()
    }

    /// Names plus child edges, over the node and all below it.
    pub fn size(&self) -> usize {
        self.n()
            + self
                .children
                .iter()
                .map(|(_, child)| child.size())
                .sum::<usize>()
    }

    /// The product of n over the node and all below it, with 1 for n = 0.
    /// None when it passes 128 bits, which only a size above 60 can do.
    pub fn scale(&self) -> Option<u128> {
        let mut scale = self.n().max(1) as u128;
        for (_, child) in &self.children {
            scale = scale.checked_mul(child.scale()?)?;
        }
        Some(scale)
    }
}

/// A concept after reduction. `dropped` has one entry for each written node,
/// true for a dropped node and for all below it.
#[derive(Clone, PartialEq, Eq, Debug)]
pub struct Concept {
    pub root: Kept,
    pub dropped: Vec<bool>,
}

impl Concept {
    pub fn size(&self) -> usize {
        self.root.size()
    }

    pub fn scale(&self) -> Option<u128> {
        self.root.scale()
    }

    pub fn written_nodes(&self) -> usize {
        self.dropped.len()
    }
}

/// Whether a whole map of `c`'s tree into `d`'s tree exists: root to root,
/// names contained, edges kept with their roles. Then `d` is subsumed by `c`.
pub fn whole_map_exists(c: &Kept, d: &Kept) -> bool {
    c.names & !d.names == 0
        && c.children.iter().all(|(role, child)| {
            d.children
                .iter()
                .any(|(other_role, other)| role == other_role && whole_map_exists(child, other))
        })
}

pub fn subsumed(d: &Kept, by_c: &Kept) -> bool {
    whole_map_exists(by_c, d)
}

/// The tree as written, with nothing dropped.
pub fn as_written(root: &Node) -> Kept {
    fn visit(node: &Node, next: &mut usize) -> Kept {
        let number = *next;
        *next += 1;
        let children = node
            .children
            .iter()
            .map(|(role, child)| (*role, visit(child, next)))
            .collect();
        Kept {
            number,
            names: node.names,
            children,
        }
    }
    visit(root, &mut 0)
}

/// Reduces a concept from the leaves up. Thresholds play no part: only
/// concepts without any are reduced.
pub fn reduce(root: &Node) -> Concept {
    let written = as_written(root);
    let kept = reduce_node(&written);
    let mut dropped = vec![true; count(&written)];
    mark_kept(&kept, &mut dropped);
    Concept {
        root: kept,
        dropped,
    }
}

fn reduce_node(node: &Kept) -> Kept {
    // From the leaves up: the children first, each by itself.
    let reduced: Vec<(u8, Kept)> = node
        .children
        .iter()
        .map(|(role, child)| (*role, reduce_node(child)))
        .collect();
    let mut children = Vec::new();
    for i in 0..reduced.len() {
        if !drops(&reduced, i) {
            children.push(reduced[i].clone());
        }
    }
    Kept {
        number: node.number,
        names: node.names,
        children,
    }
}

/// Whether child i goes: another child j under the same role is subsumed by
/// child i, and either the converse fails or j stands earlier. Of equivalent
/// children the earliest so stays.
fn drops(children: &[(u8, Kept)], i: usize) -> bool {
    let (role_i, child_i) = &children[i];
    (0..children.len()).any(|j| {
        let (role_j, child_j) = &children[j];
        j != i
            && role_j == role_i
            && subsumed(child_j, child_i)
            && (!subsumed(child_i, child_j) || j < i)
    })
}

fn count(node: &Kept) -> usize {
    1 + node
        .children
        .iter()
        .map(|(_, child)| count(child))
        .sum::<usize>()
}

fn mark_kept(node: &Kept, dropped: &mut [bool]) {
    dropped[node.number] = false;
    for (_, child) in &node.children {
        mark_kept(child, dropped);
    }
}
