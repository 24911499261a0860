//! A tree as rows in reading order: a node stands before all that hangs below
//! it. Children are a set of numbers, out of which reduction takes some.

use crate::{Ones, MOST_NODES};

#[derive(Clone)]
pub struct Tree {
    pub nodes: usize,
    /// After reduction: the nodes that are kept.
    pub kept: u64,
    pub names: [u64; MOST_NODES],
    /// The children, and after reduction those that are kept.
    pub kids: [u64; MOST_NODES],
    pub role: [u8; MOST_NODES],
    pub above: [u8; MOST_NODES],
}

impl Tree {
    pub const EMPTY: Tree = Tree {
        nodes: 0,
        kept: 0,
        names: [0; MOST_NODES],
        kids: [0; MOST_NODES],
        role: [0; MOST_NODES],
        above: [0; MOST_NODES],
    };

    /// Reduces from the leaves up, which are read last, and answers the size.
    pub fn reduce(&mut self) -> u32 {
        for node in (0..self.nodes).rev() {
            let kids = self.kids[node];
            if kids & kids.wrapping_sub(1) != 0 {
                self.reduce_kids(node, kids);
            }
        }
        let (mut kept, mut size) = (1, 0);
        for node in 0..self.nodes {
            if kept >> node & 1 == 1 {
                kept |= self.kids[node];
                size += self.count(node);
            }
        }
        self.kept = kept;
        size
    }

    /// Names plus kept children.
    #[inline]
    pub fn count(&self, node: usize) -> u32 {
        let names = match self.names[node] {
            0 => 0,
            names => names.count_ones(),
        };
        names + self.kids[node].count_ones()
    }

    #[inline]
    fn reduce_kids(&mut self, node: usize, kids: u64) {
        let (mut once, mut twice) = (0u32, 0u32);
        for kid in Ones(kids) {
            let role = 1 << (self.role[kid] & 31);
            twice |= once & role;
            once |= role;
        }
        if twice != 0 {
            self.kids[node] = self.kept_of(kids);
        }
    }

    /// Of two children under one role the one goes that the other is subsumed
    /// by; of equivalent ones the later. What went need not be looked at any
    /// more: whatever it is subsumed by, what it went for is too.
    fn kept_of(&self, kids: u64) -> u64 {
        let mut kept = kids;
        let mut left = kids;
        while left != 0 {
            let one = left.trailing_zeros() as usize;
            left &= left - 1;
            for other in Ones(left) {
                if self.role[one] != self.role[other] {
                    continue;
                }
                if self.maps(other, one) {
                    kept &= !(1 << other);
                } else if self.maps(one, other) {
                    kept &= !(1 << one);
                    break;
                }
            }
            left &= kept;
        }
        kept
    }

    /// Whether a whole map of the tree below `c` into that below `d` exists.
    fn maps(&self, c: usize, d: usize) -> bool {
        self.names[c] & !self.names[d] == 0
            && Ones(self.kids[c]).all(|below| {
                let role = self.role[below];
                Ones(self.kids[d]).any(|other| self.role[other] == role && self.maps(below, other))
            })
    }
}
