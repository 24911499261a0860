//! The scales of the kept nodes of a reduced tree, and what goes with them.
//!
//! No scale is above 3^20, so every number has 32 bits.

use crate::tree::Tree;
use crate::{Ones, MOST_NODES};

pub struct Scales {
    /// What a name of a node counts, and what a child's number does in it.
    pub below: [u32; MOST_NODES],
    pub factor: [u32; MOST_NODES],
    pub scale: [u32; MOST_NODES],
    /// The nodes without names and children.
    pub empty: u64,
}

impl Scales {
    #[inline(always)]
    pub fn none() -> Scales {
        Scales {
            below: [1; MOST_NODES],
            factor: [1; MOST_NODES],
            scale: [1; MOST_NODES],
            empty: 0,
        }
    }

    /// Those of a tree, without a division.
    pub fn count(&mut self, tree: &Tree) {
        self.empty = 0;
        let mut left = tree.kept;
        while left != 0 {
            let node = 63 - left.leading_zeros() as usize;
            left &= !(1 << node);
            let kids = tree.kids[node];
            let mut below = 1;
            for kid in Ones(kids) {
                self.factor[kid] = below;
                below *= self.scale[kid];
            }
            let (mut behind, mut later) = (1, kids);
            while later != 0 {
                let kid = 63 - later.leading_zeros() as usize;
                later &= !(1 << kid);
                self.factor[kid] *= behind;
                behind *= self.scale[kid];
            }
            let count = tree.count(node);
            self.empty |= u64::from(count == 0) << node;
            self.below[node] = below;
            self.scale[node] = below * count.max(1);
        }
    }
}
