//! Degrees as whole numbers over a scale, at the kept nodes of a reduced tree.
//! Down the tree, for each node the items that it can reach; up the tree, its
//! numbers at these items, each once. A withdrawn item may be among them and has
//! the number 0. An empty node's number is 1 at every other item and is not worked
//! out.

use std::mem::MaybeUninit;

use crate::graph::{ends, ends_of_fours, Graph, Run};
use crate::items::Items;
use crate::scales::Scales;
use crate::tree::Tree;
use crate::{Ones, DROPPED, MOST_ITEMS, MOST_NODES, UNMAPPED};

/// The items that matter at a node. More than these would do: from each of
/// them every link under a child's role ends where the child's are.
#[derive(Clone, Copy)]
pub enum Reached {
    One(u16),
    Ends(Run),
    Items(Items),
}

impl Reached {
    pub const NONE: Reached = Reached::Ends(Run::NONE);

    /// These items, which are some.
    pub fn of(items: Items) -> Reached {
        match items.only() {
            Some(item) => Reached::One(item as u16),
            None => Reached::Items(items),
        }
    }

    #[inline]
    pub fn each(&self, links: &[u8], mut see: impl FnMut(usize)) {
        match self {
            Reached::One(item) => see(usize::from(*item)),
            Reached::Ends(run) => ends(links, *run).for_each(see),
            Reached::Items(items) => items.each(see),
        }
    }

    /// Where links under a role lead from here. Where most items are reached
    /// already, all are taken.
    #[inline]
    pub fn along(&self, graph: &mut Graph, role: u8) -> Reached {
        if let Reached::One(item) = self {
            let run = graph.run(usize::from(*item), role);
            return match run.len() {
                1 => Reached::One(ends(graph.links, run).next().unwrap_or(0) as u16),
                _ => Reached::Ends(run),
            };
        }
        Reached::Items(self.all_along(graph, role))
    }

    fn all_along(&self, graph: &mut Graph, role: u8) -> Items {
        let (links, items) = (graph.links, graph.register.items);
        let many = match self {
            Reached::Items(set) => set.count(),
            Reached::Ends(run) => run.len(),
            Reached::One(_) => 1,
        };
        if many > items / 2 {
            return Items::below(items);
        }
        let mut set = Items::NONE;
        self.each(links, |item| {
            let run = graph.run(item, role);
            ends(links, run).for_each(|to| set.insert(to));
        });
        set
    }
}

pub struct Numbers {
    numbers: [[MaybeUninit<u32>; MOST_ITEMS]; MOST_NODES],
    scales: Scales,
}

impl Numbers {
    #[inline(always)]
    pub fn none() -> Numbers {
        Numbers {
            numbers: [const { [const { MaybeUninit::uninit() }; MOST_ITEMS] }; MOST_NODES],
            scales: Scales::none(),
        }
    }

    /// The numbers of a tree at these items, and at all that its nodes reach
    /// from there. Answers the scale.
    pub fn work_out(&mut self, graph: &mut Graph, tree: &Tree, from: Reached) -> u32 {
        self.scales.count(tree);
        let mut reached = [Reached::NONE; MOST_NODES];
        reached[0] = from;
        let full = tree.kept & !self.scales.empty;
        for node in Ones(full) {
            let here = reached[node];
            for kid in Ones(tree.kids[node] & full) {
                reached[kid] = here.along(graph, tree.role[kid]);
            }
        }
        let mut left = full;
        while left != 0 {
            let node = 63 - left.leading_zeros() as usize;
            left &= !(1 << node);
            reached[node].each(graph.links, |item| {
                let number = self.worked_out(graph, tree, node, item);
                self.numbers[node][item % MOST_ITEMS].write(number);
            });
        }
        self.scales.scale[0]
    }

    #[inline]
    fn worked_out(&self, graph: &mut Graph, tree: &Tree, node: usize, item: usize) -> u32 {
        // Without names a withdrawn item's number is 0 because it has no links.
        let mut number = match tree.names[node] {
            0 => 0,
            names => {
                (names & graph.register.judged_names(item)).count_ones() * self.scales.below[node]
            }
        };
        let kids = tree.kids[node];
        if kids != 0 {
            let links = graph.links;
            let runs = graph.runs(item);
            for kid in Ones(kids) {
                let run = runs[usize::from(tree.role[kid]) % runs.len()];
                if !run.is_empty() {
                    number += self.greatest(links, kid, run) * self.scales.factor[kid];
                }
            }
        }
        number
    }

    /// The greatest number of a node at the ends of links.
    #[inline]
    fn greatest(&self, links: &[u8], node: usize, run: Run) -> u32 {
        if self.scales.empty >> node & 1 == 1 {
            return 1;
        }
        let numbers = &self.numbers[node % MOST_NODES];
        // SAFETY: as in `known`.
        let at = |to: usize| unsafe { numbers[to].assume_init() };
        let mut greatest = [0; 4];
        let (fours, rest) = run.fours();
        for link in ends_of_fours(links, fours) {
            for way in 0..4 {
                greatest[way] = u32::max(greatest[way], at(link[way]));
            }
        }
        for to in ends(links, rest) {
            greatest[0] = u32::max(greatest[0], at(to));
        }
        let [a, b, c, d] = greatest;
        a.max(b).max(c.max(d))
    }

    /// The number of a node at an item that it reaches.
    #[inline]
    fn known(&self, node: usize, item: usize) -> u32 {
        // SAFETY: it was written for all items that the node reaches, and no
        // others are asked for.
        unsafe { self.numbers[node % MOST_NODES][item % MOST_ITEMS].assume_init() }
    }

    /// The root's number at one of the items that were worked out.
    pub fn root(&self, item: usize) -> u32 {
        match self.scales.empty & 1 {
            1 => 1,
            _ => self.known(0, item),
        }
    }

    /// Writes where each node goes when the root goes to an item.
    pub fn show(&self, graph: &mut Graph, tree: &Tree, item: usize, map: &mut [u16]) {
        let links = graph.links;
        let map = &mut map[..tree.nodes];
        map[0] = item as u16;
        for node in 1..tree.nodes {
            if tree.kept >> node & 1 == 0 {
                map[node] = DROPPED;
                continue;
            }
            let above = map[usize::from(tree.above[node])];
            if above == UNMAPPED {
                map[node] = UNMAPPED;
                continue;
            }
            let run = graph.run(usize::from(above), tree.role[node]);
            map[node] = self.first_of_greatest(links, node, run);
        }
    }

    #[inline]
    fn first_of_greatest(&self, links: &[u8], node: usize, run: Run) -> u16 {
        let mut successors = ends(links, run);
        let Some(mut best) = successors.next() else {
            return UNMAPPED;
        };
        if run.len() > 1 && self.scales.empty >> node & 1 == 0 {
            let mut greatest = self.known(node, best);
            for to in successors {
                let number = self.known(node, to);
                if number > greatest {
                    (greatest, best) = (number, to);
                }
            }
        }
        best as u16
    }
}
