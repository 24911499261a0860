//! Which items meet which nodes of a tree with thresholds. Down the tree, for
//! each node the items that it reaches and that hold its names; up the tree,
//! those of them whose links lead to items that meet the children, and of
//! these the ones that satisfy the thresholds. A node that nothing meets makes
//! the answer no for all. A leaf without names and thresholds is met by all that
//! are not withdrawn and is not worked out; a withdrawn item meets nothing.

use crate::graph::{ends, Graph, Run};
use crate::items::Items;
use crate::message::{Each, Message};
use crate::numbers::{Numbers, Reached};
use crate::tree::Tree;
use crate::{Ones, MOST_NODES};

pub struct Meeting {
    met: [Items; MOST_NODES],
    /// The nodes that every item meets that is not withdrawn.
    free: u64,
    /// The nodes that have thresholds.
    asking: u64,
}

/// Nothing meets some node, so no item meets the root.
struct Unmet;

impl Meeting {
    /// Which of these items, none of them withdrawn, meet the root; all of the
    /// others do not count.
    pub fn of(
        graph: &mut Graph,
        message: &Message,
        inner: &Each,
        from: Reached,
    ) -> Option<Meeting> {
        let tree = &message.tree;
        let mut meeting = Meeting {
            met: [Items::NONE; MOST_NODES],
            free: 0,
            asking: 0,
        };
        for threshold in &message.thresholds[..message.count] {
            meeting.asking |= 1 << threshold.node;
        }
        for node in 0..tree.nodes {
            let bare = tree.names[node] == 0 && tree.kids[node] == 0;
            meeting.free |= u64::from(bare) << node;
        }
        meeting.free &= !meeting.asking;
        let mut reached = [Reached::NONE; MOST_NODES];
        reached[0] = from;
        meeting.go_down(graph, tree, &mut reached).ok()?;
        match meeting.asking {
            0 => meeting.go_up(graph, tree, &reached, |_, _, _| ()),
            _ => {
                let mut numbers = Numbers::none();
                meeting.go_up(graph, tree, &reached, |graph, node, met| {
                    satisfying(graph, message, inner, node, met, &mut numbers)
                })
            }
        }
        .ok()?;
        Some(meeting)
    }

    fn go_down(
        &self,
        graph: &mut Graph,
        tree: &Tree,
        reached: &mut [Reached; MOST_NODES],
    ) -> Result<(), Unmet> {
        for node in 0..tree.nodes {
            if self.free >> node & 1 == 1 {
                continue;
            }
            let here = holding(graph, reached[node], tree.names[node])?;
            reached[node] = here;
            for kid in Ones(tree.kids[node] & !self.free) {
                reached[kid] = here.along(graph, tree.role[kid]);
            }
        }
        Ok(())
    }

    /// `satisfying` leaves of the items at a node those that satisfy its
    /// thresholds.
    fn go_up(
        &mut self,
        graph: &mut Graph,
        tree: &Tree,
        reached: &[Reached; MOST_NODES],
        mut satisfying: impl FnMut(&mut Graph, usize, &mut Items),
    ) -> Result<(), Unmet> {
        for node in (0..tree.nodes).rev() {
            if self.free >> node & 1 == 1 {
                continue;
            }
            let kids = tree.kids[node];
            // A withdrawn item has no runs and holds no names, so it is tested
            // only where neither is asked for.
            let bare = tree.names[node] == 0;
            let mut met = Items::NONE;
            reached[node].each(graph.links, |item| {
                let meets = match kids {
                    0 => !bare || graph.register.judged(item),
                    _ => self.meets_kids(graph, tree, kids, item),
                };
                if meets {
                    met.insert(item);
                }
            });
            if self.asking >> node & 1 == 1 && !met.is_empty() {
                satisfying(graph, node, &mut met);
            }
            if met.is_empty() {
                return Err(Unmet);
            }
            self.met[node] = met;
        }
        Ok(())
    }

    #[inline]
    fn meets_kids(&self, graph: &mut Graph, tree: &Tree, kids: u64, item: usize) -> bool {
        let links = graph.links;
        let runs = graph.runs(item);
        Ones(kids).all(|kid| {
            let run = runs[usize::from(tree.role[kid]) % runs.len()];
            self.first(links, kid, run).is_some()
        })
    }

    /// The lowest-numbered end of links that meets a node.
    #[inline]
    fn first(&self, links: &[u8], node: usize, run: Run) -> Option<usize> {
        let free = self.free >> node & 1 == 1;
        ends(links, run).find(|to| free || self.met[node].has(*to))
    }

    /// Whether an item that is not withdrawn meets the root.
    pub fn meets(&self, item: usize) -> bool {
        self.free & 1 == 1 || self.met[0].has(item)
    }

    /// Writes where each node goes when the root goes to an item that meets it.
    pub fn show(&self, graph: &mut Graph, tree: &Tree, item: usize, map: &mut [u16]) {
        let links = graph.links;
        let map = &mut map[..tree.nodes];
        map[0] = item as u16;
        for node in 1..tree.nodes {
            let above = map[usize::from(tree.above[node])];
            let run = graph.run(usize::from(above), tree.role[node]);
            map[node] = self.first(links, node, run).unwrap_or(0) as u16;
        }
    }
}

/// Those of the items that hold some names, where there are any. Where no names
/// are asked for they stay as they are, withdrawn ones among them.
#[inline]
fn holding(graph: &Graph, items: Reached, names: u64) -> Result<Reached, Unmet> {
    let holds = |item| names & !graph.register.judged_names(item) == 0;
    let some = match items {
        Reached::One(item) => holds(usize::from(item)),
        Reached::Ends(run) if names == 0 => !run.is_empty(),
        Reached::Items(set) if names == 0 => !set.is_empty(),
        _ => {
            let mut set = Items::NONE;
            items.each(graph.links, |item| {
                if holds(item) {
                    set.insert(item);
                }
            });
            return match set.is_empty() {
                true => Err(Unmet),
                false => Ok(Reached::Items(set)),
            };
        }
    };
    match some {
        true => Ok(items),
        false => Err(Unmet),
    }
}

/// Leaves of the items those whose degrees satisfy the thresholds of a node.
fn satisfying(
    graph: &mut Graph,
    message: &Message,
    inner: &Each,
    node: usize,
    met: &mut Items,
    numbers: &mut Numbers,
) {
    for (threshold, tree) in message.thresholds[..message.count].iter().zip(&inner.0) {
        if usize::from(threshold.node) == node {
            let tree = tree.as_ref().expect("it was read");
            let scale = numbers.work_out(graph, tree, Reached::of(*met));
            let mut still = Items::NONE;
            met.each(|item| {
                if threshold.satisfied(numbers.root(item), scale) {
                    still.insert(item);
                }
            });
            *met = still;
        }
    }
}
