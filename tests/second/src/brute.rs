//! The definitions taken word for word, by trying every map. For small cases
//! only: the work grows with the number of maps.
//!
//! Renders the same sentences of "Reduction and degree" in document 01 as
//! `reduce`, `degree` and `member`, over the same graph, and none of their
//! shortcuts: no memory, no working from below, no early end.

use crate::fraction::Fraction;
use crate::judged::Judged;
use crate::reduce::{reduce, Concept, Kept, MOST_SIZE};
use crate::requirement::{written, Comparison, Node};

/// A tree laid out flat: for each node its names, and its parent with the role
/// of the edge (none at the root). A parent stands before its children.
struct Flat {
    names: Vec<u64>,
    above: Vec<Option<(usize, u8)>>,
}

impl Flat {
    fn of(root: &Kept) -> Flat {
        fn visit(node: &Kept, above: Option<(usize, u8)>, flat: &mut Flat) {
            let here = flat.names.len();
            flat.names.push(node.names);
            flat.above.push(above);
            for (role, child) in &node.children {
                visit(child, Some((here, *role)), flat);
            }
        }
        let mut flat = Flat {
            names: Vec::new(),
            above: Vec::new(),
        };
        visit(root, None, &mut flat);
        flat
    }

    fn children_of(&self, node: usize) -> Vec<usize> {
        (0..self.names.len())
            .filter(|child| matches!(self.above[*child], Some((parent, _)) if parent == node))
            .collect()
    }

    /// The value of a node under a partial map, as the second paragraph
    /// defines it. Only asked of mapped nodes.
    fn value(&self, judged: &Judged, map: &[Option<u16>], node: usize) -> Fraction {
        let item = match map[node] {
            Some(item) => item,
            None => return Fraction::ZERO,
        };
        let children = self.children_of(node);
        let n = u128::from(self.names[node].count_ones()) + children.len() as u128;
        if n == 0 {
            return Fraction::ONE;
        }
        let held = judged.names(item);
        let mut common = 0;
        for name in 0..64 {
            if self.names[node] >> name & 1 == 1 && held >> name & 1 == 1 {
                common += 1;
            }
        }
        let mut sum = Fraction::whole(common);
        for child in children {
            if map[child].is_some() {
                sum = sum.plus(self.value(judged, map, child));
            }
        }
        sum.over(n)
    }
}

/// Hands every partial map of the tree to `see`: the root to the item, any
/// set of further nodes closed towards the root, along links of the edge's
/// role.
fn every_partial_map(
    flat: &Flat,
    judged: &Judged,
    map: &mut Vec<Option<u16>>,
    see: &mut dyn FnMut(&[Option<u16>]),
) {
    let node = map.len();
    if node == flat.names.len() {
        see(map);
        return;
    }
    // The node unmapped, and with it all below.
    map.push(None);
    every_partial_map(flat, judged, map, see);
    map.pop();
    // The node mapped, if its parent is, to each item linked so.
    if let Some((parent, role)) = flat.above[node] {
        if let Some(from) = map[parent] {
            for to in judged.each() {
                if judged.has_link((from, role, to)) {
                    map.push(Some(to));
                    every_partial_map(flat, judged, map, see);
                    map.pop();
                }
            }
        }
    }
}

/// The degree of an item at a kept node: the greatest root value over all
/// partial maps of the tree below it.
pub fn degree_at(judged: &Judged, node: &Kept, item: u16) -> Fraction {
    let flat = Flat::of(node);
    let mut greatest = Fraction::ZERO;
    every_partial_map(&flat, judged, &mut vec![Some(item)], &mut |map| {
        let value = flat.value(judged, map, 0);
        if value > greatest {
            greatest = value;
        }
    });
    greatest
}

/// The degree of an item in a reduced concept. None for a reduced size above
/// 60 or an item that the graph has not.
pub fn degree(judged: &Judged, concept: &Concept, item: u64) -> Option<Fraction> {
    if concept.size() > MOST_SIZE {
        return None;
    }
    Some(degree_at(judged, &concept.root, judged.asked(item).ok()?))
}

/// Hands every whole assignment of `nodes` numbers below `targets` to `see`,
/// the first being fixed, until one is accepted.
fn any_whole_map(
    nodes: usize,
    targets: usize,
    map: &mut Vec<usize>,
    accept: &dyn Fn(&[usize]) -> bool,
) -> bool {
    if map.len() == nodes {
        return accept(map);
    }
    (0..targets).any(|target| {
        map.push(target);
        let found = any_whole_map(nodes, targets, map, accept);
        map.pop();
        found
    })
}

/// Whether some whole map of `c`'s tree into `d`'s tree goes root to root with
/// names contained and edges kept: every assignment of nodes is tried.
pub fn whole_map_exists(c: &Kept, d: &Kept) -> bool {
    let c = Flat::of(c);
    let d = Flat::of(d);
    any_whole_map(c.names.len(), d.names.len(), &mut vec![0], &|map| {
        (0..map.len()).all(|node| {
            let names_contained = c.names[node] & !d.names[map[node]] == 0;
            let edge_kept = match c.above[node] {
                None => true,
                Some((parent, role)) => d.above[map[node]] == Some((map[parent], role)),
            };
            names_contained && edge_kept
        })
    })
}

/// Whether some whole threshold-respecting map of the written tree sends the
/// root to the item: every assignment of nodes to items is tried, and inner
/// degrees are the greatest over all partial maps. None for an item that the
/// graph has not, or an inner concept too large for a degree.
pub fn member(judged: &Judged, root: &Node, item: u64) -> Option<bool> {
    let item = judged.asked(item).ok()?;
    let nodes = written(root);
    // respects[node][item]: the item is one of the graph, and the thresholds of
    // the node hold there.
    let mut respects = vec![vec![false; judged.items()]; nodes.len()];
    for (number, written) in nodes.iter().enumerate() {
        for at in judged.each() {
            let mut respected = true;
            for threshold in &written.node.thresholds {
                let concept = reduce(&threshold.inner);
                let degree = degree(judged, &concept, at.into())?;
                let against = Fraction::new(threshold.p.into(), threshold.q.into());
                respected &= match threshold.comparison {
                    Comparison::Below => degree < against,
                    Comparison::AtMost => degree <= against,
                    Comparison::Above => degree > against,
                    Comparison::AtLeast => degree >= against,
                };
            }
            respects[number][usize::from(at)] = respected;
        }
    }
    Some(any_whole_map(
        nodes.len(),
        judged.items(),
        &mut vec![usize::from(item)],
        &|map| {
            (0..map.len()).all(|number| {
                let to = map[number] as u16;
                let names_held = |node: &Node| node.names & !judged.names(to) == 0;
                let edge_kept = match nodes[number].above {
                    None => true,
                    Some((parent, role)) => judged.has_link((map[parent] as u16, role, to)),
                };
                edge_kept && respects[number][map[number]] && names_held(nodes[number].node)
            })
        },
    ))
}
