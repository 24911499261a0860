//! Good requirements, plain and with thresholds, with children that repeat or
//! subsume each other.

use super::registers::Palette;
use super::rng::Rng;
use crate::degree::Degrees;
use crate::judged::{Judged, WITHDRAWN};
use crate::reduce::{reduce, MOST_SIZE};
use crate::register::Register;
use crate::requirement::{
    fraction_fault, written, Comparison, Node, Threshold, MOST_DEPTH, MOST_NODES, MOST_THRESHOLDS,
};

const COMPARISONS: [Comparison; 4] = [
    Comparison::Below,
    Comparison::AtMost,
    Comparison::Above,
    Comparison::AtLeast,
];

/// A plain tree of so many nodes and no deeper than that.
pub fn tree(rng: &mut Rng, palette: &Palette, nodes: usize, deepest: usize) -> Node {
    // Each further node hangs below an earlier one: the newest makes chains,
    // the oldest makes broad trees, any makes what lies between.
    let style = rng.below(4);
    let mut above: Vec<(usize, u8)> = vec![(0, 0)];
    let mut depths = vec![0];
    let few = nodes > 8;
    let mut names = vec![node_names(rng, palette, few)];
    while above.len() < nodes {
        let open: Vec<usize> = (0..depths.len())
            .filter(|node| depths[*node] < deepest)
            .collect();
        if open.is_empty() {
            break;
        }
        let parent = match style {
            0 => open[open.len() - 1 - rng.index(open.len().min(2))],
            1 => open[rng.index(open.len().min(3))],
            _ => rng.pick(&open),
        };
        above.push((parent, palette.role(rng)));
        depths.push(depths[parent] + 1);
        names.push(node_names(rng, palette, few));
    }
    hang(0, &above, &names)
}

fn node_names(rng: &mut Rng, palette: &Palette, few: bool) -> u64 {
    if few || palette.names.len() > 8 {
        palette.few_names(rng)
    } else {
        palette.names(rng)
    }
}

fn hang(node: usize, above: &[(usize, u8)], names: &[u64]) -> Node {
    let children = (1..above.len())
        .filter(|child| above[*child].0 == node)
        .map(|child| (above[child].1, hang(child, above, names)))
        .collect();
    Node {
        names: names[node],
        thresholds: Vec::new(),
        children,
    }
}

pub fn count(node: &Node) -> usize {
    written(node).len()
}

/// Puts copies of children, some of them weakened, among their siblings while
/// the tree stays within `most` nodes. A weakened copy subsumes its original.
pub fn repeat_children(rng: &mut Rng, root: &mut Node, tries: usize, most: usize) {
    for _ in 0..tries {
        let room = most.saturating_sub(count(root));
        let mut chosen = rng.index(count(root));
        repeat_child_of(rng, root, &mut chosen, room);
    }
}

/// Walks to the node that has this number in reading order and repeats one of
/// its children there.
fn repeat_child_of(rng: &mut Rng, node: &mut Node, number: &mut usize, room: usize) -> bool {
    if *number == 0 {
        if !node.children.is_empty() {
            let (role, original) = node.children[rng.index(node.children.len())].clone();
            let copy = if rng.chance(2) {
                weakened(rng, &original)
            } else {
                original
            };
            if count(&copy) <= room {
                let at = rng.between(0, node.children.len());
                node.children.insert(at, (role, copy));
            }
        }
        return true;
    }
    *number -= 1;
    for (_, child) in &mut node.children {
        if repeat_child_of(rng, child, number, room) {
            return true;
        }
    }
    false
}

/// The same tree with some names and some branches left out.
fn weakened(rng: &mut Rng, node: &Node) -> Node {
    let mut children = Vec::new();
    for (role, child) in &node.children {
        if !rng.chance(4) {
            children.push((*role, weakened(rng, child)));
        }
    }
    let names = if rng.chance(2) {
        node.names & rng.word()
    } else {
        node.names
    };
    Node {
        names,
        thresholds: Vec::new(),
        children,
    }
}

/// Takes names and leaves away until the reduced size is within 60.
pub fn cut_to_size(rng: &mut Rng, root: &mut Node) {
    while reduce(root).size() > MOST_SIZE {
        cut_once(rng, root);
    }
}

fn cut_once(rng: &mut Rng, node: &mut Node) {
    if !node.children.is_empty() && (node.names == 0 || !rng.chance(3)) {
        let at = rng.index(node.children.len());
        let child = &mut node.children[at].1;
        if child.names == 0 && child.children.is_empty() {
            node.children.remove(at);
        } else {
            cut_once(rng, child);
        }
    } else {
        node.names &= node.names.wrapping_sub(1);
    }
}

/// Small enough for trying every map.
pub fn small_plain(rng: &mut Rng, palette: &Palette) -> Node {
    let nodes = rng.between(1, 5);
    let mut root = tree(rng, palette, nodes, 4);
    if rng.chance(2) {
        repeat_children(rng, &mut root, 2, 6);
    }
    cut_to_size(rng, &mut root);
    root
}

/// Up to 64 nodes and depth 16, of any size.
pub fn plain(rng: &mut Rng, palette: &Palette) -> Node {
    let nodes = rng.between(1, MOST_NODES);
    let mut root = tree(rng, palette, nodes, MOST_DEPTH);
    repeat_children(rng, &mut root, 10, MOST_NODES);
    root
}

/// Up to 64 nodes and depth 16, cut until its degree can be taken.
pub fn plain_within_size(rng: &mut Rng, palette: &Palette) -> Node {
    let mut root = plain(rng, palette);
    cut_to_size(rng, &mut root);
    root
}

/// A fraction that the rules allow, often at an edge of them.
pub fn fraction(rng: &mut Rng) -> (u16, u16) {
    const EDGES: [(u16, u16); 10] = [
        (0, 1),
        (1, 1),
        (1, 2),
        (1, 3),
        (2, 3),
        (3, 4),
        (1, 1000),
        (999, 1000),
        (998, 999),
        (67, 100),
    ];
    if rng.chance(2) {
        return rng.pick(&EDGES);
    }
    let mut p = rng.below(1001);
    let q = 1 + rng.below(1000);
    while fraction_fault(p, q).is_some() {
        p = rng.below(q + 1);
    }
    (p as u16, q as u16)
}

/// A fraction that is the degree of some item, where its denominator allows:
/// the comparison is then asked just at the threshold.
fn fraction_for(rng: &mut Rng, inner: &Node, register: &Register) -> (u16, u16) {
    if !rng.chance(3) {
        let concept = reduce(inner);
        let judged = Judged::of(register);
        let item = rng.index(register.items()) as u16;
        if let Some(mut degrees) = Degrees::of(&judged, &concept).filter(|_| judged.has(item)) {
            let degree = degrees.at(item);
            if degree.den <= 1000 {
                return (degree.num as u16, degree.den as u16);
            }
        }
    }
    fraction(rng)
}

/// Walks to the node that has this number in reading order and puts the
/// threshold among those it has.
fn add_threshold(
    rng: &mut Rng,
    node: &mut Node,
    number: &mut usize,
    threshold: &Threshold,
) -> bool {
    if *number == 0 {
        let at = rng.between(0, node.thresholds.len());
        node.thresholds.insert(at, threshold.clone());
        return true;
    }
    *number -= 1;
    node.children
        .iter_mut()
        .any(|(_, child)| add_threshold(rng, child, number, threshold))
}

fn threshold_on(rng: &mut Rng, inner: Node, register: &Register) -> Threshold {
    let (p, q) = fraction_for(rng, &inner, register);
    Threshold {
        comparison: rng.pick(&COMPARISONS),
        p,
        q,
        inner,
        start: 0,
        len: 0,
    }
}

/// A plain tree that some item meets: links of the graph that is judged walked
/// from that item, each node asking for some of the names of the item stood at.
/// One time in four, and where all items are withdrawn, the walk goes over these
/// too: what would be met if they counted.
pub fn met_somewhere(rng: &mut Rng, register: &Register, nodes: usize, deepest: usize) -> Node {
    let mut judged = Judged::of(register);
    if rng.chance(4) || judged.each().next().is_none() {
        judged = Judged::of(&all_back(register));
    }
    let items: Vec<u16> = judged.each().collect();
    let item = rng.pick(&items);
    let mut left = nodes.saturating_sub(1);
    walked(rng, &judged, item, &mut left, deepest)
}

/// The register with no item withdrawn.
fn all_back(register: &Register) -> Register {
    let names = register.names.iter();
    Register {
        names: names.map(|names| names & !(1 << WITHDRAWN)).collect(),
        links: register.links.clone(),
    }
}

fn walked(rng: &mut Rng, judged: &Judged, at: u16, left: &mut usize, deepest: usize) -> Node {
    let mut node = Node::leaf(judged.names(at) & rng.word());
    let links = judged.leaving(at);
    if deepest > 0 && !links.is_empty() {
        for _ in 0..rng.between(0, 3) {
            if *left == 0 {
                break;
            }
            *left -= 1;
            let (_, role, to) = rng.pick(&links);
            node.children
                .push((role, walked(rng, judged, to, left, deepest - 1)));
        }
    }
    node
}

/// An outer tree, met by some item half of the time before its thresholds
/// come. The other half has fewer names, or nearly every answer would be no.
fn outer_tree(
    rng: &mut Rng,
    palette: &Palette,
    register: &Register,
    nodes: usize,
    deepest: usize,
) -> Node {
    if rng.chance(2) {
        return met_somewhere(rng, register, nodes, deepest);
    }
    let mut root = tree(rng, palette, nodes, deepest);
    thin_names(rng, &mut root);
    root
}

/// Small enough for trying every map: up to 4 nodes and 3 thresholds.
pub fn small_with_thresholds(rng: &mut Rng, palette: &Palette, register: &Register) -> Node {
    let nodes = rng.between(1, 4);
    let mut root = outer_tree(rng, palette, register, nodes, 3);
    for _ in 0..rng.between(1, 3) {
        let mut inner = small_plain(rng, palette);
        if count(&inner) > 5 {
            inner.children.truncate(1);
        }
        let threshold = threshold_on(rng, inner, register);
        let mut chosen = rng.index(count(&root));
        add_threshold(rng, &mut root, &mut chosen, &threshold);
    }
    root
}

fn thin_names(rng: &mut Rng, node: &mut Node) {
    node.names &= rng.word() & rng.word();
    for (_, child) in &mut node.children {
        thin_names(rng, child);
    }
}

/// Up to 64 nodes with up to 16 thresholds, inner concepts of up to 64 nodes.
pub fn with_thresholds(rng: &mut Rng, palette: &Palette, register: &Register) -> Node {
    let nodes = if rng.chance(4) {
        MOST_NODES
    } else {
        rng.between(1, 12)
    };
    let mut root = outer_tree(rng, palette, register, nodes, MOST_DEPTH);
    for _ in 0..rng.between(1, MOST_THRESHOLDS) {
        let inner = if rng.chance(3) {
            plain_within_size(rng, palette)
        } else {
            small_plain(rng, palette)
        };
        let threshold = threshold_on(rng, inner, register);
        let mut chosen = rng.index(count(&root));
        add_threshold(rng, &mut root, &mut chosen, &threshold);
    }
    root
}
