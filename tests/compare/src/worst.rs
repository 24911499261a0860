//! The costliest registers and requirements that the rules allow.

use second::judged::WITHDRAWN;
use second::register::{Register, MOST_ITEMS};
use second::requirement::{Comparison, Node, Threshold, MOST_DEPTH, MOST_THRESHOLDS};

use crate::sheet::threshold;

/// 64 items all linked to each other under role 0: 4,096 links, and more paths
/// than could be walked.
pub fn all_linked(names: impl Fn(usize) -> u64) -> Register {
    let each = 0..64u16;
    Register {
        names: each.clone().map(|item| names(item.into())).collect(),
        links: each
            .clone()
            .flat_map(|from| each.clone().map(move |to| (from, 0, to)))
            .collect(),
    }
}

/// 512 items, each with links under roles 0 to 7 to items all over the
/// register: 4,096 links, the largest image. No item is withdrawn.
pub fn fans() -> Register {
    Register {
        names: (0..MOST_ITEMS as u64)
            .map(|item| item.wrapping_mul(0x9E37_79B9_7F4A_7C15) & !(1 << WITHDRAWN))
            .collect(),
        links: (0..MOST_ITEMS)
            .flat_map(|from| {
                (0..8).map(move |role| {
                    let to = (from * 37 + role * 101 + 11) % MOST_ITEMS;
                    (from as u16, role as u8, to as u16)
                })
            })
            .collect(),
    }
}

/// The register with one item in so many withdrawn, item 1 being the first.
pub fn with_withdrawn(mut register: Register, one_in: usize) -> Register {
    for names in register.names.iter_mut().skip(1).step_by(one_in) {
        *names |= 1 << WITHDRAWN;
    }
    register
}

fn node(names: u64, children: Vec<(u8, Node)>) -> Node {
    Node {
        names,
        thresholds: Vec::new(),
        children,
    }
}

/// A chain under role 0 to the greatest depth, each node with some names.
pub fn chain(names: impl Fn(usize) -> u64) -> Node {
    chain_to(MOST_DEPTH, names)
}

/// A chain whose last node stands at a depth of one's own choice.
pub fn chain_to(deepest: usize, names: impl Fn(usize) -> u64) -> Node {
    let last = Node::leaf(names(deepest));
    (0..deepest)
        .rev()
        .fold(last, |below, depth| node(names(depth), vec![(0, below)]))
}

/// 64 written nodes, of which 61 are kept, without names: the greatest size
/// and the most kept nodes that it leaves. 20 branches under roles of their
/// own, two leaves on each, and on three of them one leaf again.
pub fn bushy() -> Node {
    let branches = (0..20).map(|role| {
        let mut leaves = vec![(0, Node::leaf(0)), (1, Node::leaf(0))];
        if role < 3 {
            leaves.push((0, Node::leaf(0)));
        }
        (role, node(0, leaves))
    });
    node(0, branches.collect())
}

/// 64 written nodes, of which 61 are kept, down to the greatest depth: a spine
/// under role 0, on which leaves under other roles hang, three of them twice.
pub fn comb() -> Node {
    let leaves = |depth: usize| {
        let count = if depth < 12 { 3 } else { 2 };
        let again = (depth < 3).then_some(1);
        let roles = (1..=count).chain(again);
        roles.map(|role| (role, Node::leaf(0)))
    };
    (0..MOST_DEPTH).rev().fold(Node::leaf(0), |below, depth| {
        let mut children = vec![(0, below)];
        children.extend(leaves(depth));
        node(0, children)
    })
}

/// 61 nodes, all of them kept and most of them as deep as can be: a chain down
/// to depth 15 with leaves at its end, as many as there are roles.
pub fn broom() -> Node {
    let leaves = |roles: std::ops::Range<u8>| roles.map(|role| (role, Node::leaf(0)));
    let end = node(0, leaves(0..32).collect());
    let mut last = vec![(0, end)];
    last.extend(leaves(1..14));
    (0..MOST_DEPTH - 2).fold(node(0, last), |below, _| node(0, vec![(0, below)]))
}

/// 61 nodes, all of them kept, without names: below the root the nodes are
/// shared out evenly between two children, again and again.
pub fn halves() -> Node {
    chained_halves(1, 60)
}

/// A chain, and at its end 31 nodes that are shared out evenly, the last of
/// them at the greatest depth: the most ancestors of which a child is worked
/// out beside another.
pub fn late_halves() -> Node {
    chained_halves(12, 31)
}

/// A chain of 11 edges, and at its end 50 nodes that are shared out evenly, the
/// last of them at the greatest depth: as many nodes as can be, as deep as can
/// be.
pub fn deep_halves() -> Node {
    chained_halves(11, 50)
}

/// A chain of so many edges, and at its end so many nodes that are shared out.
fn chained_halves(edges: usize, nodes: usize) -> Node {
    (0..edges).fold(halved(nodes), |below, _| node(0, vec![(0, below)]))
}

/// So many nodes, shared out evenly between two children, and so on below.
fn halved(nodes: usize) -> Node {
    let second = (nodes - 1) / 2;
    let shares = [(0, nodes - 1 - second), (1, second)];
    let children = shares.into_iter().filter(|(_, share)| *share > 0);
    node(0, children.map(|(role, share)| (role, halved(share))).collect())
}

/// 64 written nodes, of which the deepest is read last: on the way down to it
/// leaves stand before each child that goes on.
pub fn late() -> Node {
    late_to(MOST_DEPTH)
}

/// The same with the last node at a depth of one's own choice.
pub fn late_to(deepest: usize) -> Node {
    (0..deepest).rev().fold(Node::leaf(0), |below, depth| {
        let before = match depth {
            0..=14 => 3,
            15 => 2,
            _ => 0,
        };
        let mut children: Vec<(u8, Node)> = (0..before).map(|_| (1, Node::leaf(0))).collect();
        children.push((0, below));
        node(0, children)
    })
}

/// 16 thresholds on the deepest nodes of a tree that has as many, all of them
/// satisfied.
pub fn sixteen_thresholds(outer: Node, inner: &Node) -> Node {
    let mut root = outer;
    let mut nodes = Vec::new();
    by_depth(&mut root, 0, &mut nodes);
    nodes.sort_by_key(|(depth, _)| std::cmp::Reverse(*depth));
    for (_, thresholds) in nodes.into_iter().take(MOST_THRESHOLDS) {
        thresholds.push(threshold(Comparison::AtLeast, 0, 1, inner.clone()));
    }
    root
}

/// 16 thresholds on the last of the deepest nodes, the last of them with this
/// inner concept and the others with an empty one: what is read last stands
/// behind as much as can be.
pub fn sixteen_on_the_last(outer: Node, inner: &Node) -> Node {
    let mut root = outer;
    let mut nodes = Vec::new();
    by_depth(&mut root, 0, &mut nodes);
    if let Some((_, thresholds)) = nodes.into_iter().max_by_key(|(depth, _)| *depth) {
        for _ in 1..MOST_THRESHOLDS {
            thresholds.push(threshold(Comparison::AtLeast, 0, 1, Node::leaf(0)));
        }
        thresholds.push(threshold(Comparison::AtLeast, 0, 1, inner.clone()));
    }
    root
}

/// Each node's depth and thresholds, in reading order.
fn by_depth<'a>(node: &'a mut Node, depth: usize, list: &mut Vec<(usize, &'a mut Vec<Threshold>)>) {
    list.push((depth, &mut node.thresholds));
    for (_, child) in &mut node.children {
        by_depth(child, depth + 1, list);
    }
}

/// The root and 63 equal children: 64 nodes in as many bytes as can be.
pub fn wide() -> Node {
    node(0, (0..63).map(|_| (0, Node::leaf(0))).collect())
}

/// Three equal chains below one root, down to the greatest depth: each is
/// compared with the others all the way down.
pub fn triplets() -> Node {
    let chain = (1..MOST_DEPTH).fold(Node::leaf(1), |below, _| node(1, vec![(0, below)]));
    node(0, vec![(0, chain.clone()), (0, chain.clone()), (0, chain)])
}
