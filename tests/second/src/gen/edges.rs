//! Inputs at each edge of the rules, with the refusal worked out by hand from
//! the table in "Refusal numbers" of document 01 and from §2 of document 02,
//! and not by any reader.

use super::damage::mend_head;
use super::registers::{largest_register, Palette};
use super::rng::Rng;
use crate::judged::WITHDRAWN;
use crate::register::{self, Register};
use crate::requirement::{self, Comparison, Node, Threshold};

/// The register R1 and the requirement Q1 of the sheet.
pub const R1: [u8; 41] = [
    0x01, 0x00, 0x26, 0x00, 0x03, 0, 0, 0, 0, 0, 0, 0, 0x0A, 0, 0, 0, 0, 0, 0, 0, 0x02, 0, 0, 0, 0,
    0, 0, 0, 0x04, 0x00, 0x02, 0x00, 0x00, 0x00, 0x00, 0x01, 0x00, 0x00, 0x01, 0x00, 0x02,
];
pub const Q1: [u8; 24] = [
    0x01, 0x00, 0x15, 0, 0, 0, 0, 0, 0, 0, 0x06, 0x00, 0x01, 0x00, 0, 0, 0, 0, 0, 0, 0, 0x02, 0x00,
    0x00,
];

/// One input, and the number and place it is refused with, if it is.
#[derive(Clone, Debug)]
pub struct Edge {
    pub label: String,
    pub bytes: Vec<u8>,
    pub refusal: Option<(u32, usize)>,
}

struct Edges(Vec<Edge>);

impl Edges {
    fn taken(&mut self, label: impl Into<String>, bytes: Vec<u8>) {
        self.0.push(Edge {
            label: label.into(),
            bytes,
            refusal: None,
        });
    }

    fn refused(&mut self, label: impl Into<String>, bytes: Vec<u8>, number: u32, place: usize) {
        self.0.push(Edge {
            label: label.into(),
            bytes,
            refusal: Some((number, place)),
        });
    }
}

/// A message with a right head before this body.
fn message(parts: &[&[u8]]) -> Vec<u8> {
    let mut bytes = vec![1, 0, 0];
    for part in parts {
        bytes.extend_from_slice(part);
    }
    mend_head(&mut bytes);
    bytes
}

/// The head's faults are the same on both sides.
fn head_edges(edges: &mut Edges, good: &[u8]) {
    edges.refused("no bytes", vec![], 1, 0);
    edges.refused("one byte", vec![1], 1, 0);
    edges.refused("two bytes", vec![1, 0], 1, 0);
    edges.refused("two bytes of a wrong version", vec![9, 0], 1, 0);
    for version in [0, 2, 255] {
        let mut bytes = good.to_vec();
        bytes[0] = version;
        edges.refused(format!("version {version}"), bytes.clone(), 2, 0);
        bytes.push(0);
        edges.refused(format!("version {version} and wrong length"), bytes, 2, 0);
    }
    let mut longer = good.to_vec();
    longer.push(0);
    edges.refused("a byte behind the message", longer, 3, 1);
    edges.refused(
        "a byte short of the length",
        good[..good.len() - 1].to_vec(),
        3,
        1,
    );
    edges.refused("only the head", good[..3].to_vec(), 3, 1);
    edges.refused("nothing behind a right head", message(&[]), 1, 3);
    edges.refused("length 65535", vec![1, 255, 255, 0], 3, 1);
}

/// Registers as whole images.
pub fn register_edges() -> Vec<Edge> {
    let mut edges = Edges(Vec::new());
    head_edges(&mut edges, &R1);
    edges.taken("R1", R1.to_vec());

    // Items: the count at place 3, names from place 5.
    edges.refused("half an item count", message(&[&[0]]), 1, 3);
    edges.refused("no item", message(&[&[0, 0], &[0, 0]]), 4, 3);
    edges.refused("513 items, none written", message(&[&[2, 1]]), 4, 3);
    edges.refused("65535 items", message(&[&[255, 255]]), 4, 3);
    edges.refused("512 items, none written", message(&[&[2, 0]]), 1, 5);
    edges.refused("7 bytes of names", message(&[&[0, 1], &[0; 7]]), 1, 5);
    edges.refused("second names cut", message(&[&[0, 2], &[0; 15]]), 1, 13);
    edges.taken("one bare item", message(&[&[0, 1], &[0; 8], &[0, 0]]));
    edges.taken(
        "one item with all names",
        message(&[&[0, 1], &[255; 8], &[0, 0]]),
    );

    // Links of two items: the count at place 21, the first link at 23, the
    // second at 28.
    let two_items: &[u8] = &[&[0, 2][..], &[0; 16]].concat();
    let with_links = |links: &[u8]| message(&[two_items, links]);
    edges.refused("no link count", with_links(&[]), 1, 21);
    edges.refused("half a link count", with_links(&[0]), 1, 21);
    edges.refused("4097 links, none written", with_links(&[0x10, 0x01]), 4, 21);
    edges.refused("65535 links", with_links(&[255, 255]), 4, 21);
    edges.refused("4096 links, none written", with_links(&[0x10, 0x00]), 1, 23);
    edges.refused("link without bytes", with_links(&[0, 1]), 1, 23);
    edges.refused("half a from", with_links(&[0, 1, 0]), 1, 23);
    edges.refused("from alone", with_links(&[0, 1, 0, 0]), 1, 25);
    edges.refused("no to", with_links(&[0, 1, 0, 0, 0]), 1, 26);
    edges.refused("half a to", with_links(&[0, 1, 0, 0, 0, 0]), 1, 26);
    edges.refused(
        "bad from in a cut link",
        with_links(&[0, 1, 9, 9, 99, 0]),
        1,
        26,
    );
    edges.taken("link to itself", with_links(&[0, 1, 0, 1, 31, 0, 1]));
    edges.refused(
        "from at the item count",
        with_links(&[0, 1, 0, 2, 0, 0, 0]),
        5,
        23,
    );
    edges.refused("from 256", with_links(&[0, 1, 1, 0, 0, 0, 0]), 5, 23);
    edges.refused(
        "bad from, role and to",
        with_links(&[0, 1, 0, 2, 32, 0, 2]),
        5,
        23,
    );
    edges.refused("role 32", with_links(&[0, 1, 0, 0, 32, 0, 0]), 7, 25);
    edges.refused("role 255", with_links(&[0, 1, 0, 0, 255, 0, 0]), 7, 25);
    edges.refused(
        "bad role and to",
        with_links(&[0, 1, 0, 0, 32, 0, 2]),
        7,
        25,
    );
    edges.refused(
        "to at the item count",
        with_links(&[0, 1, 0, 0, 0, 0, 2]),
        5,
        26,
    );
    edges.refused("to 65535", with_links(&[0, 1, 0, 0, 0, 255, 255]), 5, 26);
    let two_links =
        |first: [u8; 5], second: [u8; 5]| with_links(&[&[0, 2], &first[..], &second].concat());
    edges.taken("rising in to", two_links([0, 0, 0, 0, 0], [0, 0, 0, 0, 1]));
    edges.taken(
        "rising in role",
        two_links([0, 0, 0, 0, 1], [0, 0, 1, 0, 0]),
    );
    edges.taken(
        "rising in from",
        two_links([0, 0, 1, 0, 1], [0, 1, 0, 0, 0]),
    );
    edges.refused(
        "equal links",
        two_links([0, 0, 0, 0, 1], [0, 0, 0, 0, 1]),
        6,
        28,
    );
    edges.refused(
        "falling in to",
        two_links([0, 0, 0, 0, 1], [0, 0, 0, 0, 0]),
        6,
        28,
    );
    edges.refused(
        "falling in role",
        two_links([0, 0, 1, 0, 0], [0, 0, 0, 0, 1]),
        6,
        28,
    );
    edges.refused(
        "falling in from",
        two_links([0, 1, 0, 0, 0], [0, 0, 1, 0, 1]),
        6,
        28,
    );
    edges.refused(
        "bad to before falling",
        two_links([0, 1, 0, 0, 0], [0, 0, 0, 0, 2]),
        5,
        31,
    );
    edges.refused(
        "bad role before falling",
        two_links([0, 1, 0, 0, 0], [0, 0, 32, 0, 0]),
        7,
        30,
    );
    edges.refused(
        "a link more than counted",
        with_links(&[0, 0, 0, 0, 0, 0, 0]),
        8,
        23,
    );
    edges.refused(
        "a byte left over",
        with_links(&[0, 1, 0, 0, 0, 0, 1, 0]),
        8,
        28,
    );
    edges.refused(
        "falling before left over",
        with_links(&[0, 2, 0, 1, 0, 0, 0, 0, 0, 0, 0, 0, 7]),
        6,
        28,
    );

    // The bounds with everything written out.
    let mut rng = Rng::new(1);
    let palette = Palette {
        names: (0..64).collect(),
        roles: (0..32).collect(),
        withdrawn: 0,
    };
    let largest = largest_register(&mut rng, &palette);
    edges.taken("the largest image", register::encode(&largest));
    let mut more_items = largest.clone();
    more_items.names.push(0);
    edges.refused("513 items written out", register::encode(&more_items), 4, 3);
    let mut more_links = largest.clone();
    more_links.links.push((511, 31, 511));
    edges.refused(
        "4097 links written out",
        register::encode(&more_links),
        4,
        5 + 8 * 512,
    );
    let mut last_falls = largest.clone();
    last_falls.links[4095] = last_falls.links[4094];
    edges.refused(
        "the last of 4096 equal",
        register::encode(&last_falls),
        6,
        24_583 - 5,
    );
    let mut last_end = largest;
    last_end.links[4095] = (511, 31, 512);
    edges.refused(
        "the last to names no item",
        register::encode(&last_end),
        5,
        24_583 - 2,
    );
    edges.taken(
        "512 withdrawn items",
        register::encode(&Register {
            names: vec![1 << WITHDRAWN; 512],
            links: vec![],
        }),
    );
    edges.taken(
        "512 bare items",
        register::encode(&Register {
            names: vec![0; 512],
            links: vec![],
        }),
    );
    edges.0
}

/// Root and a number of children under role 0, without names.
fn broad(nodes: usize) -> Node {
    Node {
        names: 0,
        thresholds: Vec::new(),
        children: (1..nodes).map(|_| (0, Node::leaf(0))).collect(),
    }
}

/// A chain whose last node is this one, at this depth.
fn at_depth(depth: usize, last: Node) -> Node {
    (0..depth).fold(last, |below, _| Node {
        names: 0,
        thresholds: Vec::new(),
        children: vec![(0, below)],
    })
}

/// A chain whose last node stands at this depth.
fn chain(depth: usize) -> Node {
    at_depth(depth, Node::leaf(1))
}

/// The lowest so many names.
fn names(count: u32) -> u64 {
    if count >= 64 {
        u64::MAX
    } else {
        (1 << count) - 1
    }
}

/// A root of so many names, with role 0 to {1} twice.
fn names_and_twice(count: u32) -> Node {
    Node {
        names: names(count),
        thresholds: Vec::new(),
        children: vec![(0, Node::leaf(2)), (0, Node::leaf(2))],
    }
}

/// A root of so many names, with role 0 to an empty node twice.
fn names_and_empty_twice(count: u32) -> Node {
    Node {
        names: names(count),
        thresholds: Vec::new(),
        children: vec![(0, Node::leaf(0)), (0, Node::leaf(0))],
    }
}

fn at_least_half(inner: Node) -> Threshold {
    Threshold {
        comparison: Comparison::AtLeast,
        p: 1,
        q: 2,
        inner,
        start: 0,
        len: 0,
    }
}

/// Thresholds on one empty node each, which have 17 bytes.
fn halves(count: usize) -> Vec<Threshold> {
    vec![at_least_half(Node::leaf(0)); count]
}

fn with_threshold_list(names: u64, thresholds: Vec<Threshold>) -> Node {
    Node {
        names,
        thresholds,
        children: Vec::new(),
    }
}

/// The 10 bytes of a node's fixed fields.
fn node(names: u64, thresholds: u8, children: u8) -> Vec<u8> {
    let mut bytes = names.to_be_bytes().to_vec();
    bytes.extend_from_slice(&[thresholds, children]);
    bytes
}

/// Requirements as messages, and what reading says of them. The root stands at
/// place 3, its first threshold or edge at 13, and there the inner length at
/// 18 and the inner root at 20.
pub fn requirement_edges() -> Vec<Edge> {
    let mut edges = Edges(Vec::new());
    head_edges(&mut edges, &Q1);
    edges.taken("Q1", Q1.to_vec());
    node_edges(&mut edges);
    threshold_edges(&mut edges);
    comparison_edges(&mut edges);
    fraction_edges(&mut edges);
    fraction_first_edges(&mut edges);
    later_fraction_edges(&mut edges);
    threshold_count_edges(&mut edges);
    inner_edges(&mut edges);
    edges.0
}

fn node_edges(edges: &mut Edges) {
    edges.taken("one empty node", message(&[&node(0, 0, 0)]));
    edges.refused("7 bytes of names", message(&[&[0; 7]]), 1, 3);
    edges.refused("no count of thresholds", message(&[&[0; 8]]), 1, 11);
    edges.refused("no count of children", message(&[&[0; 9]]), 1, 12);
    edges.refused("a byte left over", message(&[&node(0, 0, 0), &[7]]), 8, 13);
    edges.refused(
        "a child not counted",
        message(&[&node(0, 0, 0), &[0], &node(0, 0, 0)]),
        8,
        13,
    );
    edges.refused("no edge", message(&[&node(0, 0, 1)]), 1, 13);
    edges.refused(
        "an edge without node",
        message(&[&node(0, 0, 1), &[31]]),
        1,
        14,
    );
    edges.refused(
        "role 32 without node",
        message(&[&node(0, 0, 1), &[32]]),
        7,
        13,
    );
    edges.refused(
        "role 255",
        message(&[&node(0, 0, 1), &[255], &node(0, 0, 0)]),
        7,
        13,
    );
    edges.taken("role 31", message(&[&node(0, 0, 1), &[31], &node(0, 0, 0)]));
    edges.refused(
        "child cut in its names",
        message(&[&node(0, 0, 1), &[0], &[0; 7]]),
        1,
        14,
    );
    edges.refused(
        "child cut after names",
        message(&[&node(0, 0, 1), &[0], &[0; 8]]),
        1,
        22,
    );
    edges.refused(
        "child cut before last",
        message(&[&node(0, 0, 1), &[0], &[0; 9]]),
        1,
        23,
    );
    edges.refused(
        "second of two children missing",
        message(&[&node(0, 0, 2), &[0], &node(0, 0, 0)]),
        1,
        24,
    );

    // In a chain the node at depth d stands at 3 + 11 d.
    edges.taken("depth 16", requirement::encode(&chain(16)));
    edges.refused("depth 17", requirement::encode(&chain(17)), 9, 190);
    edges.refused("depth 40", requirement::encode(&chain(40)), 9, 190);
    let mut cut = requirement::encode(&chain(17));
    cut.pop();
    mend_head(&mut cut);
    edges.refused("depth 17, that node cut", cut, 1, 199);

    // In a broad tree the k-th child stands at 14 + 11 (k - 1).
    edges.taken("64 nodes", requirement::encode(&broad(64)));
    edges.refused("65 nodes", requirement::encode(&broad(65)), 10, 707);
    edges.refused("200 nodes", requirement::encode(&broad(200)), 10, 707);
    let mut both = broad(48);
    both.children.push((0, chain(16)));
    edges.refused(
        "65th node at depth 17: depth first",
        requirement::encode(&both),
        9,
        707,
    );
    let mut one_less = broad(48);
    one_less.children.push((0, chain(15)));
    edges.taken("64 nodes to depth 16", requirement::encode(&one_less));
    edges.refused(
        "255 children, none written",
        message(&[&node(0, 0, 255)]),
        1,
        13,
    );
}

fn threshold_edges(edges: &mut Edges) {
    let one = |rest: &[u8]| message(&[&node(0, 1, 0), rest]);
    edges.refused("no threshold", one(&[]), 1, 13);
    edges.refused("comparison alone", one(&[0]), 1, 14);
    edges.refused("bad comparison alone", one(&[4]), 1, 14);
    edges.refused("half a p", one(&[0, 0]), 1, 14);
    edges.refused("no q", one(&[0, 0, 1]), 1, 16);
    edges.refused("half a q", one(&[4, 0, 1, 0]), 1, 16);
    edges.refused("a p above every q, no q", one(&[3, 255, 255]), 1, 16);
    edges.refused("half a q of 0", one(&[3, 255, 255, 0]), 1, 16);
    edges.refused(
        "bad comparison, nothing more",
        one(&[4, 0, 1, 0, 2]),
        13,
        13,
    );
    edges.refused("no inner length", one(&[3, 0, 1, 0, 2]), 1, 18);
    edges.refused("half an inner length", one(&[3, 0, 1, 0, 2, 0]), 1, 18);
    edges.refused(
        "inner length 1 of nothing",
        one(&[3, 0, 1, 0, 2, 0, 1]),
        1,
        18,
    );
    edges.refused("inner length 0", one(&[3, 0, 1, 0, 2, 0, 0]), 1, 20);
    let half_over = |length: u8, rest: &[u8]| one(&[&[3, 0, 1, 0, 2, 0, length], rest].concat());
    edges.refused(
        "inner length 0 before a node",
        half_over(0, &node(0, 0, 0)),
        1,
        20,
    );
    edges.refused("inner length 7", half_over(7, &node(0, 0, 0)), 1, 20);
    edges.refused("inner length 8", half_over(8, &node(0, 0, 0)), 1, 28);
    edges.refused(
        "inner length one short",
        half_over(9, &node(0, 0, 0)),
        1,
        29,
    );
    edges.taken("inner length right", half_over(10, &node(0, 0, 0)));
    edges.refused(
        "inner length one past the message",
        half_over(11, &node(0, 0, 0)),
        1,
        18,
    );
    edges.refused(
        "inner length one long",
        half_over(11, &[node(0, 0, 0), vec![0]].concat()),
        8,
        30,
    );
    edges.refused(
        "a byte behind the inner",
        half_over(10, &[node(0, 0, 0), vec![0]].concat()),
        8,
        30,
    );
    edges.refused(
        "inner edge past its end",
        half_over(10, &[node(0, 0, 1), vec![0]].concat()),
        1,
        30,
    );
    edges.refused(
        "inner child past its end",
        half_over(20, &[node(0, 0, 1), vec![0], node(0, 0, 0)].concat()),
        1,
        40,
    );
    edges.taken(
        "inner child",
        half_over(21, &[node(0, 0, 1), vec![0], node(0, 0, 0)].concat()),
    );
    edges.refused(
        "inner role 32",
        half_over(21, &[node(0, 0, 1), vec![32], node(0, 0, 0)].concat()),
        7,
        30,
    );
}

/// One threshold on the root: the numbers of its first 5 bytes, and all that
/// stands behind them.
fn one_threshold(comparison: u8, (p, q): (u16, u16), behind: &[u8]) -> Vec<u8> {
    let (p, q) = (p.to_be_bytes(), q.to_be_bytes());
    message(&[&node(0, 1, 0), &[comparison], &p, &q, behind])
}

/// Behind those 5 bytes: an inner concept of one node.
fn one_inner_node() -> Vec<u8> {
    [&[0, 10][..], &node(0, 0, 0)].concat()
}

fn comparison_edges(edges: &mut Edges) {
    for comparison in [0, 1, 2, 3] {
        let bytes = one_threshold(comparison, (1, 2), &one_inner_node());
        edges.taken(format!("comparison {comparison}"), bytes);
    }
    for comparison in [4, 255] {
        let bytes = one_threshold(comparison, (1, 2), &one_inner_node());
        edges.refused(format!("comparison {comparison}"), bytes, 13, 13);
    }
    // At the second threshold, before a fraction that is bad as well and behind
    // one.
    let mut bytes = requirement::encode(&with_threshold_list(0, halves(2)));
    bytes[30] = 4;
    edges.refused("the second comparison", bytes.clone(), 13, 30);
    bytes[34] = 0;
    edges.refused("the second comparison and q", bytes.clone(), 13, 30);
    bytes[17] = 0;
    edges.refused("the first q, the second comparison", bytes, 23, 16);
}

/// Fractions at each edge of the rules, within them.
const GOOD_FRACTIONS: [(u16, u16); 10] = [
    (0, 1),
    (1, 1),
    (1, 2),
    (2, 3),
    (1, 1000),
    (999, 1000),
    (1, 999),
    (998, 999),
    (1, 256),
    (255, 256),
];

/// Fractions against the rules that one number refuses.
struct Bad {
    number: u32,
    /// How far behind the threshold's first byte the p or q at fault stands.
    behind: usize,
    /// The first of them has a later number's fault as well, where it can.
    fractions: &'static [(u16, u16)],
}

const BAD_FRACTIONS: [Bad; 3] = [
    Bad {
        number: 23,
        behind: 3,
        fractions: &[
            (1, 0),
            (0, 0),
            (65_535, 0),
            (0, 1001),
            (1, 1001),
            (1000, 1001),
            (7, 1001),
            (1001, 1001),
            (1002, 1001),
            (2002, 1001),
            (1, 1024),
            (1, 65_535),
            (65_535, 65_535),
        ],
    },
    Bad {
        number: 24,
        behind: 1,
        fractions: &[
            (4, 2),
            (3, 2),
            (2, 1),
            (256, 1),
            (1000, 999),
            (1001, 1000),
            (1002, 1000),
            (65_535, 1),
            (65_535, 1000),
        ],
    },
    Bad {
        number: 25,
        behind: 1,
        fractions: &[
            (0, 2),
            (2, 4),
            (2, 2),
            (6, 9),
            (0, 1000),
            (500, 1000),
            (998, 1000),
            (1000, 1000),
            (999, 999),
        ],
    },
];

/// Fractions as a call hands them over, for a margin or in a list, each with
/// the number that refuses it, if one does: those above, and ones that would
/// be others if their high bits were lost on the way.
pub fn call_fractions() -> Vec<(u64, u64, Option<u32>)> {
    let mut list = vec![
        (1, (1 << 16) + 2, Some(23)),
        (1, (1 << 32) + 2, Some(23)),
        (0, 1 << 63, Some(23)),
        (65_537, 65_538, Some(23)),
        (1 << 63, u64::MAX, Some(23)),
        (u64::MAX, u64::MAX, Some(23)),
        (u64::MAX, 0, Some(23)),
        ((1 << 16) + 1, 2, Some(24)),
        ((1 << 32) + 1, 2, Some(24)),
        (1 << 32, 1, Some(24)),
        (u64::MAX, 1, Some(24)),
        (u64::MAX, 1000, Some(24)),
    ];
    let wide = |(p, q): (u16, u16)| (u64::from(p), u64::from(q));
    for (p, q) in GOOD_FRACTIONS.map(wide) {
        list.push((p, q, None));
    }
    for bad in BAD_FRACTIONS {
        for (p, q) in bad.fractions.iter().copied().map(wide) {
            list.push((p, q, Some(bad.number)));
        }
    }
    list
}

/// Fractions at each edge of their rules, and the comparison before them.
fn fraction_edges(edges: &mut Edges) {
    for (p, q) in GOOD_FRACTIONS {
        let bytes = one_threshold(3, (p, q), &one_inner_node());
        edges.taken(format!("threshold {p}/{q}"), bytes);
    }
    for bad in BAD_FRACTIONS {
        for (p, q) in bad.fractions {
            let label = format!("threshold {p}/{q}");
            let bytes = one_threshold(3, (*p, *q), &one_inner_node());
            edges.refused(&label, bytes, bad.number, 13 + bad.behind);
            let bytes = one_threshold(4, (*p, *q), &one_inner_node());
            edges.refused(format!("comparison 4, {label}"), bytes, 13, 13);
        }
    }
}

/// A bad fraction before each fault of what stands behind it.
fn fraction_first_edges(edges: &mut Edges) {
    let inner = |length: u8, parts: &[&[u8]]| [&[0, length], &parts.concat()[..]].concat();
    let faults = [
        ("no inner length", vec![]),
        ("half an inner length", vec![0]),
        ("an inner length past the end", inner(1, &[])),
        ("an inner length of 0", inner(0, &[])),
        ("an inner node cut", inner(9, &[&node(0, 0, 0)])),
        ("an inner threshold", inner(10, &[&node(0, 1, 0)])),
        (
            "an inner role of 32",
            inner(21, &[&node(0, 0, 1), &[32], &node(0, 0, 0)]),
        ),
        (
            "a byte left over within",
            inner(11, &[&node(0, 0, 0), &[0]]),
        ),
        ("an inner size of 64", inner(10, &[&node(u64::MAX, 0, 0)])),
        ("a byte left over", inner(10, &[&node(0, 0, 0), &[0]])),
    ];
    for bad in BAD_FRACTIONS {
        let (p, q) = bad.fractions[0];
        for (label, rest) in &faults {
            let label = format!("{p}/{q}, {label}");
            let bytes = one_threshold(3, (p, q), rest);
            edges.refused(label, bytes, bad.number, 13 + bad.behind);
        }
    }
}

/// Requirements that have a threshold somewhere, with the place of its first
/// byte, and no fault before it.
fn having(threshold: &Threshold) -> Vec<(&'static str, Node, usize)> {
    let listed = |before: Vec<Threshold>, behind: Vec<Threshold>| {
        with_threshold_list(0, [before, vec![threshold.clone()], behind].concat())
    };
    let below = |mut root: Node, role: u8, child: Node| {
        root.children.push((role, child));
        root
    };
    let alone = listed(vec![], vec![]);
    let one_half = with_threshold_list(0, halves(1));
    let long = vec![at_least_half(chain(16))];
    vec![
        ("the first of two", listed(vec![], halves(1)), 13),
        ("the second", listed(halves(1), vec![]), 30),
        ("behind 186 inner bytes", listed(long, vec![]), 206),
        ("the 16th of 17", listed(halves(15), halves(1)), 268),
        ("on a child", below(Node::leaf(0), 31, alone.clone()), 24),
        ("on a later node", below(one_half, 0, alone.clone()), 41),
        (
            "the second of the second child",
            below(broad(2), 0, listed(halves(1), vec![])),
            52,
        ),
        (
            "before role 32",
            below(alone.clone(), 32, Node::leaf(0)),
            13,
        ),
        ("at depth 16", at_depth(16, alone), 189),
    ]
}

/// A bad fraction at a threshold that is not all that the message has, and at
/// the first of two; a 17th is one too many whatever it says.
fn later_fraction_edges(edges: &mut Edges) {
    let against = |(p, q): (u16, u16)| Threshold {
        p,
        q,
        ..at_least_half(Node::leaf(0))
    };
    for bad in BAD_FRACTIONS {
        let (p, q) = bad.fractions[0];
        let mut refused = |label: &str, root: &Node, number: u32, place: usize| {
            let bytes = requirement::encode(root);
            edges.refused(format!("{p}/{q}, {label}"), bytes, number, place);
        };
        let threshold = against((p, q));
        for (label, root, place) in having(&threshold) {
            refused(label, &root, bad.number, place + bad.behind);
        }
        for other in BAD_FRACTIONS {
            let second = against(other.fractions[0]);
            let both = with_threshold_list(0, vec![threshold.clone(), second]);
            refused("then another", &both, bad.number, 13 + bad.behind);
        }
        let seventeen = with_threshold_list(0, [halves(16), vec![threshold]].concat());
        refused("the 17th", &seventeen, 12, 285);
    }
}

fn threshold_count_edges(edges: &mut Edges) {
    let sixteen = requirement::encode(&with_threshold_list(0, halves(16)));
    edges.taken("16 thresholds", sixteen.clone());
    edges.refused(
        "17 thresholds",
        requirement::encode(&with_threshold_list(0, halves(17))),
        12,
        285,
    );
    let mut unwritten = sixteen.clone();
    unwritten[11] = 17;
    edges.refused("the 17th not written", unwritten, 12, 285);
    let mut child_has_it = with_threshold_list(0, halves(16));
    child_has_it
        .children
        .push((0, with_threshold_list(0, halves(1))));
    edges.refused(
        "the 17th on a child",
        requirement::encode(&child_has_it),
        12,
        296,
    );
    let mut shared = with_threshold_list(0, halves(15));
    shared.children.push((0, with_threshold_list(0, halves(1))));
    edges.taken("16 thresholds on two nodes", requirement::encode(&shared));
}

fn inner_edges(edges: &mut Edges) {
    let inside =
        |inner: Node| requirement::encode(&with_threshold_list(0, vec![at_least_half(inner)]));
    edges.taken("inner depth 16", inside(chain(16)));
    edges.refused("inner depth 17", inside(chain(17)), 9, 207);
    edges.taken("64 inner nodes", inside(broad(64)));
    edges.refused("65 inner nodes", inside(broad(65)), 10, 724);
    edges.refused(
        "threshold on an inner root",
        inside(with_threshold_list(0, vec![at_least_half(Node::leaf(0))])),
        11,
        28,
    );
    edges.refused(
        "bad threshold on an inner root",
        message(&[
            &node(0, 1, 0),
            &[3, 0, 1, 0, 2, 0, 11],
            &node(0, 255, 0),
            &[9],
        ]),
        11,
        28,
    );
    let mut child_has_it = Node::leaf(0);
    child_has_it.children.push((
        0,
        with_threshold_list(0, vec![at_least_half(Node::leaf(0))]),
    ));
    edges.refused("threshold on an inner child", inside(child_has_it), 11, 39);
    let mut sixty_fifth = broad(65);
    sixty_fifth.children[63].1 = with_threshold_list(0, vec![at_least_half(Node::leaf(0))]);
    edges.refused(
        "65th inner node with a threshold",
        inside(sixty_fifth),
        10,
        724,
    );
    let deep = at_depth(17, with_threshold_list(0, halves(1)));
    edges.refused("inner depth 17 with a threshold", inside(deep), 9, 207);

    let counted_anew = with_threshold_list(0, vec![at_least_half(chain(16))]);
    let counted_anew = at_depth(16, counted_anew);
    edges.taken(
        "inner depth 16 at depth 16",
        requirement::encode(&counted_anew),
    );
    let mut longest = broad(64);
    for thresholds in 0..16 {
        longest.children[thresholds * 3]
            .1
            .thresholds
            .push(at_least_half(broad(64)));
    }
    edges.taken("the longest message", requirement::encode(&longest));

    edges.taken("inner size 60", inside(Node::leaf(names(60))));
    edges.refused("inner size 61", inside(Node::leaf(names(61))), 14, 20);
    edges.refused("inner size 64", inside(Node::leaf(u64::MAX)), 14, 20);
    edges.taken("inner size 60 after reduction", inside(names_and_twice(58)));
    edges.refused(
        "inner size 61 after reduction",
        inside(names_and_twice(59)),
        14,
        20,
    );
    edges.taken(
        "inner size 61 as written",
        inside(names_and_empty_twice(59)),
    );
    edges.refused(
        "inner 61 of 62 as written",
        inside(names_and_empty_twice(60)),
        14,
        20,
    );
    edges.refused(
        "left over before the size",
        message(&[
            &node(0, 1, 0),
            &[3, 0, 1, 0, 2, 0, 11],
            &node(u64::MAX, 0, 0),
            &[0],
        ]),
        8,
        30,
    );
    edges.refused(
        "the size before what follows",
        message(&[
            &node(0, 1, 1),
            &[3, 0, 1, 0, 2, 0, 10],
            &node(u64::MAX, 0, 0),
            &[99],
        ]),
        14,
        20,
    );
    let mut second_too_large = with_threshold_list(0, vec![at_least_half(Node::leaf(0))]);
    second_too_large
        .thresholds
        .push(at_least_half(Node::leaf(u64::MAX)));
    edges.refused(
        "the second inner too large",
        requirement::encode(&second_too_large),
        14,
        37,
    );
    let mut outer_large = with_threshold_list(u64::MAX, vec![at_least_half(Node::leaf(0))]);
    outer_large.children.push((0, Node::leaf(u64::MAX)));
    edges.taken(
        "an outer tree of any size",
        requirement::encode(&outer_large),
    );
}

/// Requirements that reading takes, or not, and what a degree says of them
/// when register and call are good.
pub fn concept_edges() -> Vec<Edge> {
    let mut edges = Edges(Vec::new());
    let plain = |root: &Node| requirement::encode(root);
    edges.taken("60 names", plain(&Node::leaf(names(60))));
    edges.refused("61 names", plain(&Node::leaf(names(61))), 14, 3);
    edges.refused("64 names", plain(&Node::leaf(u64::MAX)), 14, 3);
    edges.taken("60 after reduction", plain(&names_and_twice(58)));
    edges.refused("61 after reduction", plain(&names_and_twice(59)), 14, 3);
    edges.taken(
        "61 as written, 60 reduced",
        plain(&names_and_empty_twice(59)),
    );
    edges.refused(
        "62 as written, 61 reduced",
        plain(&names_and_empty_twice(60)),
        14,
        3,
    );
    let mut apart = names_and_twice(57);
    apart.children[1].0 = 1;
    edges.refused("two roles are not compared", plain(&apart), 14, 3);
    apart.names = names(56);
    edges.taken("two roles, 60", plain(&apart));
    edges.taken("64 nodes that reduce", plain(&broad(64)));

    // 20 nodes, each with n = 3: size 60 and the greatest scale, 3^20.
    edges.taken("the greatest scale", plain(&threes(20)));

    let threshold = at_least_half(Node::leaf(0));
    let root_has_it = with_threshold_list(0, vec![threshold.clone()]);
    edges.refused("a threshold at the root", plain(&root_has_it), 11, 13);
    let mut second_child = broad(3);
    second_child.children[1]
        .1
        .thresholds
        .push(threshold.clone());
    edges.refused(
        "a threshold on the second child",
        plain(&second_child),
        11,
        35,
    );
    second_child.children[0]
        .1
        .thresholds
        .push(threshold.clone());
    edges.refused("thresholds on both children", plain(&second_child), 11, 24);
    let mut large = Node::leaf(u64::MAX);
    large.thresholds.push(threshold.clone());
    edges.refused("a threshold and 64 names", plain(&large), 11, 13);
    large.thresholds.push(at_least_half(Node::leaf(u64::MAX)));
    edges.refused("an inner concept too large", plain(&large), 14, 37);
    edges.0
}

/// A tree of so many nodes, up to 20, each with names and children adding up
/// to 3, siblings under different roles so that none is dropped.
pub fn threes(nodes: usize) -> Node {
    fn build(nodes: usize, depth: usize) -> Node {
        let below = nodes - 1;
        // A chain would pass depth 16, so the root of each part has two
        // branches while nodes are plenty.
        let parts: Vec<usize> = match below {
            0 => vec![],
            1..=4 => vec![below],
            _ => vec![below / 2, below - below / 2],
        };
        let mut node = Node::leaf(names(3 - parts.len() as u32) << depth);
        for (role, part) in parts.iter().enumerate() {
            node.children.push((role as u8, build(*part, depth + 1)));
        }
        node
    }
    build(nodes.clamp(1, 20), 0)
}
