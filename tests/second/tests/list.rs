//! The whole list (§3 of document 02): by hand, against the single calls, and
//! against two other ways to the same numbers.

use second::brute;
use second::degree::degree;
use second::fraction::Fraction;
use second::gen::edges::{Q1, R1};
use second::gen::{
    damaged_register, damaged_requirement, medium_register, plain_within_size, small_plain,
    small_register, Palette, Rng,
};
use second::judged::Judged;
use second::list::{list, single_degrees, List};
use second::reduce::{reduce, Kept};
use second::register::{self, Register};
use second::requirement::{self, Comparison, Node, Threshold};
use second::Refusal;

fn good(items: usize, nodes: usize, scale: u32, table: &[u32]) -> Result<List, Refusal> {
    let table = table.to_vec();
    Ok(List {
        items,
        nodes,
        scale,
        table,
    })
}

/// A node that is asked for under a role.
fn under(role: u8, names: u64, children: Vec<(u8, Node)>) -> (u8, Node) {
    let node = Node {
        children,
        ..Node::leaf(names)
    };
    (role, node)
}

#[test]
fn q1_on_r1() {
    assert_eq!(list(&R1, &Q1, 6), good(3, 2, 3, &[2, 1, 1, 1, 1, 0]));
    assert_eq!(list(&R1, &Q1, 7), list(&R1, &Q1, 6));
    for room in 0..6 {
        assert_eq!(list(&R1, &Q1, room), Err(Refusal::call(16)));
    }
}

/// The first child says nothing that the second does not say, and goes with
/// the node below it.
#[test]
fn dropped_nodes_are_zero_with_all_below() {
    let lesser = under(0, 0, vec![under(1, 0, vec![])]);
    let greater = under(0, 2, vec![under(1, 4, vec![])]);
    let (_, root) = under(0, 0, vec![lesser, greater]);
    let wanted = [1, 0, 0, 0, 0, 0, 0, 0, 0, 2, 1, 0, 0, 0, 1];
    let message = requirement::encode(&root);
    assert_eq!(list(&R1, &message, 15), good(3, 5, 2, &wanted));
}

#[test]
fn an_empty_node_counts_1() {
    let message = requirement::encode(&Node::leaf(0));
    assert_eq!(list(&R1, &message, 3), good(3, 1, 1, &[1, 1, 1]));
}

/// Register, requirement, 11, 14, 16.
#[test]
fn the_order_of_refusals() {
    let threshold = Threshold {
        comparison: Comparison::AtLeast,
        p: 1,
        q: 2,
        inner: Node::leaf(1),
        start: 0,
        len: 0,
    };
    let too_large = Node::leaf(u64::MAX);
    let judging = Node {
        thresholds: vec![threshold],
        ..too_large.clone()
    };
    let (too_large, judging) = (
        requirement::encode(&too_large),
        requirement::encode(&judging),
    );
    assert_eq!(list(&R1[..9], &[], 0), Err(Refusal::register(3, 1)));
    assert_eq!(list(&R1, &[], 0), Err(Refusal::requirement(1, 0)));
    assert_eq!(list(&R1, &judging, 0), Err(Refusal::requirement(11, 13)));
    assert_eq!(list(&R1, &too_large, 0), Err(Refusal::requirement(14, 3)));
    assert_eq!(list(&R1, &Q1, 5), Err(Refusal::call(16)));
}

/// A register and a requirement of any size, not too large for its degree.
fn pair(rng: &mut Rng) -> (Register, Node) {
    let palette = Palette::any(rng);
    match rng.below(4) {
        0 => (
            medium_register(rng, &palette),
            plain_within_size(rng, &palette),
        ),
        _ => (small_register(rng, &palette), small_plain(rng, &palette)),
    }
}

/// The first row over the scale, in lowest terms, is what the single call says
/// of each item.
#[test]
fn the_first_row_is_the_single_calls_degrees() {
    let mut rng = Rng::new(31);
    for _ in 0..2000 {
        let (register, root) = pair(&mut rng);
        let (image, message) = (register::encode(&register), requirement::encode(&root));
        let nodes = requirement::written(&root).len();
        let list = list(&image, &message, nodes * register.items()).expect("a good list");
        for item in 0..register.items() {
            let single = degree(&image, &message, item as u64, 64);
            if single == Err(Refusal::call(26)) {
                assert_eq!(list.table[item], 0);
                continue;
            }
            let (num, den, _) = single.expect("a good degree");
            let wanted = Fraction {
                num: num.into(),
                den: den.into(),
            };
            assert_eq!(list.degree(item), wanted);
        }
    }
}

/// The greatest root value over all partial maps of what is kept below a node.
#[test]
fn by_trying_every_map() {
    let mut rng = Rng::new(32);
    for _ in 0..2000 {
        let palette = Palette::any(&mut rng);
        let register = small_register(&mut rng, &palette);
        let root = small_plain(&mut rng, &palette);
        let judged = Judged::of(&register);
        let tried = List::of(&judged, &root, |judged, concept| {
            let tried = |item| (item, brute::degree_at(judged, &concept.root, item));
            judged.each().map(tried).collect()
        });
        assert_eq!(List::of(&judged, &root, single_degrees), tried);
    }
}

/// From below, in whole numbers alone: a held name counts the product of the
/// children's scales, and a child's greatest number the product of its
/// siblings'. Answers the node's scale.
fn from_below(judged: &Judged, node: &Kept, table: &mut [u32]) -> u64 {
    let items = judged.items();
    let scales: Vec<u64> = node
        .children
        .iter()
        .map(|(_, child)| from_below(judged, child, table))
        .collect();
    let below: u64 = scales.iter().product();
    for item in judged.each() {
        let held = (node.names & judged.names(item)).count_ones();
        let mut number = u64::from(held) * below;
        for ((role, child), scale) in node.children.iter().zip(&scales) {
            let ends = judged.successors(item, *role);
            let numbers = ends.map(|to| table[child.number * items + usize::from(to)]);
            number += u64::from(numbers.max().unwrap_or(0)) * (below / scale);
        }
        let number = if node.n() == 0 { 1 } else { number };
        table[node.number * items + usize::from(item)] = number as u32;
    }
    below * node.n().max(1) as u64
}

#[test]
fn each_row_out_of_those_below_it() {
    let mut rng = Rng::new(33);
    let mut dropped = 0;
    for _ in 0..2000 {
        let (register, root) = pair(&mut rng);
        let concept = reduce(&root);
        let mut table = vec![0; concept.written_nodes() * register.items()];
        let judged = Judged::of(&register);
        let scale = from_below(&judged, &concept.root, &mut table);
        let list = List::of(&judged, &root, single_degrees);
        assert_eq!((list.table, u64::from(list.scale)), (table, scale));
        dropped += concept.dropped.iter().filter(|dropped| **dropped).count();
    }
    assert!(dropped > 500, "dropped nodes are common: {dropped}");
}

/// Where either side is refused, it is refused as the degree refuses it.
#[test]
fn refused_as_the_degree_is() {
    let mut rng = Rng::new(34);
    let mut refused = 0;
    for round in 0..4000 {
        let (register, root) = pair(&mut rng);
        let (image, message) = match round % 2 {
            0 => (
                damaged_register(&mut rng, &register),
                requirement::encode(&root),
            ),
            _ => (
                register::encode(&register),
                damaged_requirement(&mut rng, &root),
            ),
        };
        if let Err(refusal) = list(&image, &message, usize::MAX) {
            assert_eq!(degree(&image, &message, 0, 64), Err(refusal));
            refused += 1;
        }
    }
    assert!(refused > 2000, "refusals are common: {refused}");
}
