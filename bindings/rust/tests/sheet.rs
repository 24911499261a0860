//! The rows of document 01's sheet, in its order.

mod common;

use std::cmp::Ordering;

use common::{image, judged, message, node, threshold, Q1, R1};
use svelgandur::{
    degree, degree_into, inner_part, margin, member, member_into, read_register, read_requirement,
    Place, Verdict,
};
use Place::{Dropped, Item, Unmapped};

fn fraction(register: &[u8], requirement: &[u8], item: u64) -> String {
    degree(register, requirement, item).unwrap().to_string()
}

#[test]
fn q1_on_r1() {
    let answers: Vec<_> = (0..3).map(|item| degree(&R1, &Q1, item).unwrap()).collect();
    let shown: Vec<String> = answers.iter().map(|answer| answer.to_string()).collect();
    assert_eq!(shown, ["2/3", "1/3", "1/3"]);
    assert_eq!(answers[0].map, [Item(0), Item(1)]);
    assert_eq!(answers[1].map, [Item(1), Unmapped]);
    assert_eq!(answers[2].map, [Item(2), Unmapped]);
}

#[test]
fn no_names_and_no_children() {
    assert_eq!(fraction(&R1, &message(node(&[], &[])), 0), "1/1");
}

#[test]
fn one_line_says_what_another_says() {
    let doubled = message(node(&[], &[(0, node(&[1], &[])), (0, node(&[1, 2], &[]))]));
    let answer = degree(&R1, &doubled, 0).unwrap();
    assert_eq!(answer.to_string(), "1/2");
    assert_eq!(answer.map, [Item(0), Dropped, Item(1)]);
    let twice = message(node(&[], &[(0, node(&[1], &[])), (0, node(&[1], &[]))]));
    let answer = degree(&R1, &twice, 0).unwrap();
    assert_eq!(answer.to_string(), "1/1");
    assert_eq!(answer.map, [Item(0), Item(1), Dropped]);
}

#[test]
fn two_lines_may_go_to_one_item() {
    let register = image(&[&[], &[1, 2]], &[(0, 0, 1)]);
    let requirement = message(node(&[], &[(0, node(&[1], &[])), (0, node(&[2], &[]))]));
    assert_eq!(fraction(&register, &requirement, 0), "1/1");
}

#[test]
fn the_best_successor_is_not_the_one_with_the_name() {
    let register = image(
        &[&[], &[1], &[], &[2], &[3]],
        &[(0, 0, 1), (0, 0, 2), (2, 1, 3), (2, 1, 4)],
    );
    let child = node(&[1], &[(1, node(&[2], &[])), (1, node(&[3], &[]))]);
    let requirement = message(node(&[], &[(0, child)]));
    assert_eq!(fraction(&register, &requirement, 0), "2/3");
}

#[test]
fn an_item_linked_to_itself() {
    let register = image(&[&[]], &[(0, 0, 0)]);
    let chain = |last: &[u32]| message(node(&[], &[(0, node(&[], &[(0, node(last, &[]))]))]));
    assert_eq!(fraction(&register, &chain(&[1]), 0), "0/1");
    assert_eq!(fraction(&register, &chain(&[]), 0), "1/1");
}

#[test]
fn q1_against_two_thirds() {
    let verdicts: Vec<Verdict> = (0..4)
        .map(|comparison| {
            let root = judged(&[], &[threshold(comparison, 2, 3, &Q1[3..])], &[]);
            member(&R1, &message(root), 0).unwrap()
        })
        .collect();
    let yes = || Verdict::Yes(vec![0]);
    // <, ≤, >, ≥
    assert_eq!(verdicts, [Verdict::No, yes(), Verdict::No, yes()]);
}

#[test]
fn its_margin() {
    let cases = [
        ((3, 4), (-1, 12), Ordering::Less),
        ((2, 3), (0, 9), Ordering::Equal),
        ((1, 2), (1, 6), Ordering::Greater),
    ];
    for ((p, q), wanted, side) in cases {
        let answer = margin(&R1, &Q1, 0, p, q).unwrap();
        assert_eq!((answer.value, answer.over), wanted);
        assert_eq!(answer.side(), side);
    }
}

#[test]
fn equal_successors() {
    let register = image(&[&[], &[], &[1], &[], &[1]], &[(0, 0, 2), (0, 0, 4)]);
    let requirement = message(node(&[], &[(0, node(&[1], &[]))]));
    assert_eq!(
        degree(&register, &requirement, 0).unwrap().map,
        [Item(0), Item(2)]
    );
    assert_eq!(
        member(&register, &requirement, 0),
        Ok(Verdict::Yes(vec![0, 2]))
    );
}

#[test]
fn the_largest_size() {
    let names = |count: u32| (0..count).collect::<Vec<u32>>();
    let sixty = message(node(&names(60), &[]));
    assert_eq!(fraction(&R1, &sixty, 0), "1/30");
    let over = message(node(&names(61), &[]));
    assert_eq!(degree(&R1, &over, 0).unwrap_err().number, 14);
    let twice = [(0, node(&[1], &[])), (0, node(&[1], &[]))];
    let reduced = message(node(&names(58), &twice));
    assert_eq!(fraction(&R1, &reduced, 0), "3/59");
}

#[test]
fn counts_and_parts() {
    let counts = read_register(&R1).unwrap();
    assert_eq!((counts.items, counts.links), (3, 2));
    let first = node(&[4], &[]);
    let second = node(&[], &[(3, node(&[5], &[]))]);
    let root = judged(
        &[],
        &[threshold(0, 1, 2, &first)],
        &[(0, judged(&[], &[threshold(3, 0, 1, &second)], &[]))],
    );
    let requirement = message(root);
    let counts = read_requirement(&requirement).unwrap();
    assert_eq!((counts.nodes, counts.thresholds), (2, 2));
    assert_eq!(inner_part(&requirement, 0), Some(&first[..]));
    assert_eq!(inner_part(&requirement, 1), Some(&second[..]));
    assert_eq!(inner_part(&requirement, 2), None);
    assert_eq!(inner_part(&requirement, u64::MAX), None);
    assert_eq!(inner_part(&requirement[1..], 0), None);
}

/// Places behind the last node keep their contents, and a no writes nothing.
#[test]
fn lent_maps() {
    let mut map = [7; 4];
    assert_eq!(degree_into(&R1, &Q1, 1, &mut map), Ok((1, 3, 2)));
    assert_eq!(map, [1, 65_535, 7, 7]);
    let mut map = [7; 4];
    assert_eq!(member_into(&R1, &Q1, 0, &mut map), Ok(None));
    assert_eq!(map, [7; 4]);
    let met = message(node(&[1], &[(1, node(&[2], &[]))]));
    assert_eq!(member_into(&R1, &met, 0, &mut map), Ok(Some(2)));
    assert_eq!(map, [0, 2, 7, 7]);
}
