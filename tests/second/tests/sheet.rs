//! Every row of the "Sheet of examples" in document 01, starred or not, and
//! the slips of "Slips that look right".

use second::degree::{degree, margin};
use second::gen::edges::{Q1, R1};
use second::listing::listing;
use second::member::member;
use second::register::{self, Register};
use second::requirement::{self, Comparison, Node, Threshold};
use second::session::{self, Fact, Step};
use second::Refusal;

/// A set of names.
fn set(names: &[u32]) -> u64 {
    names.iter().map(|name| 1u64 << name).sum()
}

fn node(names: &[u32], children: Vec<(u8, Node)>) -> Node {
    Node {
        names: set(names),
        thresholds: Vec::new(),
        children,
    }
}

fn leaf(names: &[u32]) -> Node {
    node(names, Vec::new())
}

fn image(names: &[&[u32]], links: &[(u16, u8, u16)]) -> Vec<u8> {
    let names = names.iter().map(|names| set(names)).collect();
    register::encode(&Register {
        names,
        links: links.to_vec(),
    })
}

/// Degree and map of an item, with just as much room as the map needs.
fn answer(register: &[u8], root: &Node, item: u64) -> (u64, u64, Vec<u16>) {
    let room = requirement::written(root).len();
    degree(register, &requirement::encode(root), item, room).expect("a good degree call")
}

fn q1() -> Node {
    node(&[1, 2], vec![(0, leaf(&[1]))])
}

/// A root that asks Q1 against p/q and nothing else.
fn q1_against(comparison: Comparison, p: u16, q: u16) -> Vec<u8> {
    let threshold = Threshold {
        comparison,
        p,
        q,
        inner: q1(),
        start: 0,
        len: 0,
    };
    requirement::encode(&Node {
        names: 0,
        thresholds: vec![threshold],
        children: Vec::new(),
    })
}

#[test]
fn r1_and_q1_are_the_bytes_of_the_sheet() {
    assert_eq!(R1.len(), 41);
    assert_eq!(Q1.len(), 24);
    assert_eq!(image(&[&[1, 3], &[1], &[2]], &[(0, 0, 1), (0, 1, 2)]), R1);
    assert_eq!(requirement::encode(&q1()), Q1);
}

#[test]
fn q1_on_r1() {
    assert_eq!(degree(&R1, &Q1, 0, 2), Ok((2, 3, vec![0, 1])));
    assert_eq!(degree(&R1, &Q1, 1, 2), Ok((1, 3, vec![1, 65_535])));
    assert_eq!(degree(&R1, &Q1, 2, 2), Ok((1, 3, vec![2, 65_535])));
}

#[test]
fn no_names_and_no_children() {
    for item in 0..3 {
        assert_eq!(answer(&R1, &leaf(&[]), item), (1, 1, vec![item as u16]));
    }
}

#[test]
fn a_child_that_another_is_subsumed_by_is_dropped() {
    let root = node(&[], vec![(0, leaf(&[1])), (0, leaf(&[1, 2]))]);
    assert_eq!(answer(&R1, &root, 0), (1, 2, vec![0, 65_534, 1]));
}

#[test]
fn of_two_equal_children_the_second_is_dropped() {
    let root = node(&[], vec![(0, leaf(&[1])), (0, leaf(&[1]))]);
    assert_eq!(answer(&R1, &root, 0), (1, 1, vec![0, 1, 65_534]));
}

#[test]
fn two_children_may_go_to_one_successor() {
    let register = image(&[&[], &[1, 2]], &[(0, 0, 1)]);
    let root = node(&[], vec![(0, leaf(&[1])), (0, leaf(&[2]))]);
    assert_eq!(answer(&register, &root, 0), (1, 1, vec![0, 1, 1]));
}

#[test]
fn the_successor_is_not_chosen_by_its_names_alone() {
    let register = image(
        &[&[], &[1], &[], &[2], &[3]],
        &[(0, 0, 1), (0, 0, 2), (2, 1, 3), (2, 1, 4)],
    );
    let child = node(&[1], vec![(1, leaf(&[2])), (1, leaf(&[3]))]);
    let root = node(&[], vec![(0, child)]);
    assert_eq!(answer(&register, &root, 0), (2, 3, vec![0, 2, 3, 4]));
}

#[test]
fn one_item_linked_to_itself() {
    let register = image(&[&[]], &[(0, 0, 0)]);
    let asked = node(&[], vec![(0, node(&[], vec![(0, leaf(&[1]))]))]);
    assert_eq!(answer(&register, &asked, 0), (0, 1, vec![0, 0, 0]));
    let without = node(&[], vec![(0, node(&[], vec![(0, leaf(&[]))]))]);
    assert_eq!(answer(&register, &without, 0), (1, 1, vec![0, 0, 0]));
}

#[test]
fn q1_against_two_thirds() {
    let yes = Ok(Some(vec![0]));
    let no = Ok(None);
    assert_eq!(
        member(&R1, &q1_against(Comparison::AtLeast, 2, 3), 0, 1),
        yes
    );
    assert_eq!(
        member(&R1, &q1_against(Comparison::AtMost, 2, 3), 0, 1),
        yes
    );
    assert_eq!(member(&R1, &q1_against(Comparison::Above, 2, 3), 0, 1), no);
    assert_eq!(member(&R1, &q1_against(Comparison::Below, 2, 3), 0, 1), no);
}

#[test]
fn q1_margins() {
    assert_eq!(margin(&R1, &Q1, 0, 3, 4), Ok((-1, 12)));
    assert_eq!(margin(&R1, &Q1, 0, 2, 3), Ok((0, 9)));
    assert_eq!(margin(&R1, &Q1, 0, 1, 2), Ok((1, 6)));
}

#[test]
fn of_equal_successors_the_lowest_is_shown() {
    let register = image(&[&[], &[], &[1], &[], &[1]], &[(0, 0, 2), (0, 0, 4)]);
    let root = node(&[], vec![(0, leaf(&[1]))]);
    assert_eq!(answer(&register, &root, 0), (1, 1, vec![0, 2]));
    assert_eq!(
        member(&register, &requirement::encode(&root), 0, 2),
        Ok(Some(vec![0, 2]))
    );
}

#[test]
fn sizes_of_sixty_and_sixty_one() {
    let names = |count: u32| -> Vec<u32> { (0..count).collect() };
    let too_large = Err(Refusal::requirement(14, 3));
    let sixty = requirement::encode(&leaf(&names(60)));
    assert_eq!(degree(&R1, &sixty, 0, 1), Ok((1, 30, vec![0])));
    let sixty_one = requirement::encode(&leaf(&names(61)));
    assert_eq!(degree(&R1, &sixty_one, 0, 1), too_large);
    let twice = node(&names(58), vec![(0, leaf(&[1])), (0, leaf(&[1]))]);
    // Names 1 and 3 are held, and the one kept child goes to item 1: 3 of 59.
    assert_eq!(answer(&R1, &twice, 0), (3, 59, vec![0, 1, 65_534]));
}

#[test]
fn add_a_link_that_stands_then_undo() {
    let mut buffer = R1.to_vec();
    buffer.extend_from_slice(&[0; 10]);
    let before = buffer.clone();
    let mut log = [Step::UNUSED; 4];
    let fact = Fact::Link {
        from: 0,
        role: 1,
        to: 2,
    };
    let count = session::open(&mut buffer).unwrap();
    let count = session::edit(&mut buffer, &mut log, count, fact, true).unwrap();
    assert_eq!(
        (count, log[0]),
        (
            1,
            Step {
                fact,
                was_there: true
            }
        )
    );
    assert_eq!(buffer, before);
    assert_eq!(session::undo(&mut buffer, &log, count), Ok(0));
    assert_eq!(buffer, before);
}

#[test]
fn no_bytes() {
    assert_eq!(register::read_whole(&[]), Err(Refusal::register(1, 0)));
    assert_eq!(register::read_session(&[]), Err(Refusal::register(1, 0)));
    assert_eq!(requirement::read(&[]), Err(Refusal::requirement(1, 0)));
}

#[test]
fn the_listing_of_r1_and_q1() {
    let input = [&R1[..], &Q1[..]].concat();
    let printed = "item degree map\n0 2/3 0,1\n1 1/3 1,-\n2 1/3 2,-\n";
    assert_eq!(String::from_utf8(listing(&input)).unwrap(), printed);
}

#[test]
fn a_rounded_decimal_would_pass() {
    assert_eq!(
        member(&R1, &q1_against(Comparison::AtLeast, 67, 100), 0, 1),
        Ok(None)
    );
    assert_eq!(
        member(&R1, &q1_against(Comparison::Below, 67, 100), 0, 1),
        Ok(Some(vec![0]))
    );
}

#[test]
fn an_empty_child_counts_one() {
    let root = node(&[5], vec![(0, leaf(&[]))]);
    assert_eq!(answer(&R1, &root, 0), (1, 2, vec![0, 1]));
    assert_eq!(answer(&R1, &root, 1), (0, 1, vec![1, 65_535]));
}

#[test]
fn an_undo_does_not_always_reverse_the_edit() {
    // Taking away a fact that is not there changes nothing, and so does undo.
    let mut buffer = R1.to_vec();
    let mut log = [Step::UNUSED; 2];
    let fact = Fact::Name { item: 1, name: 7 };
    let count = session::edit(&mut buffer, &mut log, 0, fact, false).unwrap();
    assert_eq!(session::undo(&mut buffer, &log, count), Ok(0));
    assert_eq!(buffer, R1);
}
