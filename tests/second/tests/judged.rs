//! The graph that is judged (§5 of document 02): by hand, and against registers
//! out of which the withdrawn items were taken.

use second::degree::{degree, margin, DROPPED, UNMAPPED};
use second::gen::edges::{Q1, R1};
use second::gen::{any_pair, renumbered, small_pair, taken_out, Rng};
use second::judged::{Judged, WITHDRAWN};
use second::list::list;
use second::listing::listing;
use second::member::member;
use second::register::{self, Link, Register};
use second::requirement::{self, Comparison, Node, Threshold};
use second::session::{self, Fact, Step};
use second::Refusal;

/// Withdrawn, beside other names.
const OUT: u64 = 1 << WITHDRAWN;
const A: u64 = 1;
const B: u64 = 2;

fn register(names: &[u64], links: &[Link]) -> Vec<u8> {
    register::encode(&Register {
        names: names.to_vec(),
        links: links.to_vec(),
    })
}

/// A node with its children under role 0.
fn node(names: u64, children: Vec<Node>) -> Node {
    Node {
        children: children.into_iter().map(|child| (0, child)).collect(),
        ..Node::leaf(names)
    }
}

fn asked(root: &Node) -> Vec<u8> {
    requirement::encode(root)
}

/// At least p/q of a concept.
fn at_least(p: u16, q: u16, inner: Node) -> Node {
    let threshold = Threshold {
        comparison: Comparison::AtLeast,
        p,
        q,
        inner,
        start: 0,
        len: 0,
    };
    Node {
        thresholds: vec![threshold],
        ..Node::leaf(0)
    }
}

fn printed(register: &[u8], requirement: &[u8]) -> String {
    let text = listing(&[register, requirement].concat());
    String::from_utf8(text).expect("plain text")
}

#[test]
fn a_withdrawn_item_is_refused_with_26() {
    let image = register(&[A, A | OUT], &[]);
    let root = asked(&Node::leaf(A));
    assert_eq!(degree(&image, &root, 0, 1), Ok((1, 1, vec![0])));
    assert_eq!(degree(&image, &root, 1, 1), Err(Refusal::call(26)));
    assert_eq!(margin(&image, &root, 1, 1, 2), Err(Refusal::call(26)));
    assert_eq!(member(&image, &root, 0, 1), Ok(Some(vec![0])));
    assert_eq!(member(&image, &root, 1, 1), Err(Refusal::call(26)));
}

/// Register, requirement, 11, 14, 15, 26; then 16, or 23, 24 and 25.
#[test]
fn the_place_of_26() {
    let image = register(&[OUT], &[]);
    let root = asked(&Node::leaf(A));
    for item in [1, 512, 65_536, 1 << 32, u64::MAX] {
        assert_eq!(degree(&image, &root, item, 0), Err(Refusal::call(15)));
        assert_eq!(margin(&image, &root, item, 2, 0), Err(Refusal::call(15)));
        assert_eq!(member(&image, &root, item, 0), Err(Refusal::call(15)));
    }
    assert_eq!(degree(&image, &root, 0, 0), Err(Refusal::call(26)));
    assert_eq!(member(&image, &root, 0, 0), Err(Refusal::call(26)));
    for (p, q) in [(1, 0), (1, 1001), (2, 1), (2, 4)] {
        assert_eq!(margin(&image, &root, 0, p, q), Err(Refusal::call(26)));
    }
    let judging = asked(&at_least(1, 2, Node::leaf(A)));
    let too_large = asked(&Node::leaf(u64::MAX));
    let eleven = Err(Refusal::requirement(11, 13));
    assert_eq!(degree(&image, &judging, 0, 0), eleven);
    let fourteen = Err(Refusal::requirement(14, 3));
    assert_eq!(margin(&image, &too_large, 0, 2, 4), fourteen);
    assert_eq!(member(&image, &too_large, 0, 1), Err(Refusal::call(26)));
    assert_eq!(degree(&[], &root, 0, 0), Err(Refusal::register(1, 0)));
}

/// No call but the three gives 26: a list has no asked item, and a session keeps
/// all facts.
#[test]
fn no_other_call_gives_26() {
    let root = asked(&Node::leaf(0));
    let mut buffer = register(&[OUT, OUT], &[(0, 0, 1)]);
    let whole = buffer.clone();
    buffer.extend([0; 5]);
    assert!(list(&whole, &root, 2).is_ok());
    assert_eq!(list(&whole, &root, 1).err(), Some(Refusal::call(16)));
    let mut log = [Step::UNUSED; 4];
    assert_eq!(session::open(&mut buffer), Ok(0));
    let link = Fact::Link {
        from: 1,
        role: 0,
        to: 0,
    };
    let back = Fact::Name { item: 0, name: 63 };
    let name = Fact::Name { item: 1, name: 0 };
    assert_eq!(session::edit(&mut buffer, &mut log, 0, link, true), Ok(1));
    assert_eq!(session::edit(&mut buffer, &mut log, 1, back, false), Ok(2));
    assert_eq!(session::edit(&mut buffer, &mut log, 2, name, true), Ok(3));
    for count in [3, 2, 1] {
        assert_eq!(session::undo(&mut buffer, &log, count), Ok(count - 1));
    }
    assert_eq!(session::keep(&buffer, &log, 0), Ok(0));
    assert_eq!(buffer[..whole.len()], whole);
}

/// From 0 to 1 to 2, the middle one withdrawn: what it holds and where it leads
/// does not count.
#[test]
fn no_way_goes_through_a_withdrawn_item() {
    let image = register(&[A, A | OUT, A], &[(0, 0, 1), (1, 0, 2)]);
    let chain = asked(&node(A, vec![node(A, vec![Node::leaf(A)])]));
    assert_eq!(
        degree(&image, &chain, 0, 3),
        Ok((1, 2, vec![0, UNMAPPED, UNMAPPED]))
    );
    assert_eq!(degree(&image, &chain, 1, 3), Err(Refusal::call(26)));
    assert_eq!(member(&image, &chain, 0, 3), Ok(None));
    assert_eq!(margin(&image, &chain, 0, 1, 2), Ok((0, 4)));
}

/// A link to what is withdrawn is none, though an empty child asks no more than
/// that there is one.
#[test]
fn the_only_successor_is_withdrawn() {
    let image = register(&[0, OUT], &[(0, 0, 1)]);
    let any = asked(&node(0, vec![Node::leaf(0)]));
    assert_eq!(degree(&image, &any, 0, 2), Ok((0, 1, vec![0, UNMAPPED])));
    assert_eq!(member(&image, &any, 0, 2), Ok(None));
}

/// The greatest degree is 0, and the first successor withdrawn: the map shows
/// the next one.
#[test]
fn the_first_successor_is_withdrawn() {
    let image = register(&[0, A | OUT, 0, 0], &[(0, 0, 1), (0, 0, 2), (0, 0, 3)]);
    let holder = asked(&node(0, vec![Node::leaf(A)]));
    assert_eq!(degree(&image, &holder, 0, 2), Ok((0, 1, vec![0, 2])));
    let any = asked(&node(0, vec![Node::leaf(0)]));
    assert_eq!(degree(&image, &any, 0, 2), Ok((1, 1, vec![0, 2])));
    assert_eq!(member(&image, &any, 0, 2), Ok(Some(vec![0, 2])));
}

/// The best successor is withdrawn: the next best counts.
#[test]
fn the_best_successor_is_withdrawn() {
    let image = register(&[0, A, A | B | OUT, B], &[(0, 0, 1), (0, 0, 2), (0, 0, 3)]);
    let both = asked(&node(0, vec![Node::leaf(A | B)]));
    assert_eq!(degree(&image, &both, 0, 2), Ok((1, 2, vec![0, 1])));
    assert_eq!(member(&image, &both, 0, 2), Ok(None));
}

#[test]
fn linked_to_itself() {
    let links = [(0, 0, 0), (0, 0, 1), (1, 0, 1)];
    let image = register(&[A, A | OUT], &links);
    let twice = asked(&node(A, vec![node(A, vec![])]));
    assert_eq!(degree(&image, &twice, 0, 2), Ok((1, 1, vec![0, 0])));
    assert_eq!(degree(&image, &twice, 1, 2), Err(Refusal::call(26)));
}

/// Thresholds judge the same graph.
#[test]
fn inner_degrees_are_over_the_same_graph() {
    let image = register(&[A, A | OUT, B], &[(0, 0, 1), (0, 0, 2)]);
    let inner = node(A, vec![Node::leaf(A)]);
    let half = asked(&at_least(1, 2, inner.clone()));
    assert_eq!(member(&image, &half, 0, 1), Ok(Some(vec![0])));
    let more = asked(&at_least(2, 3, inner));
    assert_eq!(member(&image, &more, 0, 1), Ok(None));
}

/// Name 63 counts in n, and no item that is judged holds it. Reduction takes it
/// as any other name.
#[test]
fn a_requirement_that_names_63() {
    let image = register(&[A, A | OUT], &[(0, 0, 0), (0, 0, 1)]);
    let both = asked(&Node::leaf(A | OUT));
    assert_eq!(degree(&image, &both, 0, 1), Ok((1, 2, vec![0])));
    assert_eq!(member(&image, &both, 0, 1), Ok(None));
    let alone = asked(&node(0, vec![Node::leaf(OUT)]));
    assert_eq!(degree(&image, &alone, 0, 2), Ok((0, 1, vec![0, 0])));
    let lesser = asked(&node(0, vec![Node::leaf(A), Node::leaf(A | OUT)]));
    let map = vec![0, DROPPED, 0];
    assert_eq!(degree(&image, &lesser, 0, 3), Ok((1, 2, map)));
}

#[test]
fn the_list_has_0_at_a_withdrawn_item() {
    let image = register(&[A, A | OUT, 0], &[(0, 0, 1), (1, 0, 0), (2, 0, 0)]);
    let empty = list(&image, &asked(&Node::leaf(0)), 3).unwrap();
    assert_eq!((empty.scale, empty.table), (1, vec![1, 0, 1]));
    let root = asked(&node(A, vec![Node::leaf(0), Node::leaf(A)]));
    let rows = list(&image, &root, 9).unwrap();
    // The empty child says less than its sibling and is dropped.
    let wanted = [1, 0, 1, 0, 0, 0, 1, 0, 0];
    assert_eq!((rows.scale, rows.table), (2, wanted.to_vec()));
    let all = register(&[OUT, A | OUT], &[(0, 0, 1)]);
    let none = list(&all, &asked(&node(0, vec![Node::leaf(0)])), 4).unwrap();
    assert_eq!((none.items, none.nodes, none.scale), (2, 2, 1));
    assert_eq!(none.table, [0; 4]);
}

#[test]
fn the_lines_of_withdrawn_items() {
    let image = register(&[A, A | OUT, 0], &[(0, 0, 1), (2, 0, 0)]);
    let plain = asked(&node(A, vec![Node::leaf(0)]));
    let degrees = "item degree map\n0 1/2 0,-\n1 withdrawn -\n2 1/2 2,0\n";
    assert_eq!(printed(&image, &plain), degrees);
    let judging = asked(&at_least(1, 2, Node::leaf(A)));
    let members = "item member map\n0 yes 0\n1 withdrawn -\n2 no -\n";
    assert_eq!(printed(&image, &judging), members);
    let all = register(&[OUT, A | OUT], &[]);
    let lines = "0 withdrawn -\n1 withdrawn -\n";
    let none = printed(&all, &plain);
    assert_eq!(none, format!("item degree map\n{lines}"));
    let none = printed(&all, &judging);
    assert_eq!(none, format!("item member map\n{lines}"));
    // What is refused is refused as before.
    let large = asked(&Node::leaf(u64::MAX));
    assert_eq!(printed(&all, &large), "requirement refused 14 at 3\n");
}

/// R1 with its second item withdrawn and brought back, asked in between.
#[test]
fn withdrawn_and_brought_back_in_a_session() {
    let mut buffer = R1.to_vec();
    let mut log = [Step::UNUSED; 2];
    let out = Fact::Name { item: 1, name: 63 };
    let before = degree(&buffer, &Q1, 0, 2);
    assert_eq!(before, Ok((2, 3, vec![0, 1])));
    assert_eq!(session::open(&mut buffer), Ok(0));
    assert_eq!(session::edit(&mut buffer, &mut log, 0, out, true), Ok(1));
    assert_eq!(degree(&buffer, &Q1, 0, 2), Ok((1, 3, vec![0, UNMAPPED])));
    assert_eq!(degree(&buffer, &Q1, 1, 2), Err(Refusal::call(26)));
    assert_eq!(degree(&buffer, &Q1, 2, 2), degree(&R1, &Q1, 2, 2));
    assert_eq!(session::undo(&mut buffer, &log, 1), Ok(0));
    assert_eq!(buffer, R1);
    assert_eq!(degree(&buffer, &Q1, 0, 2), before);
}

/// Every answer is that of the register out of which they were taken.
#[test]
fn as_if_they_were_not_there() {
    let mut rng = Rng::new(61);
    let (mut some_out, mut all_out, mut good) = (0, 0, 0);
    for round in 0..6000 {
        let (whole, root) = match round % 8 {
            0 => any_pair(&mut rng),
            _ => small_pair(&mut rng),
        };
        let (image, message) = (register::encode(&whole), requirement::encode(&root));
        let Some((less, old)) = taken_out(&whole) else {
            all_out += 1;
            continue;
        };
        some_out += usize::from(old.len() < whole.items());
        let judged = Judged::of(&whole);
        assert_eq!(judged.each().collect::<Vec<u16>>(), old);
        let less = register::encode(&less);
        for _ in 0..2 {
            let new = rng.index(old.len());
            let (one, other) = (u64::from(old[new]), new as u64);
            let of_less = degree(&less, &message, other, 64);
            let wanted = of_less.map(|(num, den, map)| (num, den, renumbered(&map, &old)));
            good += usize::from(wanted.is_ok());
            assert_eq!(degree(&image, &message, one, 64), wanted);
            assert_eq!(
                margin(&image, &message, one, 2, 3),
                margin(&less, &message, other, 2, 3)
            );
            let of_less = member(&less, &message, other, 64);
            let wanted = of_less.map(|map| map.map(|map| renumbered(&map, &old)));
            assert_eq!(member(&image, &message, one, 64), wanted);
        }
        if let Ok(short) = list(&less, &message, usize::MAX) {
            let long = list(&image, &message, usize::MAX).expect("good as well");
            for (place, number) in long.table.iter().enumerate() {
                let (row, item) = (place / whole.items(), (place % whole.items()) as u16);
                let new = old.iter().position(|other| *other == item);
                let wanted = new.map_or(0, |new| short.table[row * old.len() + new]);
                assert_eq!(*number, wanted);
            }
        }
    }
    assert!(some_out > 1000 && all_out > 200, "{some_out}, {all_out}");
    assert!(good > 2000, "{good}");
}
