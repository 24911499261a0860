//! Each refusal number at its place, and the order in which they are tested.
//! The expectations are worked out by hand from documents 01 and 02.

use second::degree::{degree, margin};
use second::gen::edges::{Q1, R1};
use second::gen::{call_fractions, concept_edges, register_edges, requirement_edges};
use second::member::member;
use second::register::{encode, read_session, read_whole, Register};
use second::requirement::{self, inner_part, Comparison, Node, Threshold};
use second::session::{self, Fact, Step};
use second::writing::write;
use second::Refusal;

#[test]
fn registers_at_each_edge() {
    let mut numbers = std::collections::BTreeSet::new();
    for edge in register_edges() {
        let expected = edge
            .refusal
            .map(|(number, place)| Refusal::register(number, place));
        assert_eq!(read_whole(&edge.bytes).err(), expected, "{}", edge.label);
        numbers.extend(edge.refusal.map(|(number, _)| number));
    }
    assert_eq!(Vec::from_iter(numbers), [1, 2, 3, 4, 5, 6, 7, 8]);
}

#[test]
fn registers_at_each_edge_in_a_session() {
    // With bytes behind, a session says the same of every image but for
    // number 3, which stands only where the length is more than what follows.
    for edge in register_edges() {
        if matches!(edge.refusal, Some((1, 0) | (3, _))) {
            continue;
        }
        let expected = edge
            .refusal
            .map(|(number, place)| Refusal::register(number, place));
        let mut buffer = edge.bytes.clone();
        buffer.extend_from_slice(&[0xEE; 9]);
        assert_eq!(read_session(&buffer).err(), expected, "{}", edge.label);
    }
    let mut long = R1.to_vec();
    long.push(9);
    assert_eq!(read_session(&long), read_whole(&R1));
    assert_eq!(read_session(&R1[..40]), Err(Refusal::register(3, 1)));
    // A length too short for its own fields is a field past its end.
    let mut short = R1.to_vec();
    short[2] -= 1;
    assert_eq!(read_session(&short), Err(Refusal::register(1, 39)));
    assert_eq!(read_session(&[1, 0]), Err(Refusal::register(1, 0)));
    assert_eq!(read_session(&[1, 0, 0, 0, 1]), Err(Refusal::register(1, 3)));
}

#[test]
fn requirements_at_each_edge() {
    let mut numbers = std::collections::BTreeSet::new();
    for edge in requirement_edges() {
        let expected = edge
            .refusal
            .map(|(number, place)| Refusal::requirement(number, place));
        assert_eq!(
            requirement::read(&edge.bytes).err(),
            expected,
            "{}",
            edge.label
        );
        assert_eq!(
            member(&R1, &edge.bytes, 0, 64).err(),
            expected,
            "{}",
            edge.label
        );
        numbers.extend(edge.refusal.map(|(number, _)| number));
    }
    assert_eq!(
        Vec::from_iter(numbers),
        [1, 2, 3, 7, 8, 9, 10, 11, 12, 13, 14, 23, 24, 25]
    );
}

#[test]
fn the_longest_message_has_12066_bytes() {
    let longest = requirement_edges()
        .into_iter()
        .map(|edge| (edge.refusal, edge.bytes.len()));
    assert_eq!(
        longest
            .filter(|(refusal, _)| refusal.is_none())
            .map(|(_, len)| len)
            .max(),
        Some(12_066)
    );
}

#[test]
fn concepts_at_each_edge() {
    for edge in concept_edges() {
        let expected = edge
            .refusal
            .map(|(number, place)| Refusal::requirement(number, place));
        assert_eq!(
            degree(&R1, &edge.bytes, 0, 64).err(),
            expected,
            "{}",
            edge.label
        );
        assert_eq!(
            margin(&R1, &edge.bytes, 0, 1, 2).err(),
            expected,
            "{}",
            edge.label
        );
        // 11 and 14 of the requirement come before everything of the call.
        let call_bad = degree(&R1, &edge.bytes, 3, 0).err();
        assert_eq!(
            call_bad,
            expected.or(Some(Refusal::call(15))),
            "{}",
            edge.label
        );
    }
}

#[test]
fn the_order_of_a_degree() {
    let bad_register = Err(Refusal::register(2, 0));
    assert_eq!(degree(&[0; 3], &[], 9, 0), bad_register);
    assert_eq!(degree(&R1, &[], 9, 0), Err(Refusal::requirement(1, 0)));
    assert_eq!(degree(&R1, &Q1, 3, 0), Err(Refusal::call(15)));
    assert_eq!(degree(&R1, &Q1, 65_536, 9), Err(Refusal::call(15)));
    assert_eq!(degree(&R1, &Q1, 1 << 32, 9), Err(Refusal::call(15)));
    assert_eq!(degree(&R1, &Q1, u64::MAX, 9), Err(Refusal::call(15)));
    assert_eq!(degree(&R1, &Q1, 2, 1), Err(Refusal::call(16)));
    assert_eq!(degree(&R1, &Q1, 2, 2), degree(&R1, &Q1, 2, 64));
}

#[test]
fn the_order_of_a_margin() {
    assert_eq!(margin(&[0; 3], &[], 9, 0, 0), Err(Refusal::register(2, 0)));
    assert_eq!(margin(&R1, &[], 9, 0, 0), Err(Refusal::requirement(1, 0)));
    assert_eq!(margin(&R1, &Q1, 3, 0, 0), Err(Refusal::call(15)));
    for (p, q, number) in call_fractions() {
        let refusal = number.map(Refusal::call);
        assert_eq!(margin(&R1, &Q1, 0, p, q).err(), refusal, "{p}/{q}");
        assert_eq!(margin(&R1, &Q1, 3, p, q), Err(Refusal::call(15)));
        assert_eq!(
            margin(&R1, &[], 0, p, q),
            Err(Refusal::requirement(1, 0)),
            "{p}/{q}"
        );
    }
    assert_eq!(margin(&R1, &Q1, 0, 0, 1), Ok((2, 3)));
    assert_eq!(margin(&R1, &Q1, 0, 1, 1), Ok((-1, 3)));
    assert_eq!(margin(&R1, &Q1, 0, 999, 1000), Ok((2000 - 2997, 3000)));
    assert_eq!(margin(&R1, &Q1, 0, 1, 1000), Ok((1997, 3000)));
}

/// A list of one node without names.
const ONE_NODE: [u64; 3] = [0; 3];

/// Writes one threshold on one node, into so many bytes, and says what refuses
/// it.
fn try_threshold(how: u64, p: u64, q: u64, inner: &[u64], room: usize) -> Option<Refusal> {
    let threshold = [0, how, p, q, inner.len() as u64 / 3];
    write(&ONE_NODE, &threshold, inner, room).err()
}

#[test]
fn the_order_of_a_written_threshold() {
    // Inner lists: one that is no tree, and two that reading would refuse.
    let no_tree = [0, 1, 0];
    let bad_role = [0, 0, 0, 0, 1, 32];
    let too_large = [u64::MAX, 0, 0];
    for (p, q, number) in call_fractions() {
        let refused = |other: u32| Some(Refusal::call(number.unwrap_or(other)));
        assert_eq!(
            try_threshold(3, p, q, &ONE_NODE, 30),
            number.map(Refusal::call),
            "{p}/{q}"
        );
        assert_eq!(try_threshold(3, p, q, &ONE_NODE, 29), refused(21));
        assert_eq!(try_threshold(3, p, q, &bad_role, 99), refused(7));
        assert_eq!(try_threshold(3, p, q, &too_large, 99), refused(14));
        // The lists come before all else, the comparison before the fraction.
        let before = [
            try_threshold(3, p, q, &[], 99),
            try_threshold(3, p, q, &no_tree, 99),
        ];
        assert_eq!(before, [Some(Refusal::call(22)); 2]);
        for how in [4, 256, 1 << 32, u64::MAX] {
            let refusal = try_threshold(how, p, q, &ONE_NODE, 99);
            assert_eq!(refusal, Some(Refusal::call(13)));
        }
        // A 17th threshold is one too many, whatever its fraction.
        for (before, late) in [(15, number), (16, Some(12))] {
            let halves = [0, 3, 1, 2, 1].repeat(before);
            let thresholds = [&halves[..], &[0, 3, p, q, 1]].concat();
            let inner = ONE_NODE.repeat(before + 1);
            let refusal = write(&ONE_NODE, &thresholds, &inner, 999).err();
            assert_eq!(refusal, late.map(Refusal::call), "{p}/{q}");
        }
    }
}

#[test]
fn the_order_of_a_yes_or_no() {
    assert_eq!(member(&[0; 3], &[], 9, 0), Err(Refusal::register(2, 0)));
    assert_eq!(member(&R1, &[], 9, 0), Err(Refusal::requirement(1, 0)));
    assert_eq!(member(&R1, &Q1, 3, 0), Err(Refusal::call(15)));
    // 16 also where the answer would be no, as it is for every item here.
    for item in 0..3 {
        assert_eq!(member(&R1, &Q1, item, 1), Err(Refusal::call(16)));
        assert_eq!(member(&R1, &Q1, item, 2), Ok(None));
    }
    // No 14 for the outer tree, whatever its size.
    let large = requirement::encode(&Node::leaf(u64::MAX >> 1));
    assert_eq!(member(&R1, &large, 0, 1), Ok(None));
    let all = encode(&Register {
        names: vec![u64::MAX >> 1],
        links: vec![],
    });
    assert_eq!(member(&all, &large, 0, 1), Ok(Some(vec![0])));
}

#[test]
fn inner_parts() {
    let threshold = |inner: Node| Threshold {
        comparison: Comparison::Below,
        p: 1,
        q: 2,
        inner,
        start: 0,
        len: 0,
    };
    let mut with_child = Node::leaf(1);
    with_child.children.push((4, Node::leaf(2)));
    let root = Node {
        names: 0,
        thresholds: vec![threshold(Node::leaf(8))],
        children: vec![(
            0,
            Node {
                names: 0,
                thresholds: vec![threshold(with_child.clone())],
                children: vec![],
            },
        )],
    };
    let message = requirement::encode(&root);
    assert_eq!(inner_part(&message, 0), Some((20, 10)));
    // Behind the first threshold at 30: the role, the child's 10, 7 more.
    assert_eq!(inner_part(&message, 1), Some((48, 21)));
    let mut bytes = Vec::new();
    requirement::put_node(&with_child, &mut bytes);
    assert_eq!(&message[48..48 + 21], &bytes[..]);
    for k in [2, 3, 255, 256, 1 << 32, u64::MAX] {
        assert_eq!(inner_part(&message, k), None);
    }
    assert_eq!(inner_part(&Q1, 0), None);
    assert_eq!(inner_part(&message[..message.len() - 1], 0), None);
    // A message that is bad only behind the asked part is bad all the same.
    let mut late = message.clone();
    late[30] = 32;
    assert_eq!(inner_part(&late, 0), None);
}

fn link(from: u64, role: u64, to: u64) -> Fact {
    Fact::Link { from, role, to }
}

fn name(item: u64, name: u64) -> Fact {
    Fact::Name { item, name }
}

/// An edit on R1 with so many bytes behind, a log of so many records, a count.
fn try_edit(room: usize, log: usize, count: u64, fact: Fact, there: bool) -> Result<u64, Refusal> {
    let mut buffer = R1.to_vec();
    buffer.extend(vec![0xEE; room]);
    let mut log = vec![Step::UNUSED; log];
    let before = (buffer.clone(), log.clone());
    let answer = session::edit(&mut buffer, &mut log, count, fact, there);
    if answer.is_err() {
        assert_eq!((buffer, log), before, "a refusal changes nothing");
    }
    answer
}

#[test]
fn the_order_of_an_edit() {
    let new = link(2, 3, 2);
    let mut nothing: Vec<Step> = vec![];
    let refused = session::edit(&mut [1, 0, 9], &mut nothing, 9, link(9, 99, 9), true);
    assert_eq!(refused, Err(Refusal::register(3, 1)));
    // 17 before 15, 7, 18 and 20.
    assert_eq!(
        try_edit(0, 2, 3, link(9, 99, 9), true),
        Err(Refusal::call(17))
    );
    assert_eq!(try_edit(9, 65, 65, new, true), Err(Refusal::call(17)));
    assert_eq!(try_edit(9, 64, 65, new, true), Err(Refusal::call(17)));
    assert_eq!(try_edit(9, 9, u64::MAX, new, true), Err(Refusal::call(17)));
    assert_eq!(try_edit(9, 9, 1 << 32, new, true), Err(Refusal::call(17)));
    // 15 before 7, 18 and 20.
    assert_eq!(
        try_edit(0, 2, 2, link(3, 32, 0), true),
        Err(Refusal::call(15))
    );
    assert_eq!(
        try_edit(0, 2, 2, link(0, 32, 3), true),
        Err(Refusal::call(15))
    );
    assert_eq!(
        try_edit(0, 2, 2, link(65_536, 0, 0), true),
        Err(Refusal::call(15))
    );
    assert_eq!(
        try_edit(0, 2, 2, link(0, 0, 1 << 32), true),
        Err(Refusal::call(15))
    );
    assert_eq!(try_edit(0, 2, 2, name(3, 0), true), Err(Refusal::call(15)));
    assert_eq!(try_edit(0, 2, 2, name(0, 64), true), Err(Refusal::call(15)));
    assert_eq!(
        try_edit(0, 2, 2, name(0, 256), false),
        Err(Refusal::call(15))
    );
    assert_eq!(
        try_edit(0, 2, 2, name(u64::MAX, u64::MAX), false),
        Err(Refusal::call(15))
    );
    // 7 before 18 and 20.
    assert_eq!(
        try_edit(0, 2, 2, link(2, 32, 2), true),
        Err(Refusal::call(7))
    );
    assert_eq!(
        try_edit(9, 2, 0, link(2, 256, 2), false),
        Err(Refusal::call(7))
    );
    // 18 before 20, and also for an edit that would change nothing.
    assert_eq!(try_edit(0, 2, 2, new, true), Err(Refusal::call(18)));
    assert_eq!(try_edit(0, 0, 0, new, true), Err(Refusal::call(18)));
    assert_eq!(
        try_edit(9, 64, 64, name(0, 1), true),
        Err(Refusal::call(18))
    );
    assert_eq!(
        try_edit(9, 99, 64, name(0, 1), true),
        Err(Refusal::call(18))
    );
    assert_eq!(try_edit(9, 99, 63, name(0, 1), true), Ok(64));
    // 20 just below 5 bytes, and only where a link is to be added anew.
    assert_eq!(try_edit(4, 2, 1, new, true), Err(Refusal::call(20)));
    assert_eq!(try_edit(5, 2, 1, new, true), Ok(2));
    assert_eq!(try_edit(0, 2, 1, new, false), Ok(2));
    assert_eq!(try_edit(0, 2, 1, link(0, 0, 1), true), Ok(2));
    assert_eq!(try_edit(0, 2, 1, name(2, 63), true), Ok(2));
}

/// An undo on R1 of one step, the last of so many in use.
fn try_undo(room: usize, log: usize, count: u64, step: Step) -> Result<u64, Refusal> {
    let mut buffer = R1.to_vec();
    buffer.extend(vec![0xEE; room]);
    let log = vec![step; log];
    let before = buffer.clone();
    let answer = session::undo(&mut buffer, &log, count);
    if answer.is_err() {
        assert_eq!(buffer, before, "a refusal changes nothing");
    }
    answer
}

#[test]
fn the_order_of_an_undo() {
    let step = |fact, was_there| Step { fact, was_there };
    let good = step(name(0, 1), true);
    assert_eq!(
        session::undo(&mut [2, 0, 9], &[], 9),
        Err(Refusal::register(2, 0))
    );
    assert_eq!(try_undo(0, 2, 3, good), Err(Refusal::call(17)));
    assert_eq!(try_undo(0, 0, 1, good), Err(Refusal::call(17)));
    assert_eq!(try_undo(0, 70, 65, good), Err(Refusal::call(17)));
    assert_eq!(try_undo(0, 70, 64, good), Ok(63));
    assert_eq!(try_undo(0, 2, 0, good), Err(Refusal::call(19)));
    assert_eq!(try_undo(0, 0, 0, good), Err(Refusal::call(19)));
    for fact in [
        name(3, 0),
        name(0, 64),
        name(1 << 32, 0),
        link(3, 0, 0),
        link(0, 32, 0),
        link(0, 0, 3),
        link(65_536, 0, 0),
        link(0, 256, 0),
        link(0, 0, u64::MAX),
    ] {
        assert_eq!(
            try_undo(0, 2, 2, step(fact, true)),
            Err(Refusal::call(17)),
            "{fact:?}"
        );
        assert_eq!(
            try_undo(9, 2, 2, step(fact, false)),
            Err(Refusal::call(17)),
            "{fact:?}"
        );
    }
    assert_eq!(
        try_undo(4, 2, 2, step(link(2, 31, 2), true)),
        Err(Refusal::call(20))
    );
    assert_eq!(try_undo(5, 2, 2, step(link(2, 31, 2), true)), Ok(1));
    assert_eq!(try_undo(0, 2, 2, step(link(2, 31, 2), false)), Ok(1));
    assert_eq!(try_undo(0, 2, 2, step(link(0, 0, 1), true)), Ok(1));
}

#[test]
fn the_order_of_a_keep() {
    let log = [Step::UNUSED; 70];
    assert_eq!(session::keep(&[], &log, 99), Err(Refusal::register(1, 0)));
    assert_eq!(session::keep(&R1, &log[..2], 3), Err(Refusal::call(17)));
    assert_eq!(session::keep(&R1, &log[..2], 2), Ok(0));
    assert_eq!(session::keep(&R1, &log, 65), Err(Refusal::call(17)));
    assert_eq!(session::keep(&R1, &log, 64), Ok(0));
    assert_eq!(session::keep(&R1, &log, u64::MAX), Err(Refusal::call(17)));
    assert_eq!(session::keep(&R1, &[], 0), Ok(0));
}

#[test]
fn all_4096_links_stand() {
    let largest = register_edges()
        .into_iter()
        .find(|edge| edge.label == "the largest image");
    let mut buffer = largest.expect("the largest image").bytes;
    assert_eq!(buffer.len(), 24_583);
    buffer.extend_from_slice(&[0; 20]);
    let register = read_session(&buffer).unwrap();
    let absent = (0..512)
        .map(|to| (0u16, 0u8, to))
        .find(|link| !register.links.contains(link))
        .expect("some link is not there");
    let fact = link(0, 0, absent.2.into());
    let mut log = [Step::UNUSED; 8];
    let refused = session::edit(&mut buffer, &mut log, 0, fact, true);
    assert_eq!(refused, Err(Refusal::call(20)));
    let (from, role, to) = register.links[17];
    let standing = link(from.into(), role.into(), to.into());
    assert_eq!(
        session::edit(&mut buffer, &mut log, 0, standing, true),
        Ok(1)
    );
    assert_eq!(
        session::edit(&mut buffer, &mut log, 1, standing, false),
        Ok(2)
    );
    assert_eq!(session::edit(&mut buffer, &mut log, 2, fact, true), Ok(3));
    // 4,096 stand again, so the step before cannot be undone out of turn.
    assert_eq!(session::undo(&mut buffer, &log, 2), Err(Refusal::call(20)));
    assert_eq!(session::undo(&mut buffer, &log, 3), Ok(2));
    assert_eq!(session::undo(&mut buffer, &log, 2), Ok(1));
    assert_eq!(session::undo(&mut buffer, &log, 1), Ok(0));
    assert_eq!(read_session(&buffer), Ok(register));
}
