//! Refusals: side, number, place and sentence, and lengths that are wrong.

mod common;

use common::{image, judged, message, node, threshold, BAD_FRACTIONS, Q1, R1};
use svelgandur::{
    degree, degree_into, list, list_into, margin, member, member_into, read_register,
    read_requirement, Fact, Refusal, Session, Side,
};

fn refusal(side: Side, number: u64, place: u64) -> Refusal {
    Refusal {
        side,
        number,
        place,
    }
}

fn register_refused(image: &[u8]) -> Refusal {
    let refused = read_register(image).unwrap_err();
    // A question about a register that is refused is refused so too.
    assert_eq!(degree(image, &Q1, 0), Err(refused));
    assert_eq!(margin(image, &Q1, 0, 1, 2), Err(refused));
    assert_eq!(member(image, &Q1, 0), Err(refused));
    assert_eq!(list(image, &Q1), Err(refused));
    refused
}

fn requirement_refused(message: &[u8]) -> Refusal {
    let refused = read_requirement(message).unwrap_err();
    assert_eq!(degree(&R1, message, 0), Err(refused));
    assert_eq!(margin(&R1, message, 0, 1, 2), Err(refused));
    assert_eq!(member(&R1, message, 0), Err(refused));
    assert_eq!(list(&R1, message), Err(refused));
    refused
}

#[test]
fn registers() {
    let two: [&[u32]; 2] = [&[], &[]];
    let changed = |place: usize, byte: u8| {
        let mut bytes = R1;
        bytes[place] = byte;
        bytes
    };
    let cases = [
        (vec![], 1, 0),
        (vec![1, 0], 1, 0),
        (changed(0, 2).to_vec(), 2, 0),
        (changed(2, 0x25).to_vec(), 3, 1),
        (changed(4, 0).to_vec(), 4, 3),
        (image(&two, &[(2, 0, 0)]), 5, 23),
        (image(&two, &[(0, 0, 2)]), 5, 26),
        (image(&two, &[(1, 0, 0), (0, 0, 0)]), 6, 28),
        (image(&two, &[(0, 32, 0)]), 7, 25),
    ];
    for (bytes, number, place) in cases {
        let wanted = refusal(Side::Register, number, place);
        assert_eq!(register_refused(&bytes), wanted);
    }
    let mut longer = R1.to_vec();
    longer.push(0);
    longer[2] += 1;
    let wanted = refusal(Side::Register, 8, 41);
    assert_eq!(register_refused(&longer), wanted);
}

#[test]
fn requirements() {
    let chain = |depth: usize| (0..depth).fold(node(&[], &[]), |below, _| node(&[], &[(0, below)]));
    let broad = vec![(0, node(&[], &[])); 64];
    let half = |inner: &[u8]| threshold(3, 1, 2, inner);
    let leaf = node(&[1], &[]);
    let names: Vec<u32> = (0..61).collect();
    let mut left_over = message(leaf.clone());
    left_over.push(0);
    left_over[2] += 1;
    let cases = [
        (vec![], 1, 0),
        (vec![9, 0, 0], 2, 0),
        (vec![1, 0, 1], 3, 1),
        (message(node(&[], &[(32, leaf.clone())])), 7, 13),
        (left_over, 8, 13),
        (message(chain(17)), 9, 3 + 11 * 17),
        (message(node(&[], &broad)), 10, 3 + 10 + 11 * 63 + 1),
        (
            message(judged(&[], &[half(&judged(&[], &[half(&leaf)], &[]))], &[])),
            11,
            28,
        ),
        (
            message(judged(&[], &vec![half(&leaf); 17], &[])),
            12,
            3 + 10 + 16 * 17,
        ),
        (
            message(judged(&[], &[half(&node(&names, &[]))], &[])),
            14,
            20,
        ),
    ];
    for (bytes, number, place) in cases {
        let wanted = refusal(Side::Requirement, number, place);
        assert_eq!(requirement_refused(&bytes), wanted);
    }
}

/// The faults of a threshold's comparison, p and q, alone and in pairs, with
/// the number and how far behind the threshold's first byte it stands.
const THRESHOLD_FAULTS: [(u8, u16, u16, u64, u64); 14] = [
    (4, 1, 2, 13, 0),
    (255, 1, 2, 13, 0),
    (4, 1, 0, 13, 0),
    (4, 2, 1, 13, 0),
    (4, 2, 4, 13, 0),
    (3, 0, 0, 23, 3),
    (3, 1, 0, 23, 3),
    (3, 1, 1001, 23, 3),
    (3, 1002, 1001, 23, 3),
    (3, 1001, 1001, 23, 3),
    (3, 3, 2, 24, 1),
    (3, 4, 2, 24, 1),
    (3, 0, 2, 25, 1),
    (3, 2, 4, 25, 1),
];

#[test]
fn thresholds() {
    let leaf = node(&[1], &[]);
    let half = threshold(3, 1, 2, &leaf);
    for (comparison, p, q, number, behind) in THRESHOLD_FAULTS {
        let bad = |inner: &[u8]| threshold(comparison, p, q, inner);
        let alone = message(judged(&[], &[bad(&leaf)], &[]));
        let second = message(judged(&[], &[half.clone(), bad(&leaf)], &[]));
        let child = judged(&[], &[bad(&leaf)], &[]);
        let on_a_child = message(node(&[], &[(0, child)]));
        let bad_inside = message(judged(&[], &[bad(&[])], &[]));
        let seventeenth = [&vec![half.clone(); 16][..], &[bad(&leaf)]].concat();
        for (bytes, at) in [
            (alone, 13),
            (second, 30),
            (on_a_child, 24),
            (bad_inside, 13),
        ] {
            let wanted = refusal(Side::Requirement, number, at + behind);
            assert_eq!(requirement_refused(&bytes), wanted, "{comparison} {p}/{q}");
        }
        let wanted = refusal(Side::Requirement, 12, 13 + 16 * 17);
        let bytes = message(judged(&[], &seventeenth, &[]));
        assert_eq!(requirement_refused(&bytes), wanted);
    }
}

#[test]
fn questions() {
    let leaf = node(&[1], &[]);
    let judging = message(judged(&[], &[threshold(3, 1, 2, &leaf)], &[]));
    let wanted = refusal(Side::Requirement, 11, 13);
    assert_eq!(degree(&R1, &judging, 0), Err(wanted));
    assert_eq!(margin(&R1, &judging, 0, 1, 2), Err(wanted));
    assert_eq!(list(&R1, &judging), Err(wanted));
    let names: Vec<u32> = (0..61).collect();
    let too_large = message(node(&names, &[]));
    let wanted = refusal(Side::Requirement, 14, 3);
    assert_eq!(degree(&R1, &too_large, 0), Err(wanted));
    assert_eq!(list(&R1, &too_large), Err(wanted));
    let wanted = refusal(Side::Call, 15, 0);
    for item in [3, 256, 65_536, 1 << 32, u64::MAX] {
        assert_eq!(degree(&R1, &Q1, item), Err(wanted));
        assert_eq!(margin(&R1, &Q1, item, 1, 2), Err(wanted));
        assert_eq!(member(&R1, &Q1, item), Err(wanted));
    }
}

/// The item comes before the fraction, and the requirement before both.
#[test]
fn margins() {
    let leaf = node(&[1], &[]);
    let judging = message(judged(&[], &[threshold(3, 2, 4, &leaf)], &[]));
    for (p, q, number) in BAD_FRACTIONS {
        let wanted = refusal(Side::Call, number, 0);
        assert_eq!(margin(&R1, &Q1, 0, p, q), Err(wanted), "{p}/{q}");
        let wanted = refusal(Side::Call, 15, 0);
        assert_eq!(margin(&R1, &Q1, 3, p, q), Err(wanted), "{p}/{q}");
        let wanted = refusal(Side::Requirement, 25, 14);
        assert_eq!(margin(&R1, &judging, 3, p, q), Err(wanted), "{p}/{q}");
    }
}

#[test]
fn maps_too_short() {
    let wanted = refusal(Side::Call, 16, 0);
    for room in 0..2 {
        let mut map = vec![7; room];
        assert_eq!(degree_into(&R1, &Q1, 0, &mut map), Err(wanted));
        assert_eq!(member_into(&R1, &Q1, 0, &mut map), Err(wanted));
        assert_eq!(map, vec![7; room]);
    }
}

/// Two nodes at three items; what is wrong with either side comes before.
#[test]
fn tables_too_short() {
    let leaf = node(&[1], &[]);
    let judging = message(judged(&[], &[threshold(3, 1, 2, &leaf)], &[]));
    let call = refusal(Side::Call, 16, 0);
    let requirement = refusal(Side::Requirement, 11, 13);
    let register = refusal(Side::Register, 3, 1);
    for room in 0..6 {
        let mut table = vec![7; room];
        assert_eq!(list_into(&R1, &Q1, &mut table), Err(call));
        assert_eq!(list_into(&R1, &judging, &mut table), Err(requirement));
        assert_eq!(list_into(&R1[..40], &judging, &mut table), Err(register));
        assert_eq!(table, vec![7; room]);
    }
}

/// Every length but the right one is refused, with 1 or 3.
#[test]
fn wrong_lengths() {
    for length in 0..R1.len() {
        let (number, place) = if length < 3 { (1, 0) } else { (3, 1) };
        let wanted = refusal(Side::Register, number, place);
        assert_eq!(register_refused(&R1[..length]), wanted);
        assert_eq!(Session::open(&R1[..length]).unwrap_err(), wanted);
    }
    for length in 0..Q1.len() {
        let (number, place) = if length < 3 { (1, 0) } else { (3, 1) };
        let wanted = refusal(Side::Requirement, number, place);
        assert_eq!(requirement_refused(&Q1[..length]), wanted);
    }
    let longer = [&R1[..], &[0]].concat();
    let wanted = refusal(Side::Register, 3, 1);
    assert_eq!(register_refused(&longer), wanted);
    assert_eq!(Session::open(&longer).unwrap_err(), wanted);
    let longer = [&Q1[..], &[0]].concat();
    let wanted = refusal(Side::Requirement, 3, 1);
    assert_eq!(requirement_refused(&longer), wanted);
}

#[test]
fn sessions() {
    let mut session = Session::open(&R1).unwrap();
    let name = |item, name| Fact::Name { item, name };
    let link = |from, role, to| Fact::Link { from, role, to };
    let call = |number| Err(refusal(Side::Call, number, 0));
    for fact in [name(3, 0), name(0, 64), link(3, 0, 0), link(0, 32, 3)] {
        assert_eq!(session.add(fact), call(15));
        assert_eq!(session.take_away(fact), call(15));
    }
    assert_eq!(session.add(link(0, 32, 0)), call(7));
    assert_eq!(session.undo(), call(19));
    for _ in 0..64 {
        session.add(name(0, 1)).unwrap();
    }
    assert_eq!(session.add(name(0, 1)), call(18));
    assert_eq!((session.count(), session.image()), (64, &R1[..]));
    // A buffer without room for a link more.
    let mut session = Session::on([&R1[..], &[9; 4]].concat()).unwrap();
    assert_eq!(session.add(link(2, 0, 2)), call(20));
    assert_eq!(session.buffer(), [&R1[..], &[0; 4]].concat());
    session.add(link(0, 0, 1)).unwrap();
}

/// Each number has a sentence of its own, and a refusal shows it.
#[test]
fn sentences() {
    let sentence = |number| refusal(Side::Register, number, 0).sentence();
    for number in 1..=26 {
        assert_ne!(sentence(number), sentence(0));
        for other in 1..number {
            assert_ne!(sentence(number), sentence(other));
        }
    }
    let shown = register_refused(&R1[..40]).to_string();
    let wanted =
        "register refused 3 at 1: the length in the head is not that of the bytes that follow";
    assert_eq!(shown, wanted);
    let bytes = message(judged(&[], &[threshold(3, 1, 0, &[])], &[]));
    let shown = requirement_refused(&bytes).to_string();
    let wanted = "requirement refused 23 at 16: a threshold's q is 0 or above 1,000";
    assert_eq!(shown, wanted);
}
