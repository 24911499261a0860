//! Requirements built node by node: their messages are those that were written
//! by hand, and each refusal of the call.

mod common;

use common::{message, node, threshold, BAD_FRACTIONS, Q1};
use svelgandur::{
    member, read_requirement, Comparison, Concept, Refusal, Requirement, Side, LONGEST_MESSAGE,
};

fn names(names: &[u32]) -> Concept {
    Concept::new().names(names.iter().copied())
}

fn refused(requirement: &Requirement) -> (Side, u64, u64) {
    let Refusal {
        side,
        number,
        place,
    } = requirement.message().unwrap_err();
    (side, number, place)
}

#[test]
fn by_hand() {
    let q1 = Requirement::new().names([1, 2]).child(0, names(&[1]));
    assert_eq!(q1.message().as_deref(), Ok(&Q1[..]));
    assert_eq!(Requirement::new().message(), Ok(message(node(&[], &[]))));

    // A root's threshold that comes after a child stands before the child's.
    let built = Requirement::new()
        .child(3, Requirement::new().below(1, 2, names(&[7])))
        .names([5])
        .at_least(2, 3, names(&[8]).child(4, names(&[9])))
        .child(6, names(&[]))
        .above(0, 1, names(&[10]));
    let lists = built.message().expect("a good requirement");
    let counts = read_requirement(&lists).expect("which reads back");
    assert_eq!((counts.nodes, counts.thresholds), (3, 3));
    let inner = node(&[8], &[(4, node(&[9], &[]))]);
    let first = svelgandur::inner_part(&lists, 0);
    assert_eq!(first, Some(&inner[..]));
    assert_eq!(
        svelgandur::inner_part(&lists, 1),
        Some(&node(&[10], &[])[..])
    );
    assert_eq!(
        svelgandur::inner_part(&lists, 2),
        Some(&node(&[7], &[])[..])
    );
}

#[test]
fn thresholds() {
    let half = |how, byte| {
        let built = Requirement::new().threshold(how, 1, 2, names(&[1]));
        let wanted = message(common::judged(
            &[],
            &[threshold(byte, 1, 2, &node(&[1], &[]))],
            &[],
        ));
        assert_eq!(built.message(), Ok(wanted));
    };
    half(Comparison::Below, 0);
    half(Comparison::AtMost, 1);
    half(Comparison::Above, 2);
    half(Comparison::AtLeast, 3);
}

#[test]
fn refusals() {
    let deep = |depth| (0..depth).fold(Concept::new(), |below, _| Concept::new().child(0, below));
    let broad = |children| (0..children).fold(Concept::new(), |all, _| all.child(0, names(&[])));
    let many =
        |count| (0..count).fold(Requirement::new(), |all, _| all.at_least(1, 1, names(&[1])));
    for (requirement, number) in [
        (Requirement::new().child(32, names(&[])), 7),
        (deep(17).into(), 9),
        (broad(64).into(), 10),
        (many(17), 12),
        (
            Requirement::new().at_least(1, 2, Concept::new().names(0..61)),
            14,
        ),
        (Requirement::new().at_least(1, 2, deep(17)), 9),
    ] {
        assert_eq!(refused(&requirement), (Side::Call, number, 0));
    }
    assert!(Requirement::from(deep(16)).message().is_ok());
    assert!(Requirement::from(broad(63)).message().is_ok());
    assert!(many(16).message().is_ok());
}

/// Each fault of p and q, alone and with a fault that is tested before or
/// behind it.
#[test]
fn fractions() {
    let too_large = || Concept::new().names(0..61);
    let sixteen = (0..16).fold(Requirement::new(), |all, _| all.at_least(1, 1, names(&[])));
    for (p, q, number) in BAD_FRACTIONS {
        let bad = |concept| Requirement::new().at_least(p, q, concept);
        for requirement in [
            bad(names(&[])),
            bad(too_large()),
            bad(names(&[]).child(32, names(&[]))),
            bad(names(&[])).child(32, names(&[])),
            bad(names(&[])).at_least(1, 2, too_large()),
            Requirement::new()
                .below(1, 2, names(&[]))
                .child(0, bad(names(&[]))),
        ] {
            assert_eq!(refused(&requirement), (Side::Call, number, 0), "{p}/{q}");
        }
        let before = Requirement::new().at_least(1, 2, too_large());
        let before = before.at_least(p, q, names(&[]));
        assert_eq!(refused(&before), (Side::Call, 14, 0));
        let one_more = sixteen.clone().at_least(p, q, names(&[]));
        assert_eq!(refused(&one_more), (Side::Call, 12, 0));
        let short = bad(names(&[])).message_into(&mut []);
        assert_eq!(short.map_err(|refusal| refusal.number), Err(number));
    }
}

#[test]
fn room() {
    let requirement = Requirement::new().names([1]).child(2, names(&[3]));
    let whole = requirement.message().expect("a good requirement");
    let mut out = [0xEE; 64];
    let short = requirement.message_into(&mut out[..whole.len() - 1]);
    assert_eq!(short.map_err(|refusal| refusal.number), Err(21));
    assert_eq!(out, [0xEE; 64]);
    assert_eq!(requirement.message_into(&mut out), Ok(whole.len()));
    assert_eq!(out[..whole.len()], whole[..]);
    assert!(out[whole.len()..].iter().all(|byte| *byte == 0xEE));
    assert!(whole.len() <= LONGEST_MESSAGE);
    assert!(member(&common::R1, &whole, 0).is_ok());
}

#[test]
#[should_panic(expected = "name 64 is above 63")]
fn no_such_name() {
    let _ = Requirement::new().names([64]);
}
