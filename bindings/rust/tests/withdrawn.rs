//! Withdrawn items: no question counts them, and a session keeps their facts.

mod common;

use common::{image, judged, message, node, threshold, BAD_FRACTIONS, Q1, R1};
use svelgandur::{
    degree, degree_into, list, list_into, margin, member, member_into, Fact, Fraction, List, Place,
    Refusal, Session, Side, Verdict, WITHDRAWN,
};

const OUT: u32 = WITHDRAWN as u32;

fn call(number: u64) -> Refusal {
    Refusal {
        side: Side::Call,
        number,
        place: 0,
    }
}

/// Item 0 is linked to 1, which is withdrawn, and to 2; 1 and 2 to 0.
fn register() -> Vec<u8> {
    image(
        &[&[1], &[1, 2, OUT], &[2]],
        &[(0, 0, 1), (0, 0, 2), (1, 0, 0), (2, 0, 0)],
    )
}

/// 15 comes before it, and everything else of the call behind.
#[test]
fn asked_for() {
    let register = register();
    assert_eq!(degree(&register, &Q1, 1), Err(call(26)));
    assert_eq!(member(&register, &Q1, 1), Err(call(26)));
    assert_eq!(degree(&register, &Q1, 3), Err(call(15)));
    assert_eq!(member(&register, &Q1, 3), Err(call(15)));
    for (p, q, _) in BAD_FRACTIONS {
        assert_eq!(margin(&register, &Q1, 1, p, q), Err(call(26)));
        assert_eq!(margin(&register, &Q1, 3, p, q), Err(call(15)));
    }
    let mut map = [7; 1];
    assert_eq!(degree_into(&register, &Q1, 1, &mut map), Err(call(26)));
    assert_eq!(member_into(&register, &Q1, 1, &mut map), Err(call(26)));
    assert_eq!(map, [7]);
    let shown = call(26).to_string();
    let wanted = "call refused 26 at 0: the item that is asked for is withdrawn";
    assert_eq!(shown, wanted);
}

#[test]
fn linked_to() {
    let register = register();
    let both = message(node(&[1], &[(0, node(&[1, 2], &[]))]));
    let answer = degree(&register, &both, 0).unwrap();
    assert_eq!((answer.num, answer.den), (3, 4));
    assert_eq!(answer.map, [Place::Item(0), Place::Item(2)]);
    let answer = margin(&register, &both, 0, 3, 4).unwrap();
    assert_eq!((answer.value, answer.over), (0, 16));
    assert_eq!(member(&register, &both, 0), Ok(Verdict::No));
    let any = message(node(&[1], &[(0, node(&[], &[]))]));
    assert_eq!(member(&register, &any, 0), Ok(Verdict::Yes(vec![0, 2])));
    let inner = node(&[], &[(0, node(&[1], &[]))]);
    let none = message(judged(&[], &[threshold(1, 0, 1, &inner)], &[]));
    assert_eq!(member(&register, &none, 0), Ok(Verdict::Yes(vec![0])));
}

/// Name 63 in a requirement counts, and nothing that is judged holds it.
#[test]
fn named() {
    let named = message(node(&[1, OUT], &[]));
    let answer = degree(&register(), &named, 0).unwrap();
    assert_eq!((answer.num, answer.den), (1, 2));
    assert_eq!(degree(&register(), &named, 1), Err(call(26)));
}

fn told(all: impl Iterator<Item = (u64, Fraction)>) -> Vec<String> {
    all.map(|(item, degree)| format!("{item} {degree}"))
        .collect()
}

fn rows<'a>(list: &'a List) -> Vec<&'a [u32]> {
    (0..list.nodes())
        .map(|node| list.row(node).unwrap())
        .collect()
}

/// They are in no list, also not as the last; the table has 0 there.
#[test]
fn listed() {
    let register = register();
    let any = message(node(&[1], &[(0, node(&[], &[]))]));
    let whole = list(&register, &any).unwrap();
    assert_eq!(told(whole.iter()), ["0 1/1", "2 1/2"]);
    assert_eq!(told(whole.by_degree()), ["0 1/1", "2 1/2"]);
    assert_eq!(rows(&whole), [[2, 0, 1], [1, 0, 1]]);
    assert_eq!((whole.items(), whole.degree(1)), (3, None));
    let out = (0..4).map(|item| whole.is_withdrawn(item));
    let wanted = [Some(false), Some(true), Some(false), None];
    assert_eq!(out.collect::<Vec<_>>(), wanted);
    let mut table = [7; 7];
    assert_eq!(list_into(&register, &any, &mut table).unwrap(), whole);
    assert_eq!(table, [2, 0, 1, 1, 0, 1, 7]);
    let all = image(&[&[OUT], &[1, OUT]], &[(0, 0, 1)]);
    let none = list(&all, &any).unwrap();
    assert_eq!((none.items(), none.by_degree().count()), (2, 0));
    assert_eq!(rows(&none), [[0, 0], [0, 0]]);
}

/// Items of every word of the set, the last of them the last item.
#[test]
fn listed_in_the_largest() {
    let mut items = vec![&[1][..]; 512];
    let out = [0, 63, 64, 200, 511];
    for item in out {
        items[item] = &[1, OUT];
    }
    let list = list(&image(&items, &[]), &message(node(&[1], &[]))).unwrap();
    let listed: Vec<u64> = list.iter().map(|(item, _)| item).collect();
    let wanted = (0..512).filter(|item| !out.contains(&(*item as usize)));
    assert_eq!(listed, wanted.collect::<Vec<u64>>());
}

#[test]
fn in_a_session() {
    let mut session = Session::open(&R1).unwrap();
    let out = |item| Fact::Name {
        item,
        name: WITHDRAWN,
    };
    session.add(out(1)).unwrap();
    assert_eq!(session.degree(&Q1, 1), Err(call(26)));
    let answer = session.degree(&Q1, 0).unwrap();
    assert_eq!(answer.to_string(), "1/3");
    assert_eq!(answer.map, [Place::Item(0), Place::Unmapped]);
    assert_eq!(told(session.list(&Q1).unwrap().iter()), ["0 1/3", "2 1/3"]);
    // Its facts can be edited all the same.
    session.add(Fact::Name { item: 1, name: 2 }).unwrap();
    let link = Fact::Link {
        from: 1,
        role: 0,
        to: 1,
    };
    session.add(link).unwrap();
    session.take_away(out(1)).unwrap();
    assert_eq!(session.degree(&Q1, 1).unwrap().to_string(), "1/1");
    for _ in 0..4 {
        session.undo().unwrap();
    }
    assert_eq!(session.image(), R1);
}
