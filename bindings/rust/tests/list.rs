//! The whole list: the sheet's rows, the order by degree, and lent tables.

mod common;

use common::{image, message, node, Q1, R1};
use svelgandur::{degree, list, list_into, Fact, Fraction, List, Session, LONGEST_TABLE};

/// Each item with its degree, as it would be printed.
fn told(all: impl Iterator<Item = (u64, Fraction)>) -> Vec<String> {
    all.map(|(item, degree)| format!("{item} {degree}"))
        .collect()
}

fn rows<'a>(list: &'a List) -> Vec<&'a [u32]> {
    (0..list.nodes())
        .map(|node| list.row(node).unwrap())
        .collect()
}

#[test]
fn q1_on_r1() {
    let list = list(&R1, &Q1).unwrap();
    assert_eq!(told(list.iter()), ["0 2/3", "1 1/3", "2 1/3"]);
    assert_eq!((list.items(), list.nodes(), list.scale()), (3, 2, 3));
    assert_eq!(rows(&list), [[2, 1, 1], [1, 1, 0]]);
}

/// Each item's degree is what it is when asked by itself.
#[test]
fn the_single_calls_degrees() {
    let child = node(&[1], &[(1, node(&[2], &[])), (1, node(&[3], &[]))]);
    let register = image(
        &[&[], &[1], &[], &[2], &[3]],
        &[(0, 0, 1), (0, 0, 2), (2, 1, 3), (2, 1, 4)],
    );
    for requirement in [Q1.to_vec(), message(node(&[1, 2], &[(0, child)]))] {
        let list = list(&register, &requirement).unwrap();
        for (item, listed) in list.iter() {
            let single = degree(&register, &requirement, item).unwrap();
            assert_eq!((listed.num, listed.den), (single.num, single.den));
            assert_eq!(list.degree(item), Some(listed));
        }
    }
}

#[test]
fn items_and_nodes_that_are_not_there() {
    let list = list(&R1, &Q1).unwrap();
    for number in [3, 1 << 32, u64::MAX] {
        assert_eq!(list.degree(number), None);
        assert_eq!(list.row(number), None);
    }
    assert_eq!(list.row(2), None);
}

/// The row of a dropped node is 0, also where its degree would not be.
#[test]
fn dropped_nodes() {
    let doubled = message(node(&[], &[(0, node(&[1], &[])), (0, node(&[1, 2], &[]))]));
    let list = list(&R1, &doubled).unwrap();
    assert_eq!(told(list.iter()), ["0 1/2", "1 0/1", "2 0/1"]);
    assert_eq!(rows(&list), [[1, 0, 0], [0, 0, 0], [1, 1, 1]]);
}

/// The greatest first, and of equal ones the lower item.
#[test]
fn by_degree() {
    let register = image(&[&[], &[0, 1], &[2], &[0, 1, 2], &[2, 1], &[0, 1, 2]], &[]);
    let requirement = message(node(&[0, 1, 2], &[]));
    let list = list(&register, &requirement).unwrap();
    let wanted = ["3 1/1", "5 1/1", "1 2/3", "4 2/3", "2 1/3", "0 0/1"];
    assert_eq!(told(list.by_degree()), wanted);
}

/// A chain of 17 nodes of three things each: item 17 holds all and is linked to
/// itself, items 0 to 16 stand in a row of which the last lacks one name. The
/// degrees of items 0 and 17 are one and the same in 32 bits of floating point.
#[test]
fn degrees_compare_exactly() {
    let last = node(&[1, 2, 3], &[]);
    let chain = (0..16).fold(last, |below, _| node(&[1, 2], &[(0, below)]));
    let mut items: Vec<&[u32]> = vec![&[1, 2, 3]; 18];
    items[16] = &[1, 2];
    let mut links: Vec<_> = (0..16).map(|item| (item, 0, item + 1)).collect();
    links.push((17, 0, 17));
    let list = list(&image(&items, &links), &message(chain)).unwrap();
    let [first, second]: [_; 2] = std::array::from_fn(|at| list.by_degree().nth(at).unwrap());
    assert_eq!((first.0, first.1.to_string().as_str()), (17, "1/1"));
    let almost = "129140162/129140163";
    assert_eq!((second.0, second.1.to_string().as_str()), (0, almost));
    assert!(second.1 < first.1 && first.1 != second.1);
    let rounded = |degree: Fraction| degree.num as f32 / degree.den as f32;
    assert_eq!(rounded(first.1), rounded(second.1));
}

/// One table for many requirements; places behind the rows keep their contents.
#[test]
fn lent_tables() {
    let mut table = vec![7; LONGEST_TABLE];
    for names in 0..3 {
        let requirement = message(node(&[names, 2], &[]));
        let own = list(&R1, &requirement).unwrap();
        let lent = list_into(&R1, &requirement, &mut table).unwrap();
        assert_eq!(lent, own);
        assert!(table[3..].iter().all(|place| *place == 7));
    }
    let mut exact = [7; 7];
    let lent = list_into(&R1, &Q1, &mut exact[..6]).unwrap();
    assert_eq!(told(lent.by_degree()), ["0 2/3", "1 1/3", "2 1/3"]);
    assert_eq!(exact, [2, 1, 1, 1, 1, 0, 7]);
}

#[test]
fn in_a_session() {
    let mut session = Session::open(&R1).unwrap();
    session.add(Fact::Name { item: 2, name: 1 }).unwrap();
    let list = session.list(&Q1).unwrap();
    assert_eq!(told(list.by_degree()), ["0 2/3", "2 2/3", "1 1/3"]);
    session.undo().unwrap();
    assert_eq!(session.list(&Q1), svelgandur::list(&R1, &Q1));
}
