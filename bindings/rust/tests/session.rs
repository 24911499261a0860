//! A session: edits, undo, keep, and questions asked of the image.

mod common;

use common::{image, Q1, R1};
use svelgandur::{Fact, Session, Verdict, LARGEST_IMAGE};

const LINK: Fact = Fact::Link {
    from: 0,
    role: 0,
    to: 1,
};

fn fraction(session: &Session, item: u64) -> String {
    session.degree(&Q1, item).unwrap().to_string()
}

#[test]
fn an_edit_and_its_undo() {
    let mut session = Session::open(&R1).unwrap();
    assert_eq!((session.count(), fraction(&session, 0)), (0, "2/3".into()));
    session.take_away(LINK).unwrap();
    assert_eq!((session.count(), fraction(&session, 0)), (1, "1/3".into()));
    let without = image(&[&[1, 3], &[1], &[2]], &[(0, 1, 2)]);
    assert_eq!(session.image(), without);
    session.add(Fact::Name { item: 0, name: 2 }).unwrap();
    assert_eq!(fraction(&session, 0), "2/3");
    let margin = session.margin(&Q1, 0, 3, 4).unwrap();
    assert_eq!((margin.value, margin.over), (-1, 12));
    session.undo().unwrap();
    session.undo().unwrap();
    assert_eq!((session.count(), session.image()), (0, &R1[..]));
}

/// Add a link that stands, undo: the link stands.
#[test]
fn undo_of_an_edit_that_changed_nothing() {
    let mut session = Session::open(&R1).unwrap();
    session.add(LINK).unwrap();
    assert_eq!((session.count(), session.image()), (1, &R1[..]));
    session.undo().unwrap();
    assert_eq!(session.image(), R1);
}

#[test]
fn keep() {
    let mut session = Session::open(&R1).unwrap();
    session.add(Fact::Name { item: 0, name: 2 }).unwrap();
    session.keep().unwrap();
    assert_eq!(session.count(), 0);
    assert!(session.undo().is_err());
    assert_eq!(fraction(&session, 0), "1/1");
    assert_eq!(session.member(&Q1, 0), Ok(Verdict::Yes(vec![0, 1])));
    assert_eq!(session.member(&Q1, 1), Ok(Verdict::No));
}

/// The bytes behind the image: zeros from the opening, and where a link went.
#[test]
fn room() {
    let session = Session::open(&R1).unwrap();
    assert_eq!(session.buffer().len(), LARGEST_IMAGE);
    assert!(session.buffer()[R1.len()..].iter().all(|byte| *byte == 0));
    let mut session = Session::on([&R1[..], &[9; 6]].concat()).unwrap();
    assert_eq!(session.buffer(), [&R1[..], &[0; 6]].concat());
    let further = Fact::Link {
        from: 2,
        role: 31,
        to: 2,
    };
    session.add(further).unwrap();
    assert_eq!(session.image().len(), R1.len() + 5);
    session.undo().unwrap();
    assert_eq!(session.buffer(), [&R1[..], &[0; 6]].concat());
}

/// The largest register: 512 items and 4,096 links leave room for none.
#[test]
fn the_largest() {
    let items = vec![&[0_u32, 62][..]; 512];
    let links: Vec<(u16, u8, u16)> = (0..4096).map(|n| (n / 8, (n % 8) as u8, n / 8)).collect();
    let large = image(&items, &links);
    assert_eq!(large.len(), LARGEST_IMAGE);
    let mut session = Session::open(&large).unwrap();
    let further = Fact::Link {
        from: 0,
        role: 31,
        to: 511,
    };
    assert_eq!(session.add(further).unwrap_err().number, 20);
    let first = Fact::Link {
        from: 0,
        role: 0,
        to: 0,
    };
    session.take_away(first).unwrap();
    session.add(further).unwrap();
    assert_eq!(session.undo().and(session.undo()), Ok(()));
    assert_eq!(session.image(), large);
}
