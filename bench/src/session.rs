//! An edit and its undo in the largest image: the link before all others, so
//! that all of them move, the one in the middle, and the one behind all others.

use std::cell::RefCell;
use std::hint::black_box;

use compare::library;
use compare::worst::fans;
use good::session;
use second::register::{self, Link};

use crate::Work;

pub fn works() -> Vec<Work> {
    let links = fans().links;
    let work = |name, what, at: usize| edit_and_undo(name, what, links[at]);
    vec![
        work(
            "edit-first",
            "the first of 4,096 links away and back: all others move",
            0,
        ),
        work("edit-middle", "the middle one", links.len() / 2),
        work("edit-last", "the last one", links.len() - 1),
    ]
}

fn edit_and_undo(name: &'static str, what: &str, link: Link) -> Work {
    let image = register::encode(&fans());
    let link = [link.0.into(), link.1.into(), link.2.into()];
    let lent = || RefCell::new((image.clone(), [0; 64]));
    let (one, other, both) = (lent(), lent(), lent());
    let before = image.clone();
    Work {
        name,
        calls: "svelgandur_edit_link svelgandur_undo",
        what: what.to_string(),
        questions: 1,
        same: Box::new(move || {
            let (buffer, log) = &mut *both.borrow_mut();
            let (mut same, mut same_log) = (buffer.clone(), *log);
            let edited = library::edit_link(buffer, log, 0, 0, link);
            assert_eq!(edited, [1, 1, 0, 0]);
            assert_eq!(
                edited,
                session::edit_link(&mut same, &mut same_log, 0, 0, link)
            );
            assert_eq!((&*buffer, &*log), (&same, &same_log));
            assert_ne!(same, before);
            let undone = library::undo(buffer, log, 1);
            assert_eq!(undone, [1, 0, 0, 0]);
            assert_eq!(undone, session::undo(&mut same, &same_log, 1));
            assert_eq!((&*buffer, same), (&before, before.clone()));
        }),
        library: Box::new(move || {
            let (buffer, log) = &mut *one.borrow_mut();
            black_box(library::edit_link(black_box(buffer), log, 0, 0, link));
            black_box(library::undo(black_box(buffer), log, 1));
        }),
        good: Box::new(move || {
            let (buffer, log) = &mut *other.borrow_mut();
            black_box(session::edit_link(black_box(buffer), log, 0, 0, link));
            black_box(session::undo(black_box(buffer), log, 1));
        }),
    }
}
