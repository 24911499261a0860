//! Reading requirement messages: the longest there is, and the one whose
//! reduction costs most; and writing the longest.

use std::hint::black_box;
use std::rc::Rc;

use compare::library;
use compare::sheet::{asking, threshold};
use compare::worst::wide;
use good::{calls, writing as good_writing};
use second::requirement::{encode, Comparison, Node};
use second::writing::lists;

use crate::Work;

const LONGEST: usize = 12_066;

/// The longest message: 64 nodes, 16 thresholds, 64 nodes in each inner concept.
fn longest_root() -> Node {
    let mut root = wide();
    root.thresholds = (0..16)
        .map(|_| threshold(Comparison::AtLeast, 1, 1, wide()))
        .collect();
    root
}

pub fn longest() -> Work {
    let root = longest_root();
    let what = "the longest message, 12,066 bytes: 64 nodes, 16 thresholds of 64 nodes each";
    reading("message", what, &root)
}

/// Inner concepts of two equal halves, each with equal halves in turn: every
/// node has a sibling that it must be compared with all the way down.
pub fn costly() -> Work {
    fn halves(levels: usize) -> Node {
        let children = match levels {
            0 => vec![],
            _ => vec![(0, halves(levels - 1)), (0, halves(levels - 1))],
        };
        Node {
            children,
            ..Node::leaf(0)
        }
    }
    let thresholds = (0..16).map(|_| threshold(Comparison::AtLeast, 1, 1, halves(5)));
    let root = asking(thresholds.collect());
    let what = "16 inner concepts of equal halves: each node has a sibling to be compared with";
    reading("reduction", what, &root)
}

fn reading(name: &'static str, what: &str, root: &Node) -> Work {
    let message: Rc<[u8]> = encode(root).into();
    let (one, other) = (message.clone(), message.clone());
    Work {
        name,
        calls: "svelgandur_read_requirement",
        what: what.to_string(),
        questions: 1,
        same: Box::new(move || {
            let good = calls::read_requirement(&message);
            assert_eq!(good[0], 1);
            assert_eq!(library::read_requirement(&message), good);
        }),
        library: Box::new(move || {
            black_box(library::read_requirement(black_box(&one)));
        }),
        good: Box::new(move || {
            black_box(calls::read_requirement(black_box(&other)));
        }),
    }
}

/// Writing the longest message from lists.
pub fn writing() -> Work {
    let message = encode(&longest_root());
    let all: Rc<[Vec<u64>; 3]> = lists(&longest_root()).into();
    let (one, other) = (all.clone(), all.clone());
    Work {
        name: "write",
        calls: "svelgandur_write_requirement",
        what: "the longest message, 12,066 bytes, written from lists".to_string(),
        questions: 1,
        same: Box::new(move || {
            let (mut ours, mut theirs) = ([0; LONGEST], [0; LONGEST]);
            let good = good_writing::write_requirement(&all[0], &all[1], &all[2], &mut theirs);
            let lists = [&all[0][..], &all[1], &all[2]];
            assert_eq!(library::write_requirement(lists, &mut ours), good);
            assert_eq!(good, [1, LONGEST as u64, 0, 0]);
            assert!(ours[..] == message && theirs == ours);
        }),
        library: Box::new(move || {
            let mut out = [0; LONGEST];
            let lists = black_box([&one[0][..], &one[1], &one[2]]);
            black_box(library::write_requirement(lists, &mut out));
        }),
        good: Box::new(move || {
            let mut out = [0; LONGEST];
            let [nodes, thresholds, inner] = black_box([&other[0], &other[1], &other[2]]);
            black_box(good_writing::write_requirement(
                nodes, thresholds, inner, &mut out,
            ));
        }),
    }
}
