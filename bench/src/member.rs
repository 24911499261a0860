//! The yes or no: on the largest register with 16 thresholds whose inner
//! concepts have 64 nodes, and with none; and where links go at random.

use std::hint::black_box;
use std::rc::Rc;

use compare::library;
use compare::worst::{bushy, comb, fans, sixteen_thresholds, wide};
use good::calls;
use second::register::{self, Register};
use second::requirement::{self, Node};

use crate::degree::{scattered, spread};
use crate::Work;

pub fn works() -> Vec<Work> {
    // An outer tree that every item meets, so that a map is written.
    let outer = || fan(8, &fan(6, &Node::leaf(0)));
    let sixteen = |inner: &Node| sixteen_thresholds(outer(), inner);
    let largest = fans();
    // One that some items meet, thresholds on its leaves.
    let random = sixteen_thresholds(fan(4, &fan(4, &Node::leaf(0))), &scattered(61, 3, 0));
    vec![
        member("member", "57 nodes, no threshold", &largest, &outer()),
        member(
            "sixteen",
            "the same with 16 thresholds, inner concepts of 64 nodes, 61 kept",
            &largest,
            &sixteen(&bushy()),
        ),
        member(
            "sixteen-comb",
            "the same with inner concepts down to depth 16",
            &largest,
            &sixteen(&comb()),
        ),
        member(
            "sixteen-wide",
            "the same with inner concepts of which 2 nodes are kept",
            &largest,
            &sixteen(&wide()),
        ),
        member(
            "sixteen-random",
            "512 items, 4,096 random links over 4 roles, 21 nodes, 16 thresholds as random",
            &spread(512, 4096),
            &random,
        ),
    ]
}

/// A node with so many children, each under a role of its own.
pub fn fan(children: u8, child: &Node) -> Node {
    Node {
        children: (0..children).map(|role| (role, child.clone())).collect(),
        ..Node::leaf(0)
    }
}

/// The first item that meets the tree is asked for.
fn member(name: &'static str, what: &str, register: &Register, root: &Node) -> Work {
    let image: Rc<[u8]> = register::encode(register).into();
    let message: Rc<[u8]> = requirement::encode(root).into();
    let item = (0..register.items() as u64)
        .find(|item| calls::member(&image, &message, *item, &mut [0; 64])[0] == 1)
        .expect("an item that meets it");
    let (one, other) = (
        (image.clone(), message.clone()),
        (image.clone(), message.clone()),
    );
    Work {
        name,
        calls: "svelgandur_member",
        what: what.to_string(),
        questions: 1,
        same: Box::new(move || {
            let (mut map, mut same) = ([7; 64], [7; 64]);
            let answer = library::member(&image, &message, item, &mut map);
            let good = calls::member(&image, &message, item, &mut same);
            assert_eq!((answer, map), (good, same));
        }),
        library: Box::new(move || {
            let mut map = [0; 64];
            let (image, message) = (black_box(&one.0), black_box(&one.1));
            black_box(library::member(image, message, item, &mut map));
            black_box(map);
        }),
        good: Box::new(move || {
            let mut map = [0; 64];
            let (image, message) = (black_box(&other.0), black_box(&other.1));
            black_box(calls::member(image, message, item, &mut map));
            black_box(map);
        }),
    }
}
