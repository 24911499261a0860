//! The listing program beside the good program's and the second program's, each
//! started anew for every listing, with its input on a pipe.

use std::io::Write;
use std::process::{Command, Stdio};
use std::rc::Rc;

use compare::worst::{bushy, fans, sixteen_thresholds};
use second::requirement::Node;
use second::{register, requirement};

use crate::{degree, member, Work};

/// The program that `list` is held against: where it stands, and the word for
/// its instructions in `bench/run`.
#[derive(Clone, Copy)]
struct Beside {
    variable: &'static str,
    calls: &'static str,
}

const GOOD: Beside = Beside {
    variable: "GOOD_LIST",
    calls: "main / main-good",
};
const SECOND: Beside = Beside {
    variable: "SECOND_LIST",
    calls: "main / main-second",
};

/// What is listed, by the name of its row.
const ROWS: [(&str, Beside, &str); 6] = [
    (
        "listing",
        GOOD,
        "500 boards, 2,000 links, a requirement of 10 nodes",
    ),
    (
        "listing-sixteen",
        GOOD,
        "the same boards, 21 nodes, 16 thresholds of 10 nodes each",
    ),
    (
        "listing-largest",
        GOOD,
        "the largest image, 61 kept nodes at depth 2",
    ),
    (
        "listing-largest-sixteen",
        GOOD,
        "the largest image, 57 nodes, 16 thresholds of 64 nodes each, 61 kept",
    ),
    ("listing-second", SECOND, "as listing"),
    ("listing-sixteen-second", SECOND, "as listing-sixteen"),
];

/// All listings of which both programs are there.
pub fn works() -> Vec<Work> {
    let Ok(list) = std::env::var("LIST") else {
        return Vec::new();
    };
    let beside = |(name, other, what): (&'static str, Beside, &str)| {
        let program = std::env::var(other.variable).ok()?;
        Some(work(name, other.calls, what, [&list, &program]))
    };
    ROWS.into_iter().filter_map(beside).collect()
}

fn work(name: &'static str, calls: &'static str, what: &str, [list, other]: [&String; 2]) -> Work {
    let input: Rc<[u8]> = input(name).into();
    let printing = |program: &String| -> Box<dyn Fn()> {
        let (input, program) = (input.clone(), program.clone());
        Box::new(move || drop(printed(&program, &input)))
    };
    let (ours, theirs, same_input) = (list.clone(), other.clone(), input.clone());
    Work {
        name,
        calls,
        what: format!("{what}, {} bytes of input", input.len()),
        questions: 1,
        library: printing(list),
        good: printing(other),
        same: Box::new(move || {
            assert_eq!(printed(&ours, &same_input), printed(&theirs, &same_input));
        }),
    }
}

/// The register and the requirement of a row, one after the other.
pub fn input(name: &str) -> Vec<u8> {
    let (house, plain) = degree::house();
    let largest = fans();
    let (register, root) = match name {
        "listing-sixteen" | "listing-sixteen-second" => {
            let outer = member::fan(4, &member::fan(4, &Node::leaf(0)));
            (house, sixteen_thresholds(outer, &plain))
        }
        "listing-largest" => (largest, bushy()),
        "listing-largest-sixteen" => {
            let outer = member::fan(8, &member::fan(6, &Node::leaf(0)));
            (largest, sixteen_thresholds(outer, &bushy()))
        }
        _ => (house, plain),
    };
    [register::encode(&register), requirement::encode(&root)].concat()
}

/// What a program prints for an input.
fn printed(program: &str, input: &[u8]) -> Vec<u8> {
    let mut child = Command::new(program)
        .stdin(Stdio::piped())
        .stdout(Stdio::piped())
        .spawn()
        .expect("the program starts");
    child
        .stdin
        .take()
        .expect("a pipe")
        .write_all(input)
        .expect("the input is taken");
    child.wait_with_output().expect("the program ends").stdout
}
