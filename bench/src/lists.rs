//! The whole list: 40 requirements of one house, as its planner asks them, by
//! one call each and by single calls; and the costliest pairs. Each list has a
//! table of just as many places as it needs, which is filled with zeros before
//! the call, and that is in the times.

use std::cell::RefCell;
use std::collections::HashSet;
use std::hint::black_box;
use std::rc::Rc;

use compare::library;
use compare::worst::{bushy, comb, fans, with_withdrawn};
use good::{calls, list};
use second::gen::requirements::tree;
use second::gen::{Palette, Rng};
use second::register::{self, Register};
use second::requirement::{self, Node};

use crate::degree::{house, spread};
use crate::Work;

const LIBRARY: Listed = library::list;
const GOOD: Listed = good_list;

pub fn works() -> Vec<Work> {
    let (boards, _) = house();
    let planned = requirements();
    vec![
        beside_good(
            "lists-house",
            "500 boards, 2,000 links, 40 requirements of 10 nodes: each of 40 lists",
            &Asked::of(&boards, &planned),
        ),
        beside_good(
            "lists-withdrawn",
            "the same with each tenth board withdrawn",
            &Asked::of(&with_withdrawn(boards.clone(), 10), &planned),
        ),
        beside_singles(
            "lists-single",
            "8 of the same 40 lists: each of them by 500 single calls, and by one",
            &Asked::of(&boards, &planned[..8]),
        ),
        beside_good(
            "lists-largest",
            "the largest image, 61 kept nodes at depth 2",
            &Asked::of(&fans(), &[bushy()]),
        ),
        beside_good(
            "lists-random",
            "512 items, 4,096 random links over 4 roles, 61 kept nodes down to depth 16",
            &Asked::of(&spread(512, 4096), &[comb()]),
        ),
    ]
}

/// 40 requirements of 10 nodes, no two the same, of up to three names each.
fn requirements() -> Vec<Node> {
    let palette = Palette {
        names: (0..64).collect(),
        roles: (0..4).collect(),
        withdrawn: 0,
    };
    let mut rng = Rng::new(1);
    let roots: Vec<Node> = (0..40).map(|_| tree(&mut rng, &palette, 10, 16)).collect();
    let different: HashSet<Vec<u8>> = roots.iter().map(requirement::encode).collect();
    assert_eq!(different.len(), 40);
    for root in &roots {
        assert_eq!(requirement::written(root).len(), 10);
    }
    roots
}

/// A register, and requirements that are asked of it, one after the other; each
/// with the places that its table needs.
#[derive(Clone)]
struct Asked {
    image: Rc<[u8]>,
    messages: Rc<[(Vec<u8>, usize)]>,
    items: u64,
}

impl Asked {
    fn of(register: &Register, roots: &[Node]) -> Asked {
        let message = |root| {
            let places = requirement::written(root).len() * register.items();
            (requirement::encode(root), places)
        };
        Asked {
            image: register::encode(register).into(),
            messages: roots.iter().map(message).collect(),
            items: register.items() as u64,
        }
    }

    fn questions(&self) -> u32 {
        self.messages.len() as u32
    }

    /// The room of the longest table.
    fn room(&self) -> usize {
        let places = self.messages.iter().map(|(_, places)| *places);
        places.max().unwrap_or(0)
    }

    /// A list for each requirement, the table cleared before.
    fn listed(&self, list: Listed) -> Box<dyn Fn()> {
        let asked = self.clone();
        let table = RefCell::new(vec![0; asked.room()]);
        Box::new(move || {
            for (message, places) in &*asked.messages {
                let table = &mut table.borrow_mut()[..*places];
                table.fill(0);
                let (image, message) = (black_box(&asked.image), black_box(message));
                black_box(list(image, message, black_box(table)));
            }
        })
    }

    /// A single call for each item, for each requirement.
    fn singly(&self) -> Box<dyn Fn()> {
        let asked = self.clone();
        Box::new(move || {
            for (message, _) in &*asked.messages {
                for item in 0..asked.items {
                    let mut map = [0; 64];
                    let (image, message) = (black_box(&asked.image), black_box(message));
                    black_box(library::degree(image, message, item, &mut map));
                    black_box(map);
                }
            }
        })
    }

    /// What a program lists for one requirement: its answer, and the table with
    /// what stood behind it.
    fn once(&self, list: Listed, message: &[u8]) -> ([u64; 4], Vec<u32>) {
        let mut table = vec![7; self.room() + 9];
        let answer = list(&self.image, message, &mut table);
        assert_eq!(answer[0], 1);
        (answer, table)
    }
}

type Listed = fn(&[u8], &[u8], &mut [u32]) -> [u64; 4];

/// The good program's, by a name under which its instructions can be counted.
#[no_mangle]
#[inline(never)]
pub fn good_list(image: &[u8], message: &[u8], table: &mut [u32]) -> [u64; 4] {
    list::list(image, message, table)
}

fn beside_good(name: &'static str, what: &str, asked: &Asked) -> Work {
    let both = asked.clone();
    Work {
        name,
        calls: "svelgandur_list / good_list",
        what: what.to_string(),
        questions: asked.questions(),
        library: asked.listed(LIBRARY),
        good: asked.listed(GOOD),
        same: Box::new(move || {
            for (message, _) in &*both.messages {
                assert!(both.once(LIBRARY, message) == both.once(GOOD, message));
            }
        }),
    }
}

/// The library's single calls, beside its list.
fn beside_singles(name: &'static str, what: &str, asked: &Asked) -> Work {
    let both = asked.clone();
    Work {
        name,
        calls: "svelgandur_degree / svelgandur_list",
        what: what.to_string(),
        questions: asked.questions(),
        library: asked.singly(),
        good: asked.listed(LIBRARY),
        same: Box::new(move || {
            for (message, _) in &*both.messages {
                let ([_, _, nodes, scale], table) = both.once(LIBRARY, message);
                for item in 0..both.items {
                    let (num, den) = calls::lowest(table[item as usize], scale as u32);
                    let single = library::degree(&both.image, message, item, &mut [0; 64]);
                    assert_eq!(single, [1, num, den, nodes]);
                }
            }
        }),
    }
}
