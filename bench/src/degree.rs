//! Degrees and margins: a board at a time over a whole house, the costliest
//! pairs, and how the work grows with items, links and nodes. No item is withdrawn
//! but in the rows that say so.

use std::hint::black_box;
use std::rc::Rc;

use compare::library;
use compare::worst::{all_linked, broom, bushy, chain, comb, fans, with_withdrawn};
use good::calls;
use second::gen::registers::register_of;
use second::gen::{Palette, Rng};
use second::judged::Judged;
use second::register::{self, Register};
use second::requirement::{self, Node};

use crate::Work;

pub fn works() -> Vec<Work> {
    let mut works = vec![boards(), boards_withdrawn()];
    works.extend(costliest());
    works.extend(growth());
    works
}

/// One call for one item: the costliest pairs.
fn costliest() -> Vec<Work> {
    let linked = all_linked(|item| item as u64 & 7);
    let steep = chain(|depth| depth as u64 & 7);
    let largest = fans();
    let random = spread(512, 4096);
    let all_to_all = "64 items all linked to each other under one role, a chain of depth 16";
    let at_random = "512 items, 4,096 random links over 4 roles";
    let unnamed = format!("{at_random}, 64 nodes, of which 61 are kept");
    let named = format!("{at_random}, 30 nodes with a name each");
    vec![
        one("linked", all_to_all, &linked, &steep),
        one(
            "bushy",
            "the largest image, 61 kept nodes at depth 2",
            &largest,
            &bushy(),
        ),
        one(
            "comb",
            "the largest image, 61 kept nodes down to depth 16",
            &largest,
            &comb(),
        ),
        one(
            "broom",
            "the largest image, 61 kept nodes, most at depth 16",
            &largest,
            &broom(),
        ),
        one("random", &unnamed, &random, &scattered(61, 3, 0)),
        one("random-names", &named, &random, &scattered(30, 0, 30)),
        one(
            "random-comb",
            &format!("{at_random}, 61 kept nodes down to depth 16"),
            &random,
            &comb(),
        ),
        one(
            "random-withdrawn",
            "the same with each tenth item withdrawn",
            &with_withdrawn(random.clone(), 10),
            &comb(),
        ),
        margin("margin", "as bushy", &largest, &bushy()),
        margin("margin-broom", "as broom", &largest, &broom()),
        margin("margin-random", "as random", &random, &scattered(61, 3, 0)),
    ]
}

/// More items, more links, more nodes, each by itself.
fn growth() -> Vec<Work> {
    const STEPS: [(&str, usize, usize, u8); 7] = [
        ("items-128", 128, 1024, 10),
        ("items-256", 256, 1024, 10),
        ("links-1024", 512, 1024, 10),
        ("links-2048", 512, 2048, 10),
        ("links-4096", 512, 4096, 10),
        ("nodes-16", 512, 4096, 5),
        ("nodes-61", 512, 4096, 20),
    ];
    let step = |(name, items, links, count)| {
        let nodes = 1 + 3 * u32::from(count);
        let what = format!("{items} items, {links} links, {nodes} nodes");
        one(name, &what, &spread(items, links), &branches(count))
    };
    STEPS.into_iter().map(step).collect()
}

/// Items with links under a few roles, none of them withdrawn.
pub fn spread(items: usize, links: usize) -> Register {
    let palette = Palette {
        names: (0..64).collect(),
        roles: (0..4).collect(),
        withdrawn: 0,
    };
    register_of(&mut Rng::new(1), &palette, items, links)
}

/// So many nodes hung at random, no two children of one node under the same
/// of 4 roles, and so many leaves again, which are dropped; the first so many
/// nodes have a name.
pub fn scattered(nodes: usize, again: usize, named: usize) -> Node {
    let mut rng = Rng::new(3);
    // Of each node its parent, its role and its depth.
    let mut rows = vec![(0, 0, 0)];
    while rows.len() < nodes {
        let (above, role) = (rng.index(rows.len()), rng.below(4) as u8);
        let depth = rows[above].2 + 1;
        let taken = (1..rows.len()).any(|row| (rows[row].0, rows[row].1) == (above, role));
        if depth <= 16 && !taken {
            rows.push((above, role, depth));
        }
    }
    let is_leaf = |row: usize| rows.iter().skip(1).all(|other| other.0 != row);
    let leaves = (1..nodes).filter(|row| is_leaf(*row));
    let more: Vec<_> = leaves.take(again).map(|row| rows[row]).collect();
    rows.extend(more);
    hung(0, &rows, named)
}

fn hung(row: usize, rows: &[(usize, u8, usize)], named: usize) -> Node {
    let names = if row < named { 1 << (row * 2) } else { 0 };
    let below = (1..rows.len()).filter(|other| rows[*other].0 == row);
    Node {
        children: below
            .map(|other| (rows[other].1, hung(other, rows, named)))
            .collect(),
        ..Node::leaf(names)
    }
}

/// A root with so many branches under roles of their own, two leaves on each.
fn branches(count: u8) -> Node {
    let leaves = || vec![(0, Node::leaf(0)), (1, Node::leaf(0))];
    let branch = || Node {
        children: leaves(),
        ..Node::leaf(0)
    };
    Node {
        children: (0..count).map(|role| (role, branch())).collect(),
        ..Node::leaf(0)
    }
}

/// 500 boards with 4 links each and a requirement of 10 nodes, as a house asks
/// it: one call for each board.
fn boards() -> Work {
    let (register, root) = house();
    let what = "500 boards, 2,000 links, a requirement of 10 nodes: each of 500 calls";
    let items = 0..register.items() as u64;
    degree("boards", what, &register, &root, items.collect())
}

/// The same with each tenth board withdrawn, and one call for each of the others.
fn boards_withdrawn() -> Work {
    let (register, root) = house();
    let register = with_withdrawn(register, 10);
    let what = "the same with each tenth board withdrawn: each of 450 calls";
    let items: Vec<u64> = Judged::of(&register).each().map(u64::from).collect();
    assert_eq!(items.len(), 450);
    degree("boards-withdrawn", what, &register, &root, items)
}

/// 500 boards and a requirement of 10 nodes.
pub fn house() -> (Register, Node) {
    let register = spread(500, 2000);
    let leaf = |name: u32| Node::leaf(1 << name | 1 << (name + 20));
    let node = |name: u32, children| Node {
        children,
        ..leaf(name)
    };
    let power = node(1, vec![(0, leaf(2)), (1, leaf(3))]);
    let clock = node(4, vec![(0, leaf(5)), (2, node(6, vec![(3, leaf(7))]))]);
    let root = node(8, vec![(0, power), (1, clock), (2, leaf(9)), (3, leaf(10))]);
    assert_eq!(requirement::written(&root).len(), 10);
    (register, root)
}

/// One call for the first item.
fn one(name: &'static str, what: &str, register: &Register, root: &Node) -> Work {
    degree(name, what, register, root, vec![0])
}

type Asked = fn(&[u8], &[u8], u64) -> ([u64; 4], [u16; 64]);

/// One call for each of these items.
fn asking(
    (name, calls): (&'static str, &'static str),
    what: &str,
    (register, root): (&Register, &Node),
    items: Vec<u64>,
    [library, good]: [Asked; 2],
) -> Work {
    let image: Rc<[u8]> = register::encode(register).into();
    let message: Rc<[u8]> = requirement::encode(root).into();
    let items: Rc<[u64]> = items.into();
    let both = (image.clone(), message.clone(), items.clone());
    let each = |asked: Asked| -> Box<dyn Fn()> {
        let (image, message, items) = (image.clone(), message.clone(), items.clone());
        Box::new(move || {
            for item in &*items {
                black_box(asked(black_box(&image), black_box(&message), *item));
            }
        })
    };
    Work {
        name,
        calls,
        what: what.to_string(),
        questions: items.len() as u32,
        library: each(library),
        good: each(good),
        same: Box::new(move || {
            let (image, message, items) = &both;
            for item in &**items {
                let answer = library(image, message, *item);
                assert_eq!(answer.0[0], 1);
                assert_eq!(answer, good(image, message, *item));
            }
        }),
    }
}

fn degree(
    name: &'static str,
    what: &str,
    register: &Register,
    root: &Node,
    items: Vec<u64>,
) -> Work {
    let library: Asked = |image, message, item| {
        let mut map = [0; 64];
        let answer = library::degree(image, message, item, &mut map);
        (answer, map)
    };
    let good: Asked = |image, message, item| {
        let mut map = [0; 64];
        let answer = calls::degree(image, message, item, &mut map);
        (answer, map)
    };
    let who = (name, "svelgandur_degree");
    asking(who, what, (register, root), items, [library, good])
}

fn margin(name: &'static str, what: &str, register: &Register, root: &Node) -> Work {
    let library: Asked =
        |image, message, item| (library::margin(image, message, item, 2, 3), [0; 64]);
    let good: Asked = |image, message, item| (calls::margin(image, message, item, 2, 3), [0; 64]);
    let who = (name, "svelgandur_margin");
    asking(who, what, (register, root), vec![0], [library, good])
}
