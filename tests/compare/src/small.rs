//! Every register and every concept that is small enough to list.

use second::register::{self, Link, Register};
use second::requirement::Node;

/// Every register of two items, one role and the names 0 and 1, with its image.
pub fn registers() -> Vec<(Register, Vec<u8>)> {
    registers_over(|names| names)
}

/// The same, with another set of names for each of the four over names 0 and 1.
pub fn registers_over(renamed: fn(u64) -> u64) -> Vec<(Register, Vec<u8>)> {
    let every_link: [Link; 4] = [(0, 0, 0), (0, 0, 1), (1, 0, 0), (1, 0, 1)];
    let mut registers = Vec::new();
    for names in 0..16 {
        for chosen in 0..16 {
            let register = Register {
                names: vec![renamed(names & 3), renamed(names >> 2)],
                links: (0..4)
                    .filter(|link| chosen >> link & 1 == 1)
                    .map(|link: usize| every_link[link])
                    .collect(),
            };
            let image = register::encode(&register);
            registers.push((register, image));
        }
    }
    registers
}

/// Every tree of up to three nodes under role 0 over names 0 and 1, and of four
/// nodes over name 0.
pub fn concepts() -> Vec<Node> {
    let mut list = up_to_three();
    list.extend(trees(4, 2));
    list
}

/// Every tree of up to three nodes under role 0, with another set of names for
/// each of the four over names 0 and 1.
pub fn concepts_over(renamed: fn(u64) -> u64) -> Vec<Node> {
    let mut list = up_to_three();
    for root in &mut list {
        rename(root, renamed);
    }
    list
}

fn rename(node: &mut Node, renamed: fn(u64) -> u64) {
    node.names = renamed(node.names);
    for (_, child) in &mut node.children {
        rename(child, renamed);
    }
}

fn up_to_three() -> Vec<Node> {
    (1..=3).flat_map(|nodes| trees(nodes, 4)).collect()
}

/// Every tree of so many nodes, each with one of the sets below `sets`.
fn trees(nodes: usize, sets: u64) -> Vec<Node> {
    let mut list = Vec::new();
    for children in forests(nodes - 1, sets) {
        for names in 0..sets {
            list.push(Node {
                names,
                thresholds: Vec::new(),
                children: children.iter().map(|child| (0, child.clone())).collect(),
            });
        }
    }
    list
}

/// Every list of trees with so many nodes together.
fn forests(nodes: usize, sets: u64) -> Vec<Vec<Node>> {
    if nodes == 0 {
        return vec![Vec::new()];
    }
    let mut list = Vec::new();
    for first in 1..=nodes {
        for rest in forests(nodes - first, sets) {
            for tree in trees(first, sets) {
                let mut forest = vec![tree];
                forest.extend(rest.iter().cloned());
                list.push(forest);
            }
        }
    }
    list
}
