//! Writing a requirement message from lists: one walk that tests, which keeps
//! how many children each node has, and one that writes.

use crate::calls::{answer, GOOD};
use crate::tree::Tree;
use crate::{
    fraction_fault, refuse, Answer, Refusal, Side, MOST_DEPTH, MOST_NODES, MOST_ROLE, MOST_SIZE,
    MOST_THRESHOLDS,
};

fn refused<T>(number: u8) -> Result<T, Refusal> {
    refuse(Side::Call, number, 0)
}

/// The first stands at depth 0, each later one from 1 to one above the one
/// before.
fn forms(list: &[u64]) -> bool {
    let mut nodes = list.chunks_exact(3);
    if nodes.next().is_none_or(|root| root[1] != 0) {
        return false;
    }
    let mut before = 0;
    nodes.all(|node| {
        let right = node[1].wrapping_sub(1) <= before;
        before = node[1];
        right
    })
}

/// The numbers go into whole nodes and thresholds, and these form a
/// requirement.
fn handed(nodes: &[u64], thresholds: &[u64], inner: &[u64]) -> bool {
    if nodes.len() % 3 != 0 || thresholds.len() % 5 != 0 || inner.len() % 3 != 0 || !forms(nodes) {
        return false;
    }
    let (mut rest, mut before) = (inner, 0);
    for numbers in thresholds.chunks_exact(5) {
        let (node, count) = (numbers[0], numbers[4]);
        if node < before || node >= nodes.len() as u64 / 3 || count > rest.len() as u64 / 3 {
            return false;
        }
        before = node;
        let own;
        (own, rest) = rest.split_at(3 * count as usize);
        if !forms(own) {
            return false;
        }
    }
    rest.is_empty()
}

/// A list node by node: 7, 9, 10; `at` sees each node's number when the node
/// has passed.
#[inline]
fn gone_through(
    list: &[u64],
    tree: &mut Tree,
    mut at: impl FnMut(usize) -> Result<(), Refusal>,
) -> Result<(), Refusal> {
    let mut open = [0u8; MOST_DEPTH + 1];
    for (number, node) in list.chunks_exact(3).enumerate() {
        let (names, depth, role) = (node[0], node[1] as usize, node[2]);
        if number > 0 && role > MOST_ROLE {
            return refused(7);
        }
        if depth > MOST_DEPTH {
            return refused(9);
        }
        if number >= MOST_NODES {
            return refused(10);
        }
        tree.names[number] = names;
        tree.role[number] = role as u8;
        open[depth] = number as u8;
        if number > 0 {
            tree.kids[usize::from(open[depth - 1]) & 63] |= 1 << number;
        }
        tree.nodes = number + 1;
        at(number)?;
    }
    Ok(())
}

/// How many children each node of each inner list has.
type Kids = [[u8; MOST_NODES]; MOST_THRESHOLDS];

/// A node behind its role, if it has one.
#[inline]
fn put(out: &mut [u8], at: usize, names: u64, thresholds: u8, kids: u8) -> usize {
    out[at..at + 8].copy_from_slice(&names.to_be_bytes());
    out[at + 8] = thresholds;
    out[at + 9] = kids;
    at + 10
}

fn written(
    nodes: &[u64],
    thresholds: &[u64],
    inner: &[u64],
    out: &mut [u8],
) -> Result<Answer, Refusal> {
    if !handed(nodes, thresholds, inner) {
        return refused(22);
    }
    let mut outer = Tree::EMPTY;
    let mut kids: Kids = [[0; MOST_NODES]; MOST_THRESHOLDS];
    let mut own = [0u8; MOST_NODES];
    let (mut limits, mut rest, mut count) = (thresholds.chunks_exact(5).peekable(), inner, 0);
    gone_through(nodes, &mut outer, |number| {
        while let Some(numbers) = limits.next_if(|numbers| numbers[0] == number as u64) {
            if count >= MOST_THRESHOLDS {
                return refused(12);
            }
            if numbers[1] > 3 {
                return refused(13);
            }
            if let Some((number, _)) = fraction_fault(numbers[2], numbers[3]) {
                return refused(number);
            }
            let list;
            (list, rest) = rest.split_at(3 * numbers[4] as usize);
            let mut tree = Tree::EMPTY;
            gone_through(list, &mut tree, |_| Ok(()))?;
            for node in 0..tree.nodes {
                kids[count][node] = tree.kids[node].count_ones() as u8;
            }
            if tree.reduce() > MOST_SIZE {
                return refused(14);
            }
            own[number] += 1;
            count += 1;
        }
        Ok(())
    })?;
    let length = 2 + 11 * (nodes.len() / 3 + inner.len() / 3) + 6 * count;
    let Some(out) = out.get_mut(..length) else {
        return refused(21);
    };
    out[0] = 1;
    out[1..3].copy_from_slice(&((length - 3) as u16).to_be_bytes());
    let (mut at, mut limits, mut rest, mut count) = (3, thresholds.chunks_exact(5), inner, 0);
    for number in 0..outer.nodes {
        if number > 0 {
            out[at] = outer.role[number];
            at += 1;
        }
        let children = outer.kids[number].count_ones() as u8;
        at = put(out, at, outer.names[number], own[number], children);
        for numbers in limits.by_ref().take(usize::from(own[number])) {
            let nodes = numbers[4] as usize;
            out[at] = numbers[1] as u8;
            out[at + 1..at + 3].copy_from_slice(&(numbers[2] as u16).to_be_bytes());
            out[at + 3..at + 5].copy_from_slice(&(numbers[3] as u16).to_be_bytes());
            out[at + 5..at + 7].copy_from_slice(&((11 * nodes - 1) as u16).to_be_bytes());
            at += 7;
            let list;
            (list, rest) = rest.split_at(3 * nodes);
            for (inner, node) in list.chunks_exact(3).enumerate() {
                if inner > 0 {
                    out[at] = node[2] as u8;
                    at += 1;
                }
                at = put(out, at, node[0], 0, kids[count][inner]);
            }
            count += 1;
        }
    }
    Ok([GOOD, length as u64, 0, 0])
}

pub fn write_requirement(
    nodes: &[u64],
    thresholds: &[u64],
    inner: &[u64],
    message: &mut [u8],
) -> Answer {
    answer(written(nodes, thresholds, inner, message))
}
