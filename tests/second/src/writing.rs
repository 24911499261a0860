//! A requirement handed over as lists of numbers, and the message written for
//! it.
//!
//! Renders §1 of document 02, with the numbers of §2. A node is three numbers:
//! names, depth, role. A threshold is five: node, comparison, p, q and how many
//! inner nodes it has; the inner nodes of all thresholds stand one after the
//! other.

use crate::reduce::{reduce, MOST_SIZE};
use crate::register::MOST_ROLE;
use crate::requirement::{
    encode, fraction_fault, Comparison, Node, Threshold, MOST_DEPTH, MOST_NODES, MOST_THRESHOLDS,
};
use crate::Refusal;

/// A node as it was handed over, with all that hangs below it.
struct Wide<'a> {
    names: u64,
    depth: u64,
    role: u64,
    thresholds: Vec<WideThreshold<'a>>,
    children: Vec<Wide<'a>>,
}

struct WideThreshold<'a> {
    numbers: &'a [u64],
    inner: Wide<'a>,
}

/// The tree that a list forms, if it forms one: the first at depth 0, each
/// later one from 1 to one above the one before.
fn tree(list: &[u64]) -> Option<Wide<'static>> {
    let nodes: Vec<[u64; 3]> = list
        .chunks(3)
        .map(|node| node.try_into().ok())
        .collect::<Option<_>>()?;
    let depths: Vec<u64> = nodes.iter().map(|node| node[1]).collect();
    if *depths.first()? != 0 {
        return None;
    }
    for pair in depths.windows(2) {
        if pair[1] == 0 || pair[1] - 1 > pair[0] {
            return None;
        }
    }
    Some(hang(&nodes))
}

/// The first node, and below it each later one that stands one deeper.
fn hang(nodes: &[[u64; 3]]) -> Wide<'static> {
    let [names, depth, role] = nodes[0];
    let starts: Vec<usize> = (1..nodes.len())
        .filter(|at| nodes[*at][1] == depth + 1)
        .collect();
    let children = starts
        .iter()
        .enumerate()
        .map(|(k, start)| {
            let end = starts.get(k + 1).copied().unwrap_or(nodes.len());
            hang(&nodes[*start..end])
        })
        .collect();
    Wide {
        names,
        depth,
        role,
        thresholds: Vec::new(),
        children,
    }
}

/// The tree with its thresholds, or none: number 22.
fn handed<'a>(nodes: &[u64], thresholds: &'a [u64], inner: &[u64]) -> Option<Wide<'a>> {
    let mut root = tree(nodes)?;
    let mut rest = inner;
    let mut before = 0;
    for numbers in thresholds.chunks(5) {
        if numbers.len() != 5 {
            return None;
        }
        let [node, count] = [numbers[0], numbers[4]];
        if node < before || node >= nodes.len() as u64 / 3 {
            return None;
        }
        before = node;
        let count = usize::try_from(count).ok()?.checked_mul(3)?;
        if count > rest.len() {
            return None;
        }
        let (own, others) = rest.split_at(count);
        rest = others;
        let inner = tree(own)?;
        let mut number = node as usize;
        nth(&mut root, &mut number)
            .expect("a node of the list")
            .thresholds
            .push(WideThreshold { numbers, inner });
    }
    rest.is_empty().then_some(root)
}

/// The node of this number in reading order.
fn nth<'a, 'b>(node: &'b mut Wide<'a>, number: &mut usize) -> Option<&'b mut Wide<'a>> {
    if *number == 0 {
        return Some(node);
    }
    *number -= 1;
    node.children
        .iter_mut()
        .find_map(|child| nth(child, number))
}

/// What is counted while one tree is gone through, the outer one or an inner
/// one.
#[derive(Default)]
struct Counted {
    nodes: usize,
    thresholds: usize,
}

impl Counted {
    /// A node as reading would meet it: 7 (not at a root), 9, 10, then its
    /// thresholds, then its children.
    fn node(&mut self, wide: &Wide<'_>) -> Result<Node, Refusal> {
        if self.nodes > 0 && wide.role > MOST_ROLE {
            return Err(Refusal::call(7));
        }
        if wide.depth > MOST_DEPTH as u64 {
            return Err(Refusal::call(9));
        }
        self.nodes += 1;
        if self.nodes > MOST_NODES {
            return Err(Refusal::call(10));
        }
        let mut node = Node::leaf(wide.names);
        for threshold in &wide.thresholds {
            node.thresholds.push(self.threshold(threshold)?);
        }
        for child in &wide.children {
            let below = self.node(child)?;
            node.children.push((child.role as u8, below));
        }
        Ok(node)
    }

    /// A threshold: 12, 13, 23, 24, 25, the inner list, 14.
    fn threshold(&mut self, wide: &WideThreshold<'_>) -> Result<Threshold, Refusal> {
        self.thresholds += 1;
        if self.thresholds > MOST_THRESHOLDS {
            return Err(Refusal::call(12));
        }
        let comparison = Comparison::from_byte(wide.numbers[1]).ok_or(Refusal::call(13))?;
        let [p, q] = [wide.numbers[2], wide.numbers[3]];
        if let Some((number, _)) = fraction_fault(p, q) {
            return Err(Refusal::call(number));
        }
        let inner = Counted::default().node(&wide.inner)?;
        if reduce(&inner).size() > MOST_SIZE {
            return Err(Refusal::call(14));
        }
        Ok(Threshold {
            comparison,
            p: p as u16,
            q: q as u16,
            inner,
            start: 0,
            len: 0,
        })
    }
}

/// The message of the requirement that the lists say, for an output of so
/// many bytes.
pub fn write(
    nodes: &[u64],
    thresholds: &[u64],
    inner: &[u64],
    room: usize,
) -> Result<Vec<u8>, Refusal> {
    let wide = handed(nodes, thresholds, inner).ok_or(Refusal::call(22))?;
    let root = Counted::default().node(&wide)?;
    let message = encode(&root);
    if message.len() > room {
        return Err(Refusal::call(21));
    }
    Ok(message)
}

/// The lists of a requirement: its nodes, its thresholds, their inner nodes.
pub fn lists(root: &Node) -> [Vec<u64>; 3] {
    fn put(node: &Node, depth: u64, role: u8, all: &mut [Vec<u64>; 3]) {
        let number = all[0].len() as u64 / 3;
        all[0].extend([node.names, depth, u64::from(role)]);
        for threshold in &node.thresholds {
            let [own, none, nothing] = lists(&threshold.inner);
            assert!(
                none.is_empty() && nothing.is_empty(),
                "thresholds in an inner concept"
            );
            all[1].extend([
                number,
                u64::from(threshold.comparison.byte()),
                u64::from(threshold.p),
                u64::from(threshold.q),
                own.len() as u64 / 3,
            ]);
            all[2].extend(own);
        }
        for (role, child) in &node.children {
            put(child, depth + 1, *role, all);
        }
    }
    let mut all = [Vec::new(), Vec::new(), Vec::new()];
    put(root, 0, 0, &mut all);
    all
}
