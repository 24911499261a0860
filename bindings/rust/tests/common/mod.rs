//! Images and messages for the tests, put together by hand.

#![allow(dead_code)]

/// The document's R1 and Q1.
pub const R1: [u8; 41] = [
    1, 0, 0x26, 0, 3, 0, 0, 0, 0, 0, 0, 0, 0x0A, 0, 0, 0, 0, 0, 0, 0, 2, 0, 0, 0, 0, 0, 0, 0, 4, 0,
    2, 0, 0, 0, 0, 1, 0, 0, 1, 0, 2,
];
pub const Q1: [u8; 24] = [
    1, 0, 0x15, 0, 0, 0, 0, 0, 0, 0, 6, 0, 1, 0, 0, 0, 0, 0, 0, 0, 0, 2, 0, 0,
];

/// Fractions that a margin and a threshold refuse, each with its number; many
/// have a later number's fault as well.
pub const BAD_FRACTIONS: [(u64, u64, u64); 14] = [
    (0, 0, 23),
    (1, 0, 23),
    (1, 1001, 23),
    (1002, 1001, 23),
    (1001, 1001, 23),
    (65_537, 65_538, 23),
    (u64::MAX, u64::MAX, 23),
    (3, 2, 24),
    (4, 2, 24),
    (65_537, 2, 24),
    (u64::MAX, 1, 24),
    (0, 2, 25),
    (2, 4, 25),
    (1000, 1000, 25),
];

fn with_head(body: Vec<u8>) -> Vec<u8> {
    let length = (body.len() as u16).to_be_bytes();
    [vec![1, length[0], length[1]], body].concat()
}

/// The set of these names.
pub fn set(names: &[u32]) -> u64 {
    names.iter().fold(0, |set, name| set | 1 << name)
}

/// An image: the names of each item, and the links in rising order.
pub fn image(items: &[&[u32]], links: &[(u16, u8, u16)]) -> Vec<u8> {
    let mut body = (items.len() as u16).to_be_bytes().to_vec();
    for names in items {
        body.extend(set(names).to_be_bytes());
    }
    body.extend((links.len() as u16).to_be_bytes());
    for (from, role, to) in links {
        body.extend(from.to_be_bytes());
        body.push(*role);
        body.extend(to.to_be_bytes());
    }
    with_head(body)
}

/// The bytes of a threshold: comparison byte, p, q and the inner node.
pub fn threshold(comparison: u8, p: u16, q: u16, inner: &[u8]) -> Vec<u8> {
    let mut bytes = vec![comparison];
    bytes.extend(p.to_be_bytes());
    bytes.extend(q.to_be_bytes());
    bytes.extend((inner.len() as u16).to_be_bytes());
    bytes.extend(inner);
    bytes
}

/// The bytes of a node with thresholds.
pub fn judged(names: &[u32], thresholds: &[Vec<u8>], children: &[(u8, Vec<u8>)]) -> Vec<u8> {
    let mut bytes = set(names).to_be_bytes().to_vec();
    bytes.push(thresholds.len() as u8);
    bytes.push(children.len() as u8);
    bytes.extend(thresholds.concat());
    for (role, child) in children {
        bytes.push(*role);
        bytes.extend(child);
    }
    bytes
}

/// The bytes of a plain node.
pub fn node(names: &[u32], children: &[(u8, Vec<u8>)]) -> Vec<u8> {
    judged(names, &[], children)
}

/// A message: its root.
pub fn message(root: Vec<u8>) -> Vec<u8> {
    with_head(root)
}
