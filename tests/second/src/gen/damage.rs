//! Damage: good messages made bad, by blind changes of their bytes and by
//! changes aimed at a field.

use super::registers::Palette;
use super::requirements::tree;
use super::rng::Rng;
use crate::register::{self, Register};
use crate::requirement::{self, Comparison, Node, Threshold, MOST_Q};

/// Bytes of any content and a length up to `most`.
pub fn random_bytes(rng: &mut Rng, most: usize) -> Vec<u8> {
    let length = rng.between(0, most);
    (0..length).map(|_| rng.word() as u8).collect()
}

/// Makes the head say how many bytes follow, so that a reader gets past it.
pub fn mend_head(bytes: &mut [u8]) {
    if bytes.len() >= 3 {
        let length = (bytes.len() - 3) as u16;
        bytes[0] = 1;
        bytes[1..3].copy_from_slice(&length.to_be_bytes());
    }
}

pub fn truncate(rng: &mut Rng, bytes: &mut Vec<u8>) {
    let length = rng.index(bytes.len());
    bytes.truncate(length);
}

pub fn change_one_byte(rng: &mut Rng, bytes: &mut [u8]) {
    if !bytes.is_empty() {
        let at = rng.index(bytes.len());
        bytes[at] = match rng.below(4) {
            0 => bytes[at].wrapping_add(1),
            1 => bytes[at].wrapping_sub(1),
            2 => bytes[at] ^ (1 << rng.below(8)),
            _ => rng.word() as u8,
        };
    }
}

pub fn insert_bytes(rng: &mut Rng, bytes: &mut Vec<u8>) {
    for _ in 0..rng.between(1, 3) {
        let at = rng.between(0, bytes.len());
        bytes.insert(at, rng.word() as u8);
    }
}

pub fn remove_byte(rng: &mut Rng, bytes: &mut Vec<u8>) {
    if !bytes.is_empty() {
        bytes.remove(rng.index(bytes.len()));
    }
}

/// A version or length that is not the right one.
pub fn wrong_head(rng: &mut Rng, bytes: &mut [u8]) {
    if bytes.len() < 3 {
        return;
    }
    let length = u16::from_be_bytes([bytes[1], bytes[2]]);
    let wrong = match rng.below(6) {
        0 => length.wrapping_add(1),
        1 => length.wrapping_sub(1),
        2 => 0,
        3 => u16::MAX,
        4 => length.swap_bytes(),
        _ => {
            bytes[0] = rng.pick(&[0, 2, 255]);
            length
        }
    };
    bytes[1..3].copy_from_slice(&wrong.to_be_bytes());
}

/// One or two blind changes, the head being mended half of the time.
pub fn blind_damage(rng: &mut Rng, bytes: &mut Vec<u8>) {
    for _ in 0..rng.between(1, 2) {
        match rng.below(5) {
            0 => truncate(rng, bytes),
            1 => insert_bytes(rng, bytes),
            2 => remove_byte(rng, bytes),
            _ => change_one_byte(rng, bytes),
        }
    }
    match rng.below(4) {
        0 => wrong_head(rng, bytes),
        1 | 2 => mend_head(bytes),
        _ => {}
    }
}

/// Writes a number over the low bytes of a field.
fn put(bytes: &mut [u8], place: usize, width: usize, value: u64) {
    let wide = value.to_be_bytes();
    if let Some(field) = bytes.get_mut(place..place + width) {
        field.copy_from_slice(&wide[8 - width..]);
    }
}

/// The image of a register, damaged. (A few of the changes do no harm: those
/// inputs are good ones and stay in.)
pub fn damaged_register(rng: &mut Rng, good: &Register) -> Vec<u8> {
    let mut register = good.clone();
    let links = register.links.len();
    let items = register.items();
    let links_place = 5 + 8 * items;
    let link_place = |link: usize| links_place + 2 + 5 * link;
    let mut bytes = register::encode(&register);
    match rng.below(12) {
        0 => return random_bytes(rng, 40),
        1 => wrong_head(rng, &mut bytes),
        2 => {
            let count = rng.pick(&[0, 1, items as u64 - 1, items as u64 + 1, 512, 513, 65_535]);
            put(&mut bytes, 3, 2, count);
        }
        3 => {
            let near = [
                links as u64 + 1,
                links.saturating_sub(1) as u64,
                0,
                4096,
                4097,
                65_535,
            ];
            let count = rng.pick(&near);
            put(&mut bytes, links_place, 2, count);
        }
        4 if links >= 2 => {
            let at = rng.index(links - 1);
            register.links.swap(at, at + 1);
            return register::encode(&register);
        }
        5 if links >= 1 => {
            let at = rng.index(links);
            register.links.insert(at, register.links[at]);
            return register::encode(&register);
        }
        6 if links >= 1 => {
            let place = link_place(rng.index(links));
            let end = rng.pick(&[items as u64, items as u64 - 1, 512, 65_535]);
            put(&mut bytes, place, 2, end);
        }
        7 if links >= 1 => {
            let place = link_place(rng.index(links)) + 3;
            let end = rng.pick(&[items as u64, items as u64 - 1, 512, 65_535]);
            put(&mut bytes, place, 2, end);
        }
        8 if links >= 1 => {
            let place = link_place(rng.index(links)) + 2;
            let role = rng.pick(&[31, 32, 33, 255]);
            put(&mut bytes, place, 1, role);
        }
        _ => blind_damage(rng, &mut bytes),
    }
    bytes
}

/// What a field of a message is, for damage to aim at.
#[derive(Clone, Copy, PartialEq, Eq, Debug)]
pub enum Kind {
    Names,
    ThresholdCount,
    ChildCount,
    Comparison,
    P,
    Q,
    InnerLength,
    Role,
}

/// The fields of a tree's message in reading order, each with its place.
pub fn layout(root: &Node) -> Vec<(Kind, usize)> {
    fn visit(node: &Node, place: &mut usize, list: &mut Vec<(Kind, usize)>) {
        list.push((Kind::Names, *place));
        list.push((Kind::ThresholdCount, *place + 8));
        list.push((Kind::ChildCount, *place + 9));
        *place += 10;
        for threshold in &node.thresholds {
            list.push((Kind::Comparison, *place));
            list.push((Kind::P, *place + 1));
            list.push((Kind::Q, *place + 3));
            list.push((Kind::InnerLength, *place + 5));
            *place += 7;
            visit(&threshold.inner, place, list);
        }
        for (_, child) in &node.children {
            list.push((Kind::Role, *place));
            *place += 1;
            visit(child, place, list);
        }
    }
    let mut list = Vec::new();
    visit(root, &mut 3, &mut list);
    list
}

/// Writes an edge value, good or bad, over one field of the message.
fn damage_field(rng: &mut Rng, bytes: &mut [u8], kind: Kind, place: usize) {
    let old = |width: usize| {
        bytes[place..place + width]
            .iter()
            .fold(0, |value, byte| value << 8 | u64::from(*byte))
    };
    let (width, value) = match kind {
        Kind::Names => (8, rng.word()),
        Kind::ThresholdCount | Kind::ChildCount => {
            let near = [
                old(1) + 1,
                old(1).wrapping_sub(1),
                0,
                1,
                16,
                17,
                63,
                64,
                255,
            ];
            (1, rng.pick(&near))
        }
        Kind::Comparison => (1, rng.pick(&[0, 1, 2, 3, 4, 255])),
        Kind::P => (2, rng.pick(&[0, 1, 2, old(2) + 1, 999, 1000, 1001, 65_535])),
        Kind::Q => (2, rng.pick(&[0, 1, 2, old(2) + 1, 999, 1000, 1001, 65_535])),
        Kind::InnerLength => {
            let to_the_end = (bytes.len() - place - 2) as u64;
            let near = [
                old(2) + 1,
                old(2).wrapping_sub(1),
                0,
                to_the_end,
                to_the_end + 1,
                65_535,
            ];
            (2, rng.pick(&near))
        }
        Kind::Role => (1, rng.pick(&[0, 31, 32, 255])),
    };
    put(bytes, place, width, value);
}

/// A fraction against the rules, often with two faults at once.
fn bad_fraction(rng: &mut Rng) -> (u16, u16) {
    let factor = 2 + rng.below(8);
    let q = 1 + rng.below(MOST_Q / factor);
    let (within, above) = (rng.below(q + 1), q + 1 + rng.below(q));
    let p = rng.pick(&[within, above]);
    let (p, q) = match rng.below(6) {
        0 => (p, 0),
        1 => (p, rng.pick(&[MOST_Q + 1, MOST_Q + 2, 65_535])),
        2 => (above, q),
        _ => (factor * p, factor * q),
    };
    (p as u16, q as u16)
}

/// Writes a bad fraction over that of one of the tree's thresholds, now and
/// then with a change of another field of it.
fn damage_fraction(rng: &mut Rng, bytes: &mut [u8], good: &Node) {
    let thresholds: Vec<usize> = layout(good)
        .into_iter()
        .filter(|(kind, _)| *kind == Kind::Comparison)
        .map(|(_, place)| place)
        .collect();
    if thresholds.is_empty() {
        return;
    }
    let place = rng.pick(&thresholds);
    let (p, q) = bad_fraction(rng);
    put(bytes, place + 1, 2, p.into());
    put(bytes, place + 3, 2, q.into());
    match rng.below(8) {
        0 => damage_field(rng, bytes, Kind::Comparison, place),
        1 => damage_field(rng, bytes, Kind::InnerLength, place + 5),
        _ => {}
    }
}

/// The message of a tree, damaged. (A few of the changes do no harm: those
/// inputs are good ones and stay in.)
pub fn damaged_requirement(rng: &mut Rng, good: &Node) -> Vec<u8> {
    let mut bytes = requirement::encode(good);
    match rng.below(13) {
        0 => return random_bytes(rng, 60),
        1 => wrong_head(rng, &mut bytes),
        2 => return requirement::encode(&overgrown(rng, good)),
        3..=7 => {
            let (kind, place) = rng.pick(&layout(good));
            damage_field(rng, &mut bytes, kind, place);
        }
        8 => {
            // Aimed at the thresholds, which blind changes seldom meet.
            let fields: Vec<(Kind, usize)> = layout(good)
                .into_iter()
                .filter(|(kind, _)| {
                    matches!(
                        kind,
                        Kind::Comparison | Kind::P | Kind::Q | Kind::InnerLength
                    )
                })
                .collect();
            if !fields.is_empty() {
                let (kind, place) = rng.pick(&fields);
                damage_field(rng, &mut bytes, kind, place);
            }
        }
        9 => damage_fraction(rng, &mut bytes, good),
        _ => blind_damage(rng, &mut bytes),
    }
    bytes
}

/// The tree with one bound of its own overstepped: depth, nodes, thresholds,
/// a threshold inside an inner concept, one against a bad fraction, or an inner
/// concept too large.
fn overgrown(rng: &mut Rng, good: &Node) -> Node {
    let palette = Palette {
        names: vec![0, 1, 2],
        roles: vec![0, 1],
        withdrawn: 0,
    };
    let mut root = good.clone();
    let threshold = |inner: Node| Threshold {
        comparison: Comparison::AtLeast,
        p: 1,
        q: 2,
        inner,
        start: 0,
        len: 0,
    };
    match rng.below(6) {
        0 => {
            let mut chain = Node::leaf(1);
            for _ in 0..16 {
                chain = Node {
                    names: 0,
                    thresholds: Vec::new(),
                    children: vec![(0, chain)],
                };
            }
            let at = rng.between(0, root.children.len());
            root.children.insert(at, (palette.role(rng), chain));
        }
        1 => {
            let many = tree(rng, &palette, 64, 15);
            let at = rng.between(0, root.children.len());
            root.children.insert(at, (palette.role(rng), many));
        }
        2 => {
            for _ in 0..17 {
                root.thresholds.push(threshold(Node::leaf(1)));
            }
        }
        3 => {
            let mut inner = tree(rng, &palette, 3, 2);
            inner.thresholds.push(threshold(Node::leaf(1)));
            root.thresholds.push(threshold(inner));
        }
        4 => {
            let (p, q) = bad_fraction(rng);
            let half = threshold(Node::leaf(1));
            root.thresholds.push(Threshold { p, q, ..half });
        }
        _ => root
            .thresholds
            .push(threshold(Node::leaf(rng.word() | u64::MAX >> 3))),
    }
    root
}
