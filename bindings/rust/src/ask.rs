//! The questions. An image and a message are the whole of the bytes handed in.
//!
//! No question counts a withdrawn item ([`WITHDRAWN`]) or a link at one: no node
//! goes there, and one that asks for it by its number is refused with 26.

use crate::answer::{Degree, Margin, Place, RegisterCounts, RequirementCounts, Verdict};
use crate::calls::{self, Answer, GOOD};
use crate::refusal::Refusal;

/// The name of an item that is withdrawn: questions are asked of the register
/// without such items and the links at them. A session keeps all their facts; an
/// edit that takes the name away brings the item back.
pub const WITHDRAWN: u64 = 63;

/// No requirement has more written nodes than this, so a map of so many
/// places is never too short.
const MOST_NODES: usize = 64;

/// Reads a register image, and counts.
pub fn read_register(image: &[u8]) -> Result<RegisterCounts, Refusal> {
    let [_, items, links, _] = Refusal::or(calls::read_register(image, false))?;
    Ok(RegisterCounts { items, links })
}

/// Reads a requirement message, and counts.
pub fn read_requirement(message: &[u8]) -> Result<RequirementCounts, Refusal> {
    let [_, nodes, thresholds, _] = Refusal::or(calls::read_requirement(message))?;
    Ok(RequirementCounts { nodes, thresholds })
}

/// The bytes of the k-th inner concept, from 0 in reading order, as that part
/// of the message itself. None where the message is bad or has no k-th.
pub fn inner_part(message: &[u8], k: u64) -> Option<&[u8]> {
    match calls::inner_part(message, k) {
        [GOOD, place, length, _] => message.get(place as usize..(place + length) as usize),
        _ => None,
    }
}

/// The degree of an item in a plain requirement, with its map.
pub fn degree(image: &[u8], message: &[u8], item: u64) -> Result<Degree, Refusal> {
    let mut map = [0; MOST_NODES];
    let (num, den, nodes) = degree_into(image, message, item, &mut map)?;
    let map = map[..nodes].iter().map(|number| Place::of(*number));
    Ok(Degree {
        num,
        den,
        map: map.collect(),
    })
}

/// The same without memory of its own: numerator, denominator, and how many
/// places of the lent map were written. There 65,535 is unmapped and 65,534
/// dropped; places behind stay as they were.
pub fn degree_into(
    image: &[u8],
    message: &[u8],
    item: u64,
    map: &mut [u16],
) -> Result<(u64, u64, usize), Refusal> {
    let [_, num, den, nodes] = Refusal::or(calls::degree(image, message, item, map))?;
    Ok((num, den, nodes as usize))
}

/// How far the degree of an item lies above p/q. The fraction is in lowest
/// terms, at most 1, with q at most 1,000.
pub fn margin(image: &[u8], message: &[u8], item: u64, p: u64, q: u64) -> Result<Margin, Refusal> {
    let [_, magnitude, over, below] = Refusal::or(calls::margin(image, message, item, p, q))?;
    // Never beyond 3,486,784,401,000 either way.
    let magnitude = magnitude as i64;
    let value = if below == 0 { magnitude } else { -magnitude };
    Ok(Margin { value, over })
}

/// Whether an item meets a requirement, with the map that shows a yes.
pub fn member(image: &[u8], message: &[u8], item: u64) -> Result<Verdict, Refusal> {
    let mut map = [0; MOST_NODES];
    Ok(match member_into(image, message, item, &mut map)? {
        Some(nodes) => Verdict::Yes(map[..nodes].to_vec()),
        None => Verdict::No,
    })
}

/// The same without memory of its own: for a yes, how many places of the lent
/// map were written. A no writes none.
pub fn member_into(
    image: &[u8],
    message: &[u8],
    item: u64,
    map: &mut [u16],
) -> Result<Option<usize>, Refusal> {
    let [kind, nodes, ..]: Answer = Refusal::or(calls::member(image, message, item, map))?;
    Ok((kind == GOOD).then_some(nodes as usize))
}
