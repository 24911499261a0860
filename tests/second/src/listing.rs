//! What the listing program prints.
//!
//! Renders the last part of "Sheet of examples" in document 01, with the line
//! of a withdrawn item of §5 of document 02. Every line ends in a newline.

use crate::degree::{plain_concept, Degrees, DROPPED, UNMAPPED};
use crate::judged::Judged;
use crate::member::{Meeting, Ready};
use crate::register::read_whole;
use crate::requirement::{self, Node};
use crate::Refusal;

/// The most bytes of input that are taken.
pub const MOST_INPUT: usize = 65_536;

/// The register is the first 3 + length bytes, or all if fewer; the
/// requirement is all the rest. Under 3 bytes there is no length to go by.
pub fn split(input: &[u8]) -> (&[u8], &[u8]) {
    if input.len() < 3 {
        return (input, &[]);
    }
    let length = usize::from(input[1]) * 256 + usize::from(input[2]);
    input.split_at(input.len().min(3 + length))
}

/// Everything printed for one input.
pub fn listing(input: &[u8]) -> Vec<u8> {
    if input.len() > MOST_INPUT {
        return b"input too long\n".to_vec();
    }
    let (register, requirement) = split(input);
    match lines(register, requirement) {
        Ok(text) => text.into_bytes(),
        Err(refusal) => format!("{refusal}\n").into_bytes(),
    }
}

fn lines(register: &[u8], requirement: &[u8]) -> Result<String, Refusal> {
    let judged = Judged::of(&read_whole(register)?);
    let root = requirement::read(requirement)?;
    if requirement::thresholds(&root).is_empty() {
        degree_lines(&judged, &root)
    } else {
        member_lines(&judged, &root)
    }
}

fn degree_lines(judged: &Judged, root: &Node) -> Result<String, Refusal> {
    let concept = plain_concept(root)?;
    let mut degrees = Degrees::of(judged, &concept).ok_or(Refusal::requirement(14, 3))?;
    Ok(item_lines("item degree map\n", judged, |item| {
        let degree = degrees.at(item);
        let map = shown(&degrees.map(item));
        format!("{}/{} {map}", degree.num, degree.den)
    }))
}

fn member_lines(judged: &Judged, root: &Node) -> Result<String, Refusal> {
    let ready = Ready::of(root);
    let mut meeting = Meeting::of(judged, &ready)?;
    Ok(item_lines(
        "item member map\n",
        judged,
        |item| match meeting.map(item) {
            Some(map) => format!("yes {}", shown(&map)),
            None => "no -".to_string(),
        },
    ))
}

/// The head, and a line for each item: what is said of it where it is judged.
fn item_lines(head: &str, judged: &Judged, mut said: impl FnMut(u16) -> String) -> String {
    let mut text = head.to_string();
    for item in 0..judged.items() as u16 {
        let line = match judged.has(item) {
            true => said(item),
            false => "withdrawn -".to_string(),
        };
        text.push_str(&format!("{item} {line}\n"));
    }
    text
}

/// A map as one field: items with commas, `-` unmapped, `=` dropped.
fn shown(map: &[u16]) -> String {
    let fields: Vec<String> = map
        .iter()
        .map(|value| match *value {
            UNMAPPED => "-".to_string(),
            DROPPED => "=".to_string(),
            item => item.to_string(),
        })
        .collect();
    fields.join(",")
}
