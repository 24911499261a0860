//! Reading requirement messages, and where their inner concepts stand.

use second::gen::damage::mend_head;
use second::gen::edges::{threes, Q1};
use second::gen::{
    concept_edges, damaged_requirement, plain, random_bytes, requirement_edges, small_register,
    small_with_thresholds, with_thresholds, Palette, Rng,
};
use second::requirement::{self, encode, thresholds, Node};
use second::{Refusal, Side};

use crate::fence;
use crate::library::{self, Answer};
use crate::part::{hex, refused, Call, Difference, Outcome, Part, Seen, GOOD};

const READ: &str = "read requirement";
const INNER: &str = "inner part";

/// What reading a requirement can refuse, in this call and in every other that
/// reads one.
pub const READING: (Side, &[u64]) = (
    Side::Requirement,
    &[1, 2, 3, 7, 8, 9, 10, 11, 12, 13, 14, 23, 24, 25],
);

pub const PART: Part = Part {
    name: "requirements",
    calls: &[
        Call {
            name: READ,
            kinds: &[GOOD],
            refusals: &[READING],
        },
        // This call alone gives no number: four zeros, which read as number 0 of side 0.
        Call {
            name: INNER,
            kinds: &[GOOD],
            refusals: &[(Side::Register, &[0])],
        },
    ],
    run,
};

fn run(seen: &mut Seen, seed: u64) -> Result<(), Difference> {
    let mut rng = Rng::new(seed);
    edges(seen)?;
    for message in &some_messages(&mut rng) {
        truncations(seen, message)?;
        single_bytes(seen, message)?;
        parts(seen, message)?;
    }
    noise(seen, &mut rng)?;
    generated(seen, &mut rng)
}

fn outcome(answer: Answer) -> Outcome<()> {
    Outcome { answer, lent: () }
}

/// A reading of the second program in four numbers.
fn numbers(reading: &Result<Node, Refusal>) -> Answer {
    match reading {
        Ok(root) => {
            let nodes = requirement::written(root).len();
            [GOOD, nodes as u64, thresholds(root).len() as u64, 0]
        }
        Err(refusal) => refused(*refusal),
    }
}

fn read(seen: &mut Seen, bytes: &[u8]) -> Result<(), Difference> {
    let library = outcome(fence::shown(0, bytes, library::read_requirement));
    let second = outcome(numbers(&requirement::read(bytes)));
    seen.compare(READ, library, second, || vec![("message", hex(bytes))])
}

fn inner(seen: &mut Seen, bytes: &[u8], k: u64) -> Result<(), Difference> {
    let library = outcome(fence::shown(0, bytes, |bytes| {
        library::inner_part(bytes, k)
    }));
    let second = outcome(match requirement::inner_part(bytes, k) {
        Some((start, len)) => [GOOD, start as u64, len as u64, 0],
        None => [0; 4],
    });
    seen.compare(INNER, library, second, || {
        vec![("message", hex(bytes)), ("k", k.to_string())]
    })
}

/// Each inner part that there is, the next, and numbers far beyond.
fn parts(seen: &mut Seen, bytes: &[u8]) -> Result<(), Difference> {
    for k in (0..18).chain([255, 256, 65_536, 1 << 32, u64::MAX]) {
        inner(seen, bytes, k)?;
    }
    Ok(())
}

/// The edges, whose refusals were worked out by hand: a third opinion.
fn edges(seen: &mut Seen) -> Result<(), Difference> {
    for edge in requirement_edges() {
        read(seen, &edge.bytes)?;
        parts(seen, &edge.bytes)?;
        let answer = library::read_requirement(&edge.bytes);
        let by_hand = match edge.refusal {
            Some((number, place)) => refused(Refusal::requirement(number, place)),
            None => [GOOD, answer[1], answer[2], 0],
        };
        seen.compare(READ, outcome(answer), outcome(by_hand), || {
            vec![
                ("by hand", edge.label.clone()),
                ("message", hex(&edge.bytes)),
            ]
        })?;
    }
    for edge in concept_edges() {
        read(seen, &edge.bytes)?;
    }
    read(seen, &encode(&threes(20)))
}

/// Valid messages for exhaustive damage.
fn some_messages(rng: &mut Rng) -> Vec<Vec<u8>> {
    let mut messages = vec![Q1.to_vec()];
    for _ in 0..4 {
        let palette = Palette::any(rng);
        let register = small_register(rng, &palette);
        messages.push(encode(&small_with_thresholds(rng, &palette, &register)));
    }
    messages
}

/// Every truncation, with its head as it was and with one that fits.
fn truncations(seen: &mut Seen, message: &[u8]) -> Result<(), Difference> {
    for length in 0..=message.len() {
        let mut bytes = message[..length].to_vec();
        read(seen, &bytes)?;
        mend_head(&mut bytes);
        read(seen, &bytes)?;
        inner(seen, &bytes, 0)?;
    }
    Ok(())
}

/// Every other value of every single byte.
fn single_bytes(seen: &mut Seen, message: &[u8]) -> Result<(), Difference> {
    let mut bytes = message.to_vec();
    for place in 0..message.len() {
        for change in 1..=255 {
            bytes[place] = message[place].wrapping_add(change);
            read(seen, &bytes)?;
        }
        bytes[place] = message[place];
    }
    Ok(())
}

fn noise(seen: &mut Seen, rng: &mut Rng) -> Result<(), Difference> {
    for _ in 0..20_000 {
        let mut bytes = random_bytes(rng, 120);
        read(seen, &bytes)?;
        mend_head(&mut bytes);
        read(seen, &bytes)?;
    }
    Ok(())
}

/// Plain ones and ones with thresholds, good and damaged.
fn generated(seen: &mut Seen, rng: &mut Rng) -> Result<(), Difference> {
    for round in 0..20_000 {
        let palette = Palette::any(rng);
        let register = small_register(rng, &palette);
        let root = match round % 4 {
            0 => plain(rng, &palette),
            1 | 2 => small_with_thresholds(rng, &palette, &register),
            _ => with_thresholds(rng, &palette, &register),
        };
        let message = encode(&root);
        read(seen, &message)?;
        inner(seen, &message, rng.below(18))?;
        for _ in 0..6 {
            read(seen, &damaged_requirement(rng, &root))?;
        }
    }
    Ok(())
}
