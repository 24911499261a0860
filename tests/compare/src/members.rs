//! The yes or no for an item, and the map that shows a yes.

use second::degree::Degrees;
use second::fraction::Fraction;
use second::gen::edges::{Q1, R1};
use second::gen::{
    any_pair_bytes, concept_edges, damaged_register, damaged_requirement, largest_register,
    medium_register, met_somewhere, plain_within_size, register_edges, requirement_edges,
    small_pair, small_plain, small_register, small_with_thresholds, with_thresholds, Palette, Rng,
};
use second::judged::Judged;
use second::member::{brute_member, member as direct};
use second::reduce::reduce;
use second::register::{self, Register};
use second::requirement::{self, Comparison, Node, Threshold, MOST_THRESHOLDS};
use second::{Refusal, Side};

use crate::fence;
use crate::library;
use crate::part::{hex, refused, Call, Difference, Outcome, Part, Seen, GOOD, NO};
use crate::requirements;
use crate::sheet::{self, asking, threshold};
use crate::small;
use crate::worst::{all_linked, bushy, chain, comb, fans, sixteen_thresholds, with_withdrawn};

pub(crate) const MEMBER: &str = "member";

pub const PART: Part = Part {
    name: "members",
    calls: &[Call {
        name: MEMBER,
        kinds: &[GOOD, NO],
        refusals: &[
            (Side::Register, &[1, 2, 3, 4, 5, 6, 7, 8]),
            requirements::READING,
            (Side::Call, &[15, 16, 26]),
        ],
    }],
    run,
};

const COMPARISONS: [Comparison; 4] = [
    Comparison::Below,
    Comparison::AtMost,
    Comparison::Above,
    Comparison::AtLeast,
];

fn run(seen: &mut Seen, seed: u64) -> Result<(), Difference> {
    let mut rng = Rng::new(seed);
    sheet(seen)?;
    edges(seen)?;
    every_small_one(seen)?;
    every_map_tried(seen, &mut rng)?;
    about_the_degree(seen, &mut rng)?;
    many_thresholds(seen, &mut rng)?;
    deep_thresholds(seen, &mut rng)?;
    rooms(seen, &mut rng)?;
    large(seen, &mut rng)?;
    damaged(seen, &mut rng)?;
    generated(seen, &mut rng)
}

/// A map for yes, none for no; or a refusal.
pub(crate) type Decision = Result<Option<Vec<u16>>, Refusal>;

fn outcome(decision: Decision, map: &[u16]) -> Outcome<Vec<u16>> {
    let mut lent = map.to_vec();
    let answer = match decision {
        Ok(Some(values)) => {
            lent[..values.len()].copy_from_slice(&values);
            [GOOD, values.len() as u64, 0, 0]
        }
        Ok(None) => [NO, 0, 0, 0],
        Err(refusal) => refused(refusal),
    };
    Outcome { answer, lent }
}

/// The library's yes or no against one that was worked out elsewhere.
pub(crate) fn against(
    seen: &mut Seen,
    (image, message, item): (&[u8], &[u8], u64),
    room: usize,
    decision: Decision,
) -> Result<(), Difference> {
    let map: Vec<u16> = (0..room).map(|place| 40_000 + place as u16).collect();
    let mut lent = map.clone();
    let answer = fence::shown(0, image, |image| {
        fence::shown(1, message, |message| {
            fence::lent(2, &mut lent, |map| {
                library::member(image, message, item, map)
            })
        })
    });
    let library = Outcome { answer, lent };
    seen.compare(MEMBER, library, outcome(decision, &map), || {
        vec![
            ("image", hex(image)),
            ("message", hex(message)),
            ("item", item.to_string()),
            ("room", room.to_string()),
        ]
    })
}

pub(crate) fn member(
    seen: &mut Seen,
    image: &[u8],
    message: &[u8],
    item: u64,
    room: usize,
) -> Result<(), Difference> {
    let second = direct(image, message, item, room);
    against(seen, (image, message, item), room, second)
}

/// Every item of a register.
fn each_item(seen: &mut Seen, register: &Register, root: &Node) -> Result<(), Difference> {
    let (image, message) = (register::encode(register), requirement::encode(root));
    for item in 0..register.items() as u64 {
        member(seen, &image, &message, item, 64)?;
    }
    Ok(())
}

/// The first and last items and some between.
fn some_items(
    seen: &mut Seen,
    rng: &mut Rng,
    register: &Register,
    root: &Node,
) -> Result<(), Difference> {
    let (image, message) = (register::encode(register), requirement::encode(root));
    let last = register.items() as u64 - 1;
    let between = [rng.below(last + 1), rng.below(last + 1)];
    for item in [0, last].into_iter().chain(between) {
        member(seen, &image, &message, item, 64)?;
    }
    Ok(())
}

/// The document's sheet, with its own answers.
fn sheet(seen: &mut Seen) -> Result<(), Difference> {
    for row in sheet::members() {
        for room in 2..5 {
            let question = (&row.image[..], &row.message[..], row.item);
            against(seen, question, room, Ok(row.says.clone()))?;
        }
    }
    Ok(())
}

/// The edges of both sides, whose refusals were worked out by hand.
fn edges(seen: &mut Seen) -> Result<(), Difference> {
    for edge in register_edges() {
        member(seen, &edge.bytes, &Q1, 0, 64)?;
        if let Some((number, place)) = edge.refusal {
            let refusal = Refusal::register(number, place);
            against(seen, (&edge.bytes, &Q1, 0), 64, Err(refusal))?;
        }
    }
    for edge in requirement_edges() {
        member(seen, &R1, &edge.bytes, 0, 64)?;
        if let Some((number, place)) = edge.refusal {
            let refusal = Refusal::requirement(number, place);
            against(seen, (&R1, &edge.bytes, 0), 64, Err(refusal))?;
        }
    }
    // What a degree refuses with 11 and 14 is no fault here.
    for edge in concept_edges() {
        member(seen, &R1, &edge.bytes, 0, 64)?;
    }
    Ok(())
}

/// Some fractions, with both ends of the range.
const FRACTIONS: [(u16, u16); 5] = [(0, 1), (1, 2), (1, 1), (1, 3), (2, 3)];

/// Every register of two items, one role and two names, asked for every
/// concept of up to two nodes over these against each of the fractions, at the
/// root and at a child.
fn every_small_one(seen: &mut Seen) -> Result<(), Difference> {
    let inner = small::concepts();
    let inner = inner
        .iter()
        .filter(|root| requirement::written(root).len() <= 2);
    let mut questions = Vec::new();
    for concept in inner {
        for comparison in COMPARISONS {
            for (p, q) in FRACTIONS {
                let asked = asking(vec![threshold(comparison, p, q, concept.clone())]);
                questions.push(sheet::node(&[], vec![(0, asked.clone())]));
                questions.push(asked);
            }
        }
    }
    for root in &questions {
        let message = requirement::encode(root);
        for (register, image) in &small::registers() {
            for item in 0..2 {
                third_opinion(seen, register, image, root, &message, item)?;
            }
        }
    }
    Ok(())
}

/// The yes or no by trying every map, with the second program's map.
pub(crate) fn third_opinion(
    seen: &mut Seen,
    register: &Register,
    image: &[u8],
    root: &Node,
    message: &[u8],
    item: u64,
) -> Result<(), Difference> {
    let room = requirement::written(root).len();
    let decision = match (
        direct(image, message, item, room),
        brute_member(&Judged::of(register), root, item),
    ) {
        (Ok(Some(map)), Some(true)) => Ok(Some(map)),
        (Ok(None), Some(false)) => Ok(None),
        (Err(refusal), None) if refusal == Refusal::call(26) => Err(refusal),
        other => panic!("the second program against itself: {other:?}"),
    };
    against(seen, (image, message, item), room, decision)
}

fn every_map_tried(seen: &mut Seen, rng: &mut Rng) -> Result<(), Difference> {
    for _ in 0..4000 {
        let (register, root) = small_pair(rng);
        let (image, message) = (register::encode(&register), requirement::encode(&root));
        for item in 0..register.items() as u64 {
            third_opinion(seen, &register, &image, &root, &message, item)?;
        }
    }
    Ok(())
}

/// The fractions with q up to 1,000 that stand next to a degree: the greatest
/// below it, itself, and the least above it.
fn next_to(degree: Fraction) -> Vec<(u16, u16)> {
    let mut below: Option<Fraction> = None;
    let mut above: Option<Fraction> = None;
    for q in 1..=1000 {
        let floor = degree.num * q / degree.den;
        for p in floor.saturating_sub(1)..=(floor + 1).min(q) {
            let fraction = Fraction::new(p, q);
            if fraction < degree && below.is_none_or(|best| fraction > best) {
                below = Some(fraction);
            }
            if fraction > degree && above.is_none_or(|best| fraction < best) {
                above = Some(fraction);
            }
        }
    }
    let at = (degree.den <= 1000).then_some(degree);
    [below, at, above]
        .into_iter()
        .flatten()
        .map(|fraction| (fraction.num as u16, fraction.den as u16))
        .collect()
}

/// All four comparisons at a degree, just below it and just above it.
fn about_the_degree(seen: &mut Seen, rng: &mut Rng) -> Result<(), Difference> {
    for round in 0..400 {
        let palette = Palette::any(rng);
        let register = match round % 4 {
            0 => medium_register(rng, &palette),
            _ => small_register(rng, &palette),
        };
        let inner = match round % 3 {
            0 => plain_within_size(rng, &palette),
            1 => met_somewhere(rng, &register, 12, 6),
            _ => small_plain(rng, &palette),
        };
        let concept = reduce(&inner);
        // A walk may ask for many names: too large for a degree.
        let judged = Judged::of(&register);
        let Some(mut degrees) = Degrees::of(&judged, &concept) else {
            continue;
        };
        let Some(item) = some_item(rng, &judged) else {
            continue;
        };
        for (p, q) in next_to(degrees.at(item)) {
            for comparison in COMPARISONS {
                let root = asking(vec![threshold(comparison, p, q, inner.clone())]);
                let message = requirement::encode(&root);
                let image = register::encode(&register);
                member(seen, &image, &message, item.into(), 1)?;
                let other = rng.below(register.items() as u64);
                member(seen, &image, &message, other, 1)?;
            }
        }
    }
    Ok(())
}

/// An item that is not withdrawn, where there is one.
fn some_item(rng: &mut Rng, judged: &Judged) -> Option<u16> {
    let items: Vec<u16> = judged.each().collect();
    (!items.is_empty()).then(|| rng.pick(&items))
}

/// A threshold that an item satisfies, close to its degree.
fn satisfied(rng: &mut Rng, judged: &Judged, item: u16, inner: Node) -> Threshold {
    let concept = reduce(&inner);
    let mut degrees = Degrees::of(judged, &concept).expect("within size");
    let degree = degrees.at(item);
    let choices: Vec<(Comparison, u16, u16)> = next_to(degree)
        .into_iter()
        .flat_map(|(p, q)| COMPARISONS.map(|comparison| (comparison, p, q)))
        .filter(|(comparison, p, q)| comparison.satisfied(degree, *p, *q))
        .collect();
    let (comparison, p, q) = rng.pick(&choices);
    threshold(comparison, p, q, inner)
}

/// Up to 16 thresholds on one node, all satisfied by one item, and then one of
/// them turned round.
fn many_thresholds(seen: &mut Seen, rng: &mut Rng) -> Result<(), Difference> {
    for _ in 0..60 {
        let palette = Palette::any(rng);
        let register = small_register(rng, &palette);
        let judged = Judged::of(&register);
        let Some(item) = some_item(rng, &judged) else {
            continue;
        };
        let count = rng.between(2, MOST_THRESHOLDS);
        let list = (0..count)
            .map(|_| {
                let inner = small_plain(rng, &palette);
                satisfied(rng, &judged, item, inner)
            })
            .collect();
        let mut root = asking(list);
        root.names = register.names[usize::from(item)];
        each_item(seen, &register, &root)?;
        let turned = rng.index(count);
        let threshold = &mut root.thresholds[turned];
        threshold.comparison = match threshold.comparison {
            Comparison::Below => Comparison::AtLeast,
            Comparison::AtLeast => Comparison::Below,
            Comparison::AtMost => Comparison::Above,
            Comparison::Above => Comparison::AtMost,
        };
        each_item(seen, &register, &root)?;
    }
    Ok(())
}

/// A chain to the greatest depth over a register where it goes on for ever,
/// with thresholds at its end and on the way.
fn deep_thresholds(seen: &mut Seen, rng: &mut Rng) -> Result<(), Difference> {
    for _ in 0..60 {
        let palette = Palette::any(rng);
        let mut register = small_register(rng, &palette);
        for item in 0..register.items() as u16 {
            let next = (item + 1) % register.items() as u16;
            register.links.push((item, 0, next));
        }
        register.links.sort();
        register.links.dedup();
        let judged = Judged::of(&register);
        let mut root = chain(|_| 0);
        let depth = rng.between(0, 16);
        for at in [depth, 16] {
            let inner = small_plain(rng, &palette);
            let Some(item) = some_item(rng, &judged) else {
                continue;
            };
            let threshold = satisfied(rng, &judged, item, inner);
            let mut node = &mut root;
            for _ in 0..at {
                node = &mut node.children[0].1;
            }
            node.thresholds.push(threshold);
        }
        each_item(seen, &register, &root)?;
    }
    Ok(())
}

/// Maps with every room from none to more than enough, for yes and for no, and
/// items of any value.
fn rooms(seen: &mut Seen, rng: &mut Rng) -> Result<(), Difference> {
    const ITEMS: [u64; 10] = [
        4,
        5,
        255,
        256,
        512,
        65_535,
        65_536,
        1 << 32,
        1 << 63,
        u64::MAX,
    ];
    for _ in 0..60 {
        let palette = Palette::any(rng);
        let register = small_register(rng, &palette);
        let root = small_with_thresholds(rng, &palette, &register);
        let (image, message) = (register::encode(&register), requirement::encode(&root));
        for item in 0..=register.items() as u64 {
            for room in (0..8).chain([63, 64, 65, 100, 1000]) {
                member(seen, &image, &message, item, room)?;
            }
        }
        for item in ITEMS {
            member(seen, &image, &message, item, 64)?;
            member(seen, &image, &message, item, 0)?;
        }
    }
    Ok(())
}

/// The largest registers and requirements.
fn large(seen: &mut Seen, rng: &mut Rng) -> Result<(), Difference> {
    let linked = all_linked(|item| item as u64 & 7);
    for (outer, inner) in [
        (bushy(), bushy()),
        (comb(), comb()),
        (chain(|_| 0), bushy()),
    ] {
        let root = sixteen_thresholds(outer, &inner);
        some_items(seen, rng, &fans(), &root)?;
        some_items(seen, rng, &linked, &root)?;
        some_items(seen, rng, &with_withdrawn(fans(), 10), &root)?;
        some_items(seen, rng, &with_withdrawn(linked.clone(), 3), &root)?;
    }
    let within = sixteen_thresholds(comb(), &chain(|depth| depth as u64 & 7));
    some_items(seen, rng, &linked, &within)?;
    for _ in 0..12 {
        let palette = Palette::any(rng);
        let register = largest_register(rng, &palette);
        let root = with_thresholds(rng, &palette, &register);
        some_items(seen, rng, &register, &root)?;
        let met = met_somewhere(rng, &register, 48, 16);
        let inner = plain_within_size(rng, &palette);
        some_items(seen, rng, &register, &sixteen_thresholds(met, &inner))?;
    }
    Ok(())
}

/// Both sides whole or damaged, and the call's own numbers good or bad, all at
/// once: which refusal comes first.
fn damaged(seen: &mut Seen, rng: &mut Rng) -> Result<(), Difference> {
    for _ in 0..20_000 {
        let palette = Palette::any(rng);
        let register = small_register(rng, &palette);
        let root = small_with_thresholds(rng, &palette, &register);
        let image = match rng.below(3) {
            0 => damaged_register(rng, &register),
            _ => register::encode(&register),
        };
        let message = match rng.below(3) {
            0 => damaged_requirement(rng, &root),
            _ => requirement::encode(&root),
        };
        let item = rng.below(register.items() as u64 + 1);
        member(seen, &image, &message, item, rng.between(0, 6))?;
    }
    Ok(())
}

/// Pairs of every size, good and damaged.
fn generated(seen: &mut Seen, rng: &mut Rng) -> Result<(), Difference> {
    for _ in 0..4000 {
        let (image, message) = any_pair_bytes(rng);
        let items = register::read_whole(&image).map_or(4, |register| register.items());
        member(seen, &image, &message, rng.below(items as u64), 64)?;
    }
    for _ in 0..1000 {
        let palette = Palette::any(rng);
        let register = medium_register(rng, &palette);
        let root = with_thresholds(rng, &palette, &register);
        some_items(seen, rng, &register, &root)?;
    }
    Ok(())
}
