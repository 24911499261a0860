//! The degree of an item with its map, and its margin against a threshold.

use second::degree::{self as direct, Degrees};
use second::fraction::Fraction;
use second::gen::edges::{threes, Q1, R1};
use second::gen::registers::register_of;
use second::gen::{
    any_pair_bytes, call_fractions, concept_edges, damaged_register, damaged_requirement,
    largest_register, medium_register, plain_within_size, register_edges, requirement_edges,
    small_plain, small_register, Palette, Rng,
};
use second::judged::Judged;
use second::reduce::reduce;
use second::register::{self, Register};
use second::requirement::{self, Comparison, Node};
use second::{brute, Refusal, Side};

use crate::fence;
use crate::library::{self, Answer};
use crate::part::{hex, refused, Call, Difference, Outcome, Part, Seen, GOOD};
use crate::requirements;
use crate::sheet::{self, asking, threshold};
use crate::small;
use crate::worst::{
    all_linked, broom, bushy, chain, comb, deep_halves, fans, halves, late, late_halves,
    with_withdrawn,
};

pub(crate) const DEGREE: &str = "degree";
pub(crate) const MARGIN: &str = "margin";

const READING: (Side, &[u64]) = (Side::Register, &[1, 2, 3, 4, 5, 6, 7, 8]);

pub const PART: Part = Part {
    name: "degrees",
    calls: &[
        Call {
            name: DEGREE,
            kinds: &[GOOD],
            refusals: &[READING, requirements::READING, (Side::Call, &[15, 16, 26])],
        },
        Call {
            name: MARGIN,
            kinds: &[GOOD],
            refusals: &[
                READING,
                requirements::READING,
                (Side::Call, &[15, 23, 24, 25, 26]),
            ],
        },
    ],
    run,
};

fn run(seen: &mut Seen, seed: u64) -> Result<(), Difference> {
    let mut rng = Rng::new(seed);
    sheet(seen)?;
    edges(seen)?;
    fractions(seen)?;
    every_small_one(seen)?;
    every_map_tried(seen, &mut rng)?;
    rooms(seen, &mut rng)?;
    numbers(seen, &mut rng)?;
    large(seen, &mut rng)?;
    damaged(seen, &mut rng)?;
    generated(seen, &mut rng)
}

/// One question: an image, a message and an item.
#[derive(Clone, Copy)]
pub(crate) struct Question<'a> {
    pub image: &'a [u8],
    pub message: &'a [u8],
    pub item: u64,
}

impl Question<'_> {
    fn told(&self) -> Vec<(&'static str, String)> {
        vec![
            ("image", hex(self.image)),
            ("message", hex(self.message)),
            ("item", self.item.to_string()),
        ]
    }

    pub fn degree(&self, map: &[u16]) -> Outcome<Vec<u16>> {
        let mut lent = map.to_vec();
        let answer = fence::shown(0, self.image, |image| {
            fence::shown(1, self.message, |message| {
                fence::lent(2, &mut lent, |map| {
                    library::degree(image, message, self.item, map)
                })
            })
        });
        Outcome { answer, lent }
    }

    pub fn margin(&self, p: u64, q: u64) -> Outcome<()> {
        let answer = fence::shown(0, self.image, |image| {
            fence::shown(1, self.message, |message| {
                library::margin(image, message, self.item, p, q)
            })
        });
        Outcome { answer, lent: () }
    }
}

/// What a degree comes to where it is worked out elsewhere: the map's values
/// stand at the front of the lent map, and the places behind are as before.
fn degree_outcome(worked_out: sheet::Degree, map: &[u16]) -> Outcome<Vec<u16>> {
    let mut lent = map.to_vec();
    let answer = match worked_out {
        Ok((num, den, values)) => {
            lent[..values.len()].copy_from_slice(&values);
            [GOOD, num, den, values.len() as u64]
        }
        Err(refusal) => refused(refusal),
    };
    Outcome { answer, lent }
}

fn margin_outcome(worked_out: Result<(i64, u64), Refusal>) -> Outcome<()> {
    let answer: Answer = match worked_out {
        Ok((margin, over)) => [GOOD, margin.unsigned_abs(), over, u64::from(margin < 0)],
        Err(refusal) => refused(refusal),
    };
    Outcome { answer, lent: () }
}

/// The library's degree against one that was worked out elsewhere.
pub(crate) fn degree_against(
    seen: &mut Seen,
    question: Question,
    map: &[u16],
    worked_out: sheet::Degree,
) -> Result<(), Difference> {
    let library = question.degree(map);
    let other = degree_outcome(worked_out, map);
    seen.compare(DEGREE, library, other, || {
        let mut told = question.told();
        told.push(("map before", format!("{map:?}")));
        told
    })
}

pub(crate) fn margin_against(
    seen: &mut Seen,
    question: Question,
    (p, q): (u64, u64),
    worked_out: Result<(i64, u64), Refusal>,
) -> Result<(), Difference> {
    let library = question.margin(p, q);
    let other = margin_outcome(worked_out);
    seen.compare(MARGIN, library, other, || {
        let mut told = question.told();
        told.push(("p, q", format!("{p}, {q}")));
        told
    })
}

pub(crate) fn degree(seen: &mut Seen, question: Question, map: &[u16]) -> Result<(), Difference> {
    let Question {
        image,
        message,
        item,
    } = question;
    let second = direct::degree(image, message, item, map.len());
    degree_against(seen, question, map, second)
}

pub(crate) fn margin(
    seen: &mut Seen,
    question: Question,
    fraction: (u64, u64),
) -> Result<(), Difference> {
    let Question {
        image,
        message,
        item,
    } = question;
    let second = direct::margin(image, message, item, fraction.0, fraction.1);
    margin_against(seen, question, fraction, second)
}

/// What the places of a lent map hold before a call: no two the same.
pub(crate) fn before(places: usize) -> Vec<u16> {
    (0..places).map(|place| 40_000 + place as u16).collect()
}

/// Both calls with good numbers of their own.
fn both(seen: &mut Seen, image: &[u8], message: &[u8], item: u64) -> Result<(), Difference> {
    let question = Question {
        image,
        message,
        item,
    };
    degree(seen, question, &before(64))?;
    margin(seen, question, (2, 3))
}

/// The document's sheet, with its own answers.
fn sheet(seen: &mut Seen) -> Result<(), Difference> {
    for row in sheet::degrees() {
        let question = Question {
            image: &row.image,
            message: &row.message,
            item: row.item,
        };
        let room = row.says.as_ref().map_or(3, |says| says.2.len());
        degree_against(seen, question, &before(room), row.says.clone())?;
        degree_against(seen, question, &before(room + 2), row.says)?;
    }
    let question = Question {
        image: &R1,
        message: &Q1,
        item: 0,
    };
    for (p, q, margin, over) in sheet::MARGINS {
        margin_against(seen, question, (p, q), Ok((margin, over)))?;
    }
    Ok(())
}

/// The edges of both sides, whose refusals were worked out by hand.
fn edges(seen: &mut Seen) -> Result<(), Difference> {
    for edge in register_edges() {
        both(seen, &edge.bytes, &Q1, 0)?;
        if let Some((number, place)) = edge.refusal {
            let question = Question {
                image: &edge.bytes,
                message: &Q1,
                item: 0,
            };
            let refusal = Refusal::register(number, place);
            degree_against(seen, question, &before(2), Err(refusal))?;
            margin_against(seen, question, (2, 3), Err(refusal))?;
        }
    }
    for edge in requirement_edges().into_iter().chain(concept_edges()) {
        both(seen, &R1, &edge.bytes, 0)?;
        if let Some((number, place)) = edge.refusal {
            let question = Question {
                image: &R1,
                message: &edge.bytes,
                item: 0,
            };
            let refusal = Refusal::requirement(number, place);
            degree_against(seen, question, &before(64), Err(refusal))?;
            margin_against(seen, question, (2, 3), Err(refusal))?;
        }
    }
    Ok(())
}

/// Margins against fractions at each edge of the rules, whose refusals were
/// worked out by hand. An item that is not there comes before them, and a bad
/// fraction in the requirement before both.
fn fractions(seen: &mut Seen) -> Result<(), Difference> {
    let good = Question {
        image: &R1,
        message: &Q1,
        item: 0,
    };
    let judging = asking(vec![threshold(Comparison::AtLeast, 2, 4, Node::leaf(1))]);
    let judging = requirement::encode(&judging);
    for (p, q, number) in call_fractions() {
        let against = (p, q);
        match number {
            Some(number) => margin_against(seen, good, against, Err(Refusal::call(number)))?,
            None => margin(seen, good, against)?,
        }
        let no_item = Question { item: 3, ..good };
        margin_against(seen, no_item, against, Err(Refusal::call(15)))?;
        let both = Question {
            message: &judging,
            ..no_item
        };
        margin_against(seen, both, against, Err(Refusal::requirement(25, 14)))?;
    }
    Ok(())
}

/// The degree that is greatest over all partial maps, each of them tried, with
/// the second program's map.
pub(crate) fn by_every_map(judged: &Judged, root: &Node, item: u16) -> sheet::Degree {
    let item = judged.asked(item.into())?;
    let concept = reduce(root);
    let Fraction { num, den } = brute::degree_at(judged, &concept.root, item);
    let mut degrees = Degrees::of(judged, &concept).expect("small");
    Ok((num as u64, den as u64, degrees.map(item)))
}

/// Every register of two items, one role and two names, with every requirement
/// of up to three nodes over these, and of four nodes over one name.
fn every_small_one(seen: &mut Seen) -> Result<(), Difference> {
    let registers = small::registers();
    for root in small::concepts() {
        let message = requirement::encode(&root);
        let map = before(requirement::written(&root).len());
        for (register, image) in &registers {
            let judged = Judged::of(register);
            for item in 0..2 {
                let question = Question {
                    image,
                    message: &message,
                    item: item.into(),
                };
                degree_against(seen, question, &map, by_every_map(&judged, &root, item))?;
            }
        }
    }
    Ok(())
}

/// Random registers of up to four items and requirements of up to six nodes.
fn every_map_tried(seen: &mut Seen, rng: &mut Rng) -> Result<(), Difference> {
    for _ in 0..10_000 {
        let palette = Palette::any(rng);
        let register = small_register(rng, &palette);
        let root = small_plain(rng, &palette);
        let (image, message) = (register::encode(&register), requirement::encode(&root));
        let judged = Judged::of(&register);
        for item in 0..register.items() as u16 {
            let question = Question {
                image: &image,
                message: &message,
                item: item.into(),
            };
            degree_against(
                seen,
                question,
                &before(6),
                by_every_map(&judged, &root, item),
            )?;
        }
    }
    Ok(())
}

/// Maps with every room from none to more than enough.
fn rooms(seen: &mut Seen, rng: &mut Rng) -> Result<(), Difference> {
    for round in 0..60 {
        let palette = Palette::any(rng);
        let register = small_register(rng, &palette);
        let root = match round % 2 {
            0 => small_plain(rng, &palette),
            _ => plain_within_size(rng, &palette),
        };
        let (image, message) = (register::encode(&register), requirement::encode(&root));
        let question = Question {
            image: &image,
            message: &message,
            item: rng.below(register.items() as u64),
        };
        for room in (0..=70).chain([100, 1000]) {
            degree(seen, question, &before(room))?;
        }
    }
    Ok(())
}

/// Numbers of the call near each bound, and ones that would be small if their
/// high bits were lost on the way.
const NUMBERS: [u64; 20] = [
    0,
    1,
    2,
    3,
    4,
    5,
    255,
    256,
    511,
    512,
    513,
    999,
    1000,
    1001,
    65_535,
    65_536,
    1 << 32,
    (1 << 32) + 1,
    1 << 63,
    u64::MAX,
];

/// Items, p and q of any value, alone and together with a map too short.
fn numbers(seen: &mut Seen, rng: &mut Rng) -> Result<(), Difference> {
    let good = Question {
        image: &R1,
        message: &Q1,
        item: 0,
    };
    for item in NUMBERS {
        let question = Question { item, ..good };
        for room in 0..4 {
            degree(seen, question, &before(room))?;
        }
        for p in NUMBERS {
            for q in NUMBERS {
                margin(seen, question, (p, q))?;
            }
        }
    }
    for p in 0..=100 {
        for q in 0..=100 {
            margin(seen, good, (p, q))?;
            margin(seen, good, (1000 - p, 1000 - q))?;
        }
    }
    for _ in 0..20_000 {
        let (p, q) = (rng.below(1002), rng.below(1002));
        let item = rng.below(3);
        margin(seen, Question { item, ..good }, (p, q))?;
    }
    Ok(())
}

/// The largest registers and requirements: the second program reads them once
/// for several items.
fn large(seen: &mut Seen, rng: &mut Rng) -> Result<(), Difference> {
    let linked = all_linked(|item| item as u64 & 7);
    each_item(seen, rng, &linked, &chain(|depth| depth as u64 & 7))?;
    each_item(seen, rng, &linked, &chain(|_| 0))?;
    each_item(seen, rng, &linked, &chain(|_| 3))?;
    let deep = [late(), halves(), late_halves(), deep_halves()];
    for root in [bushy(), comb(), broom()].into_iter().chain(deep) {
        each_item(seen, rng, &fans(), &root)?;
        each_item(seen, rng, &linked, &root)?;
        each_item(seen, rng, &with_withdrawn(fans(), 10), &root)?;
        each_item(seen, rng, &with_withdrawn(linked.clone(), 3), &root)?;
    }
    for round in 0..24 {
        let palette = Palette::any(rng);
        let register = match round % 3 {
            0 => largest_register(rng, &palette),
            1 => register_of(rng, &palette, 512, 512),
            _ => register_of(rng, &palette, 64, 4096),
        };
        let root = match round % 8 {
            0 => threes(20),
            1 => chain(|depth| 1 << palette.names[depth % palette.names.len()]),
            _ => plain_within_size(rng, &palette),
        };
        each_item(seen, rng, &register, &root)?;
    }
    Ok(())
}

/// A good pair: the first and last items and some between.
fn each_item(
    seen: &mut Seen,
    rng: &mut Rng,
    register: &Register,
    root: &Node,
) -> Result<(), Difference> {
    let concept = reduce(root);
    let judged = Judged::of(register);
    let mut degrees = Degrees::of(&judged, &concept).expect("within size");
    let (image, message) = (register::encode(register), requirement::encode(root));
    let last = register.items() - 1;
    let some: Vec<usize> = (0..8).map(|_| rng.index(register.items())).collect();
    for item in [0, last].into_iter().chain(some) {
        let question = Question {
            image: &image,
            message: &message,
            item: item as u64,
        };
        let second = judged.asked(item as u64).map(|at| {
            let Fraction { num, den } = degrees.at(at);
            (num as u64, den as u64, degrees.map(at))
        });
        degree_against(seen, question, &before(64), second)?;
    }
    let question = Question {
        image: &image,
        message: &message,
        item: last as u64,
    };
    margin(seen, question, (rng.below(4), 3))
}

/// Both sides whole or damaged, and the call's own numbers good or bad, all at
/// once: which refusal comes first.
fn damaged(seen: &mut Seen, rng: &mut Rng) -> Result<(), Difference> {
    for _ in 0..30_000 {
        let palette = Palette::any(rng);
        let register = small_register(rng, &palette);
        let root = small_plain(rng, &palette);
        let image = match rng.below(3) {
            0 => damaged_register(rng, &register),
            _ => register::encode(&register),
        };
        let message = match rng.below(3) {
            0 => damaged_requirement(rng, &root),
            _ => requirement::encode(&root),
        };
        let question = Question {
            image: &image,
            message: &message,
            item: rng.below(register.items() as u64 + 1),
        };
        degree(seen, question, &before(rng.between(0, 7)))?;
        margin(seen, question, (rng.below(5), rng.below(5)))?;
    }
    Ok(())
}

/// Pairs of every size, plain or not, good and damaged.
fn generated(seen: &mut Seen, rng: &mut Rng) -> Result<(), Difference> {
    for _ in 0..4000 {
        let (image, message) = any_pair_bytes(rng);
        let items = register::read_whole(&image).map_or(4, |register| register.items());
        let question = Question {
            image: &image,
            message: &message,
            item: rng.below(items as u64),
        };
        degree(seen, question, &before(64))?;
        margin(seen, question, (rng.below(1001), 1 + rng.below(1000)))?;
    }
    for _ in 0..4000 {
        let palette = Palette::any(rng);
        let register = medium_register(rng, &palette);
        let root = plain_within_size(rng, &palette);
        let item = rng.below(register.items() as u64);
        both(
            seen,
            &register::encode(&register),
            &requirement::encode(&root),
            item,
        )?;
    }
    Ok(())
}
