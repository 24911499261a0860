//! The whole list: every item's degree in one call, and its table.

use second::fraction::Fraction;
use second::gen::edges::{threes, Q1, R1};
use second::gen::registers::register_of;
use second::gen::requirements::{cut_to_size, repeat_children};
use second::gen::{
    any_pair_bytes, concept_edges, damaged_register, damaged_requirement, largest_register,
    medium_register, plain_within_size, register_edges, requirement_edges, small_plain,
    small_register, small_with_thresholds, Palette, Rng,
};
use second::judged::Judged;
use second::list::{list as direct, List};
use second::reduce::Concept;
use second::register::{self, Register};
use second::requirement::{self, Node, MOST_NODES};
use second::{brute, Refusal, Side};

use crate::fence;
use crate::library;
use crate::part::{hex, refused, Call, Difference, Outcome, Part, Seen, GOOD};
use crate::requirements;
use crate::sheet;
use crate::small;
use crate::worst::{
    all_linked, broom, bushy, chain, comb, deep_halves, fans, halves, late, late_halves, triplets,
    wide, with_withdrawn,
};

pub(crate) const LIST: &str = "list";
const DEGREE: &str = "degree";

/// Places that are enough for every register and requirement.
const ENOUGH: usize = 64 * 512;

pub const PART: Part = Part {
    name: "lists",
    calls: &[
        Call {
            name: LIST,
            kinds: &[GOOD],
            refusals: &[
                (Side::Register, &[1, 2, 3, 4, 5, 6, 7, 8]),
                requirements::READING,
                (Side::Call, &[16]),
            ],
        },
        // Asked of items of which the list has told the degree: it is good, but
        // for a withdrawn one.
        Call {
            name: DEGREE,
            kinds: &[GOOD],
            refusals: &[(Side::Call, &[26])],
        },
    ],
    run,
};

fn run(seen: &mut Seen, seed: u64) -> Result<(), Difference> {
    let mut rng = Rng::new(seed);
    sheet(seen)?;
    edges(seen)?;
    every_small_one(seen)?;
    every_map_tried(seen, &mut rng)?;
    lengths(seen, &mut rng)?;
    dropped(seen, &mut rng)?;
    large(seen, &mut rng)?;
    damaged(seen, &mut rng)?;
    generated(seen, &mut rng)
}

/// One question: an image and a message.
#[derive(Clone, Copy)]
pub(crate) struct Question<'a> {
    pub image: &'a [u8],
    pub message: &'a [u8],
}

impl Question<'_> {
    fn told(&self) -> Vec<(&'static str, String)> {
        vec![("image", hex(self.image)), ("message", hex(self.message))]
    }

    pub fn list(&self, table: &[u32]) -> Outcome<Vec<u32>> {
        let mut lent = table.to_vec();
        let answer = fence::shown(0, self.image, |image| {
            fence::shown(1, self.message, |message| {
                fence::lent(2, &mut lent, |table| library::list(image, message, table))
            })
        });
        Outcome { answer, lent }
    }
}

/// What a list comes to where it is worked out elsewhere: its numbers stand at
/// the front of the lent table, and the places behind are as before.
fn outcome(worked_out: Result<List, Refusal>, table: &[u32]) -> Outcome<Vec<u32>> {
    let mut lent = table.to_vec();
    let answer = match worked_out {
        Ok(list) => {
            lent[..list.table.len()].copy_from_slice(&list.table);
            [
                GOOD,
                list.items as u64,
                list.nodes as u64,
                list.scale.into(),
            ]
        }
        Err(refusal) => refused(refusal),
    };
    Outcome { answer, lent }
}

/// What the places of a lent table hold before a call: no two the same, and
/// nothing that a table holds afterwards but by chance.
pub(crate) fn before(places: usize) -> Vec<u32> {
    (0..places as u32).map(|place| !place << 8).collect()
}

/// The library's list against one that was worked out elsewhere, with a table of
/// so many places; and where it is good, against the library's own degrees.
pub(crate) fn against(
    seen: &mut Seen,
    question: Question,
    places: usize,
    worked_out: Result<List, Refusal>,
) -> Result<(), Difference> {
    let table = before(places);
    let library = question.list(&table);
    let list = worked_out.clone();
    seen.compare(LIST, library, outcome(worked_out, &table), || {
        let mut told = question.told();
        told.push(("places", places.to_string()));
        told
    })?;
    match list {
        Ok(list) => singles(seen, question, &list),
        Err(_) => Ok(()),
    }
}

/// The first row over the scale, in lowest terms, is what the library's single
/// call says of the first item, the last and one between; where one of them is
/// withdrawn, it says that.
fn singles(seen: &mut Seen, question: Question, list: &List) -> Result<(), Difference> {
    let register = register::read_whole(question.image).expect("a good list");
    let judged = Judged::of(&register);
    let last = list.items - 1;
    let mut items = vec![0, last / 2, last];
    items.dedup();
    for item in items {
        let single = library::degree(
            question.image,
            question.message,
            item as u64,
            &mut [0; MOST_NODES],
        );
        let listed = match judged.asked(item as u64) {
            Ok(_) => {
                let Fraction { num, den } = list.degree(item);
                [GOOD, num as u64, den as u64, list.nodes as u64]
            }
            Err(refusal) => refused(refusal),
        };
        let [single, listed] = [single, listed].map(|answer| Outcome { answer, lent: () });
        seen.compare(DEGREE, single, listed, || {
            let mut told = question.told();
            told.push(("item", item.to_string()));
            told
        })?;
    }
    Ok(())
}

fn list(seen: &mut Seen, question: Question, places: usize) -> Result<(), Difference> {
    let second = direct(question.image, question.message, places);
    against(seen, question, places, second)
}

/// A pair that is good, with exactly the places that it needs.
fn good(seen: &mut Seen, register: &Register, root: &Node) -> Result<(), Difference> {
    let (image, message) = (register::encode(register), requirement::encode(root));
    let question = Question {
        image: &image,
        message: &message,
    };
    list(seen, question, needed(register, root))
}

fn needed(register: &Register, root: &Node) -> usize {
    requirement::written(root).len() * register.items()
}

/// Places that are enough for every requirement.
fn enough(image: &[u8]) -> usize {
    let items = register::read_whole(image).map_or(1, |register| register.items());
    MOST_NODES * items
}

/// The document's sheet, with tables by hand: with just enough places, with some
/// behind them, and with one too few.
fn sheet(seen: &mut Seen) -> Result<(), Difference> {
    for (image, message, says) in sheet::lists() {
        let question = Question {
            image: &image,
            message: &message,
        };
        let needed = says.as_ref().map_or(6, |list| list.table.len());
        against(seen, question, needed, says.clone())?;
        against(seen, question, needed + 3, says.clone())?;
        let short = says.and(Err(Refusal::call(16)));
        for places in 0..needed {
            against(seen, question, places, short.clone())?;
        }
    }
    Ok(())
}

/// The edges of both sides, whose refusals were worked out by hand: they come
/// before the table's length.
fn edges(seen: &mut Seen) -> Result<(), Difference> {
    for edge in register_edges() {
        let question = Question {
            image: &edge.bytes,
            message: &Q1,
        };
        let refusal = edge
            .refusal
            .map(|(number, place)| Refusal::register(number, place));
        edge_of_either(seen, question, refusal)?;
    }
    for edge in requirement_edges().into_iter().chain(concept_edges()) {
        let question = Question {
            image: &R1,
            message: &edge.bytes,
        };
        let refusal = edge
            .refusal
            .map(|(number, place)| Refusal::requirement(number, place));
        edge_of_either(seen, question, refusal)?;
    }
    Ok(())
}

fn edge_of_either(
    seen: &mut Seen,
    question: Question,
    refusal: Option<Refusal>,
) -> Result<(), Difference> {
    for places in [0, enough(question.image)] {
        list(seen, question, places)?;
        if let Some(refusal) = refusal {
            against(seen, question, places, Err(refusal))?;
        }
    }
    Ok(())
}

/// The degrees of all items that are greatest over all partial maps, each of
/// them tried.
pub(crate) fn by_every_map(judged: &Judged, concept: &Concept) -> Vec<(u16, Fraction)> {
    let tried = |item| (item, brute::degree_at(judged, &concept.root, item));
    judged.each().map(tried).collect()
}

/// Every register of two items, one role and two names, with every requirement
/// of up to three nodes over these, and of four nodes over one name.
fn every_small_one(seen: &mut Seen) -> Result<(), Difference> {
    let registers = small::registers();
    for root in small::concepts() {
        let message = requirement::encode(&root);
        for (register, image) in &registers {
            let question = Question {
                image,
                message: &message,
            };
            let tried = List::of(&Judged::of(register), &root, by_every_map);
            against(seen, question, needed(register, &root), Ok(tried))?;
        }
    }
    Ok(())
}

/// Random registers of up to four items and requirements of up to six nodes.
fn every_map_tried(seen: &mut Seen, rng: &mut Rng) -> Result<(), Difference> {
    for _ in 0..5000 {
        let palette = Palette::any(rng);
        let register = small_register(rng, &palette);
        let root = small_plain(rng, &palette);
        let (image, message) = (register::encode(&register), requirement::encode(&root));
        let question = Question {
            image: &image,
            message: &message,
        };
        let tried = List::of(&Judged::of(&register), &root, by_every_map);
        against(seen, question, needed(&register, &root) + 2, Ok(tried))?;
    }
    Ok(())
}

/// Tables of every length from none to a little over what is needed, for small
/// pairs; for others, lengths about what is needed and far from it.
fn lengths(seen: &mut Seen, rng: &mut Rng) -> Result<(), Difference> {
    for _ in 0..100 {
        let palette = Palette::any(rng);
        let register = small_register(rng, &palette);
        let root = small_plain(rng, &palette);
        each_length(seen, &register, &root, |needed| (0..needed + 5).collect())?;
    }
    for _ in 0..100 {
        let palette = Palette::any(rng);
        let register = medium_register(rng, &palette);
        let root = plain_within_size(rng, &palette);
        let items = register.items();
        each_length(seen, &register, &root, |needed| {
            let far = [0, 1, items, needed - items, ENOUGH, ENOUGH + 9];
            let about = needed - 2..needed + 3;
            far.into_iter().chain(about).collect()
        })?;
    }
    Ok(())
}

/// Tables of these lengths: 16 exactly where one is shorter than needed.
fn each_length(
    seen: &mut Seen,
    register: &Register,
    root: &Node,
    lengths: impl Fn(usize) -> Vec<usize>,
) -> Result<(), Difference> {
    let (image, message) = (register::encode(register), requirement::encode(root));
    let question = Question {
        image: &image,
        message: &message,
    };
    let needed = needed(register, root);
    let whole = direct(&image, &message, needed);
    for places in lengths(needed) {
        let says = match places < needed {
            true => Err(Refusal::call(16)),
            false => whole.clone(),
        };
        against(seen, question, places, says)?;
    }
    Ok(())
}

/// Requirements with many children that repeat or say less than a sibling.
fn dropped(seen: &mut Seen, rng: &mut Rng) -> Result<(), Difference> {
    for round in 0..600 {
        let palette = Palette::any(rng);
        let register = match round % 8 {
            0 => medium_register(rng, &palette),
            _ => small_register(rng, &palette),
        };
        let mut root = small_plain(rng, &palette);
        repeat_children(rng, &mut root, 40, MOST_NODES);
        cut_to_size(rng, &mut root);
        good(seen, &register, &root)?;
    }
    good(seen, &fans(), &wide())?;
    good(seen, &fans(), &triplets())
}

/// The largest registers and requirements: 512 items, 64 nodes of which 61 are
/// kept, a table of 32,768 places; and one place fewer than is needed.
fn large(seen: &mut Seen, rng: &mut Rng) -> Result<(), Difference> {
    let linked = all_linked(|item| item as u64 & 7);
    for root in [bushy(), comb(), broom(), halves()] {
        good(seen, &fans(), &root)?;
        good(seen, &linked, &root)?;
        good(seen, &with_withdrawn(fans(), 10), &root)?;
        good(seen, &with_withdrawn(linked.clone(), 3), &root)?;
    }
    for root in [late(), late_halves(), deep_halves()] {
        good(seen, &linked, &root)?;
    }
    good(seen, &linked, &chain(|depth| depth as u64 & 7))?;
    for round in 0..8 {
        let palette = Palette::any(rng);
        let register = match round % 3 {
            0 => largest_register(rng, &palette),
            1 => register_of(rng, &palette, 512, 512),
            _ => register_of(rng, &palette, 64, 4096),
        };
        let root = match round % 4 {
            0 => threes(20),
            _ => plain_within_size(rng, &palette),
        };
        good(seen, &register, &root)?;
    }
    let (image, message) = (register::encode(&fans()), requirement::encode(&comb()));
    let question = Question {
        image: &image,
        message: &message,
    };
    let short = || Err(Refusal::call(16));
    against(seen, question, ENOUGH - 1, short())?;
    against(seen, question, 0, short())
}

/// Both sides whole or damaged and the table long enough or not, all at once:
/// which refusal comes first.
fn damaged(seen: &mut Seen, rng: &mut Rng) -> Result<(), Difference> {
    for round in 0..20_000 {
        let palette = Palette::any(rng);
        let register = small_register(rng, &palette);
        let root = match round % 4 {
            0 => small_with_thresholds(rng, &palette, &register),
            _ => small_plain(rng, &palette),
        };
        let image = match rng.below(3) {
            0 => damaged_register(rng, &register),
            _ => register::encode(&register),
        };
        let message = match rng.below(3) {
            0 => damaged_requirement(rng, &root),
            _ => requirement::encode(&root),
        };
        let question = Question {
            image: &image,
            message: &message,
        };
        let places = rng.between(0, 4 + 2 * needed(&register, &root));
        list(seen, question, places)?;
    }
    Ok(())
}

/// Pairs of every size, plain or not, good and damaged.
fn generated(seen: &mut Seen, rng: &mut Rng) -> Result<(), Difference> {
    for _ in 0..4000 {
        let (image, message) = any_pair_bytes(rng);
        let question = Question {
            image: &image,
            message: &message,
        };
        list(seen, question, enough(&image))?;
    }
    for round in 0..16_000 {
        let palette = Palette::any(rng);
        let register = small_register(rng, &palette);
        let root = match round % 8 {
            0 => plain_within_size(rng, &palette),
            _ => small_plain(rng, &palette),
        };
        good(seen, &register, &root)?;
    }
    Ok(())
}
