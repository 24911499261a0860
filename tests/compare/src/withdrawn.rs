//! Withdrawn items (§5 of document 02), in every question: by hand, over every
//! small register, and against the library itself on the register out of which
//! they were taken.

use second::degree::{DROPPED, UNMAPPED};
use second::gen::{
    any_pair, renumbered, small_pair, small_register, small_with_thresholds, taken_out, Palette,
    Rng,
};
use second::judged::{Judged, WITHDRAWN};
use second::list::List;
use second::register::{self, Link};
use second::requirement::{self, Comparison, Node, MOST_NODES};
use second::{Refusal, Side};

use crate::degrees::{self, DEGREE, MARGIN};
use crate::library;
use crate::lists::{self, LIST};
use crate::members::{self, Decision, MEMBER};
use crate::part::{hex, Call, Difference, Outcome, Part, Seen, GOOD, NO};
use crate::sheet::{asking, image, leaf, node, threshold, Degree};
use crate::small;

pub const PART: Part = Part {
    name: "withdrawn",
    calls: &[
        Call {
            name: DEGREE,
            kinds: &[GOOD],
            refusals: &[(Side::Requirement, &[11, 14]), (Side::Call, &[15, 16, 26])],
        },
        Call {
            name: MARGIN,
            kinds: &[GOOD],
            refusals: &[
                (Side::Requirement, &[11, 14]),
                (Side::Call, &[15, 23, 24, 25, 26]),
            ],
        },
        Call {
            name: MEMBER,
            kinds: &[GOOD, NO],
            refusals: &[(Side::Call, &[15, 16, 26])],
        },
        Call {
            name: LIST,
            kinds: &[GOOD],
            refusals: &[(Side::Requirement, &[11, 14]), (Side::Call, &[16])],
        },
    ],
    run,
};

fn run(seen: &mut Seen, seed: u64) -> Result<(), Difference> {
    let mut rng = Rng::new(seed);
    by_hand(seen)?;
    orders(seen, &mut rng)?;
    every_small_one(seen)?;
    as_if_they_were_not_there(seen, &mut rng)
}

/// Withdrawn.
const OUT: u32 = WITHDRAWN;

/// One question by hand: an image, a requirement and an item; the degree with
/// its map, and the map of a yes.
struct Row {
    names: &'static [&'static [u32]],
    links: &'static [Link],
    root: Node,
    item: u64,
    degree: Degree,
    member: Decision,
}

fn rows() -> Vec<Row> {
    let good = |num, den, map: &[u16]| Ok((num, den, map.to_vec()));
    let yes = |map: &[u16]| Ok(Some(map.to_vec()));
    let to = |child: Node| node(&[], vec![(0, child)]);
    let chain = || node(&[0], vec![(0, node(&[0], vec![(0, leaf(&[0]))]))]);
    let out = || Refusal::call(26);
    vec![
        // Asked for, with any names beside.
        Row {
            names: &[&[0], &[0, OUT], &[OUT]],
            links: &[],
            root: leaf(&[0]),
            item: 1,
            degree: Err(out()),
            member: Err(out()),
        },
        Row {
            names: &[&[0], &[0, OUT], &[OUT]],
            links: &[],
            root: leaf(&[]),
            item: 2,
            degree: Err(out()),
            member: Err(out()),
        },
        // Linked to and from: no way goes through it.
        Row {
            names: &[&[0], &[0, OUT], &[0]],
            links: &[(0, 0, 1), (1, 0, 2)],
            root: chain(),
            item: 0,
            degree: good(1, 2, &[0, UNMAPPED, UNMAPPED]),
            member: Ok(None),
        },
        // The only successor: an empty child has nowhere to go.
        Row {
            names: &[&[], &[OUT]],
            links: &[(0, 0, 1)],
            root: to(leaf(&[])),
            item: 0,
            degree: good(0, 1, &[0, UNMAPPED]),
            member: Ok(None),
        },
        // The first successor, where the greatest degree is 0.
        Row {
            names: &[&[], &[0, OUT], &[], &[]],
            links: &[(0, 0, 1), (0, 0, 2), (0, 0, 3)],
            root: to(leaf(&[0])),
            item: 0,
            degree: good(0, 1, &[0, 2]),
            member: Ok(None),
        },
        // The first successor, where the child is empty.
        Row {
            names: &[&[], &[OUT], &[], &[]],
            links: &[(0, 0, 1), (0, 0, 2), (0, 0, 3)],
            root: to(leaf(&[])),
            item: 0,
            degree: good(1, 1, &[0, 2]),
            member: yes(&[0, 2]),
        },
        // The best successor, between two others.
        Row {
            names: &[&[], &[0], &[0, 1, OUT], &[1]],
            links: &[(0, 0, 1), (0, 0, 2), (0, 0, 3)],
            root: to(leaf(&[0, 1])),
            item: 0,
            degree: good(1, 2, &[0, 1]),
            member: Ok(None),
        },
        // Linked to itself, and to another that is linked to itself.
        Row {
            names: &[&[0], &[0, OUT]],
            links: &[(0, 0, 1), (1, 0, 0), (1, 0, 1)],
            root: chain(),
            item: 0,
            degree: good(1, 2, &[0, UNMAPPED, UNMAPPED]),
            member: Ok(None),
        },
        Row {
            names: &[&[0], &[0, OUT]],
            links: &[(0, 0, 0), (0, 0, 1), (1, 0, 1)],
            root: chain(),
            item: 0,
            degree: good(1, 1, &[0, 0, 0]),
            member: yes(&[0, 0, 0]),
        },
        // A requirement that names it: a name in n that no item holds.
        Row {
            names: &[&[0], &[0, OUT]],
            links: &[(0, 0, 0), (0, 0, 1)],
            root: node(&[0, OUT], vec![(0, leaf(&[OUT]))]),
            item: 0,
            degree: good(1, 3, &[0, 0]),
            member: Ok(None),
        },
        // And in reduction one as any other.
        Row {
            names: &[&[0], &[0, OUT]],
            links: &[(0, 0, 0), (0, 0, 1)],
            root: node(&[], vec![(0, leaf(&[0])), (0, leaf(&[0, OUT]))]),
            item: 0,
            degree: good(1, 2, &[0, DROPPED, 0]),
            member: Ok(None),
        },
        // A threshold's degree is over the same graph: 1/2 and not 1.
        Row {
            names: &[&[0], &[0, OUT]],
            links: &[(0, 0, 1)],
            root: asking(vec![threshold(
                Comparison::AtMost,
                1,
                2,
                node(&[0], vec![(0, leaf(&[0]))]),
            )]),
            item: 0,
            degree: Err(Refusal::requirement(11, 13)),
            member: yes(&[0]),
        },
    ]
}

fn by_hand(seen: &mut Seen) -> Result<(), Difference> {
    for row in rows() {
        let image = image(row.names, row.links);
        let message = requirement::encode(&row.root);
        let item = row.item;
        let question = degrees::Question {
            image: &image,
            message: &message,
            item,
        };
        let map = degrees::before(5);
        degrees::degree_against(seen, question, &map, row.degree)?;
        members::against(seen, (&image, &message, item), 5, row.member)?;
    }
    listed_by_hand(seen)
}

/// Tables with 0 at a withdrawn item in every row, also at an empty node.
fn listed_by_hand(seen: &mut Seen) -> Result<(), Difference> {
    let links = [(0, 0, 1), (1, 0, 0), (2, 0, 0)];
    let some = image(&[&[0], &[0, OUT], &[]], &links);
    let all = image(&[&[OUT], &[0, OUT], &[OUT]], &links);
    let empty = leaf(&[]);
    let to_any = node(&[0], vec![(0, leaf(&[]))]);
    let to_either = node(&[0], vec![(0, leaf(&[])), (0, leaf(&[0]))]);
    let tables: [(&[u8], &Node, u32, &[u32]); 5] = [
        (&some, &empty, 1, &[1, 0, 1]),
        (&some, &to_any, 2, &[1, 0, 1, 1, 0, 1]),
        (&some, &to_either, 2, &[1, 0, 1, 0, 0, 0, 1, 0, 0]),
        (&all, &empty, 1, &[0; 3]),
        (&all, &to_either, 2, &[0; 9]),
    ];
    for (image, root, scale, table) in tables {
        let message = requirement::encode(root);
        let question = lists::Question {
            image,
            message: &message,
        };
        let says = List {
            items: 3,
            nodes: table.len() / 3,
            scale,
            table: table.to_vec(),
        };
        lists::against(seen, question, table.len(), Ok(says.clone()))?;
        lists::against(seen, question, table.len() + 2, Ok(says))?;
        lists::against(seen, question, table.len() - 1, Err(Refusal::call(16)))?;
    }
    Ok(())
}

/// What comes before 26 and what behind it: 15, and then 16, or 23 to 25. With
/// any requirement, and a map that is too short or not.
fn orders(seen: &mut Seen, rng: &mut Rng) -> Result<(), Difference> {
    const FRACTIONS: [(u64, u64); 5] = [(1, 2), (1, 0), (1, 1001), (3, 2), (2, 4)];
    for round in 0..400 {
        let mut palette = Palette::any(rng);
        palette.withdrawn = 1 + round % 2;
        let register = small_register(rng, &palette);
        let root = match round % 8 {
            0 => small_with_thresholds(rng, &palette, &register),
            1 => leaf(&(0..61).collect::<Vec<u32>>()),
            _ => leaf(&[0, 1]),
        };
        let (image, message) = (register::encode(&register), requirement::encode(&root));
        for item in (0..=register.items() as u64).chain([512, 65_536, 1 << 32]) {
            let question = degrees::Question {
                image: &image,
                message: &message,
                item,
            };
            for room in [0, 1, 5] {
                degrees::degree(seen, question, &degrees::before(room))?;
                members::member(seen, &image, &message, item, room)?;
            }
            for fraction in FRACTIONS {
                degrees::margin(seen, question, fraction)?;
            }
        }
    }
    // By hand: an item that is withdrawn, beside everything that comes behind.
    let image = image(&[&[OUT]], &[]);
    let message = requirement::encode(&leaf(&[0]));
    for (item, number) in [(0, 26), (1, 15)] {
        let question = degrees::Question {
            image: &image,
            message: &message,
            item,
        };
        let refusal = Refusal::call(number);
        degrees::degree_against(seen, question, &[], Err(refusal))?;
        members::against(seen, (&image, &message, item), 0, Err(refusal))?;
        for fraction in FRACTIONS {
            degrees::margin_against(seen, question, fraction, Err(refusal))?;
        }
    }
    Ok(())
}

/// Every register of two items, one role and the names 0 and 63, with every
/// requirement of up to three nodes over these.
fn every_small_one(seen: &mut Seen) -> Result<(), Difference> {
    let renamed = |names: u64| names & 1 | (names & 2) << (WITHDRAWN - 1);
    let registers = small::registers_over(renamed);
    for root in small::concepts_over(renamed) {
        let message = requirement::encode(&root);
        let nodes = requirement::written(&root).len();
        let map = degrees::before(nodes);
        for (register, image) in &registers {
            let judged = Judged::of(register);
            for item in 0..2 {
                let question = degrees::Question {
                    image,
                    message: &message,
                    item: item.into(),
                };
                let tried = degrees::by_every_map(&judged, &root, item);
                degrees::degree_against(seen, question, &map, tried)?;
                degrees::margin(seen, question, (1, 2))?;
                members::third_opinion(seen, register, image, &root, &message, item.into())?;
            }
            let question = lists::Question {
                image,
                message: &message,
            };
            let tried = List::of(&judged, &root, lists::by_every_map);
            lists::against(seen, question, 2 * nodes, Ok(tried))?;
        }
    }
    Ok(())
}

/// The library's answers are its own of the register out of which the withdrawn
/// items were taken, where the others have new numbers.
fn as_if_they_were_not_there(seen: &mut Seen, rng: &mut Rng) -> Result<(), Difference> {
    for round in 0..12_000 {
        let (whole, root) = match round % 8 {
            0 => any_pair(rng),
            _ => small_pair(rng),
        };
        let Some((less, old)) = taken_out(&whole).filter(|(_, old)| old.len() < whole.items())
        else {
            continue;
        };
        let [whole, less] = [&whole, &less].map(register::encode);
        let both = Both {
            whole,
            less,
            message: requirement::encode(&root),
            old,
        };
        for _ in 0..2 {
            both.at(seen, rng.index(both.old.len()))?;
        }
        both.listed(seen)?;
    }
    Ok(())
}

/// An image, that without its withdrawn items, and the old number of each item
/// that is left.
struct Both {
    whole: Vec<u8>,
    less: Vec<u8>,
    message: Vec<u8>,
    old: Vec<u16>,
}

impl Both {
    fn told(&self) -> Vec<(&'static str, String)> {
        vec![
            ("image", hex(&self.whole)),
            ("taken out", hex(&self.less)),
            ("message", hex(&self.message)),
        ]
    }

    /// The three questions about an item by its new number.
    fn at(&self, seen: &mut Seen, new: usize) -> Result<(), Difference> {
        let of = |image, item| degrees::Question {
            image,
            message: &self.message,
            item,
        };
        let one = of(&self.whole, self.old[new].into());
        let other = of(&self.less, new as u64);
        let map = [UNMAPPED; MOST_NODES];
        let mut wanted = other.degree(&map);
        wanted.lent = renumbered(&wanted.lent, &self.old);
        seen.compare(DEGREE, one.degree(&map), wanted, || self.told())?;
        let (margin, wanted) = (one.margin(2, 3), other.margin(2, 3));
        seen.compare(MARGIN, margin, wanted, || self.told())?;
        let mut maps = [map; 2];
        let decided = library::member(one.image, one.message, one.item, &mut maps[0]);
        let wanted = library::member(other.image, other.message, other.item, &mut maps[1]);
        let library = Outcome {
            answer: decided,
            lent: maps[0].to_vec(),
        };
        let wanted = Outcome {
            answer: wanted,
            lent: renumbered(&maps[1], &self.old),
        };
        seen.compare(MEMBER, library, wanted, || self.told())
    }

    /// The whole list: the rows of the one with zeros between them.
    fn listed(&self, seen: &mut Seen) -> Result<(), Difference> {
        let of = |image| lists::Question {
            image,
            message: &self.message,
        };
        let room = MOST_NODES * usize::from(u16::from_be_bytes([self.whole[3], self.whole[4]]));
        let table = vec![0; room];
        let library = of(&self.whole).list(&table);
        let short = of(&self.less).list(&table);
        let wanted = match short.answer {
            [GOOD, less, nodes, scale] => {
                let items = room / MOST_NODES;
                let mut lent = vec![0; room];
                for (place, number) in short.lent.iter().enumerate() {
                    let (row, new) = (place / less as usize, place % less as usize);
                    if (row as u64) < nodes {
                        lent[row * items + usize::from(self.old[new])] = *number;
                    }
                }
                let answer = [GOOD, items as u64, nodes, scale];
                Outcome { answer, lent }
            }
            _ => short,
        };
        seen.compare(LIST, library, wanted, || self.told())
    }
}
