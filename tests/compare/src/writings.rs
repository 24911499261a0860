//! Writing requirement messages from lists.

use second::gen::{
    call_fractions, plain, small_register, small_with_thresholds, with_thresholds, Palette, Rng,
};
use second::requirement::{self, encode};
use second::writing::{self, lists};
use second::Side;

use crate::fence;
use crate::library;
use crate::part::{refused, Call, Difference, Outcome, Part, Seen, GOOD};

const WRITE: &str = "write requirement";

/// What the output holds before a call.
const UNWRITTEN: u8 = 0xC5;
/// The longest message.
const LONGEST: usize = 12_066;

pub const PART: Part = Part {
    name: "writings",
    calls: &[Call {
        name: WRITE,
        kinds: &[GOOD],
        refusals: &[(Side::Call, &[7, 9, 10, 12, 13, 14, 21, 22, 23, 24, 25])],
    }],
    run,
};

type Lists = [Vec<u64>; 3];

fn run(seen: &mut Seen, seed: u64) -> Result<(), Difference> {
    let mut rng = Rng::new(seed);
    samples(seen)?;
    by_hand(seen)?;
    lengths(seen)?;
    noise(seen, &mut rng)?;
    generated(seen, &mut rng)?;
    crowded(seen, &mut rng)
}

/// Writes with both programs, with an output of so many bytes.
fn write(seen: &mut Seen, all: &Lists, room: usize) -> Result<(), Difference> {
    let [nodes, thresholds, inner] = all;
    let mut out = vec![UNWRITTEN; room];
    let answer = fence::shown(0, nodes, |nodes| {
        fence::shown(1, thresholds, |thresholds| {
            fence::shown(2, inner, |inner| {
                fence::lent(3, &mut out, |out| {
                    library::write_requirement([nodes, thresholds, inner], out)
                })
            })
        })
    });
    let library = Outcome { answer, lent: out };
    let mut out = vec![UNWRITTEN; room];
    let answer = match writing::write(nodes, thresholds, inner, room) {
        Ok(message) => {
            out[..message.len()].copy_from_slice(&message);
            [GOOD, message.len() as u64, 0, 0]
        }
        Err(refusal) => refused(refusal),
    };
    let second = Outcome { answer, lent: out };
    seen.compare(WRITE, library, second, || {
        vec![
            ("nodes", format!("{nodes:?}")),
            ("thresholds", format!("{thresholds:?}")),
            ("inner", format!("{inner:?}")),
            ("room", room.to_string()),
        ]
    })
}

/// Where the samples stand, as the text tool wrote them (its own tests see that
/// it does).
const SAMPLES: &str = concat!(env!("CARGO_MANIFEST_DIR"), "/../../examples");

/// Every sample requirement is written again byte for byte.
fn samples(seen: &mut Seen) -> Result<(), Difference> {
    let mut paths: Vec<_> = std::fs::read_dir(SAMPLES)
        .expect("the samples")
        .map(|entry| entry.expect("a sample").path())
        .filter(|path| path.extension().is_some_and(|end| end == "requirement"))
        .collect();
    paths.sort();
    assert!(paths.len() >= 4, "four samples at least");
    for path in paths {
        let message = std::fs::read(path).expect("a sample can be read");
        let root = requirement::read(&message).expect("a sample is good");
        read_back(seen, &lists(&root), &message)?;
    }
    Ok(())
}

// ---- by hand

/// A node of a list.
fn node(names: u64, depth: u64, role: u64) -> [u64; 3] {
    [names, depth, role]
}

/// Nodes one below the other, to that depth.
fn chain(depth: u64) -> Vec<u64> {
    (0..=depth).flat_map(|at| node(1, at, 0)).collect()
}

/// A root, and so many children.
fn star(names: u64, children: usize) -> Vec<u64> {
    let mut list = node(names, 0, 0).to_vec();
    for child in 0..children {
        list.extend(node(1 << (child % 64), 1, child as u64 % 32));
    }
    list
}

/// Thresholds of these nodes, at least 1/2 of an inner list each.
fn thresholds(owners: &[u64], inner: &[u64]) -> (Vec<u64>, Vec<u64>) {
    let own = owners
        .iter()
        .flat_map(|owner| [*owner, 3, 1, 2, inner.len() as u64 / 3])
        .collect();
    (own, inner.repeat(owners.len()))
}

/// Lists with the number that refuses them, worked out by hand, or 0: a third
/// opinion.
fn edges() -> Vec<(Lists, u64)> {
    let none = Vec::new;
    let mut edges: Vec<(Lists, u64)> = vec![
        ([none(), none(), none()], 22),
        ([chain(0), none(), none()], 0),
        ([node(u64::MAX, 0, u64::MAX).to_vec(), none(), none()], 0),
        ([node(1, 1, 0).to_vec(), none(), none()], 22),
        ([node(1, 1 << 63, 0).to_vec(), none(), none()], 22),
        ([chain(0)[..2].to_vec(), none(), none()], 22),
        ([chain(1)[..4].to_vec(), none(), none()], 22),
        (
            [[node(1, 0, 0), node(1, 0, 0)].concat(), none(), none()],
            22,
        ),
        (
            [[node(1, 0, 0), node(1, 2, 0)].concat(), none(), none()],
            22,
        ),
        (
            [
                [node(1, 0, 0), node(1, u64::MAX, 0)].concat(),
                none(),
                none(),
            ],
            22,
        ),
        (
            [[node(1, 0, 0), node(1, 1, 31)].concat(), none(), none()],
            0,
        ),
        (
            [[node(1, 0, 0), node(1, 1, 32)].concat(), none(), none()],
            7,
        ),
        (
            [[node(1, 0, 0), node(1, 1, 256)].concat(), none(), none()],
            7,
        ),
        ([chain(16), none(), none()], 0),
        ([chain(17), none(), none()], 9),
        ([star(0, 63), none(), none()], 0),
        ([star(0, 64), none(), none()], 10),
        // The role comes before the depth, the depth before the count.
        (
            [
                [chain(16), node(1, 17, 32).to_vec()].concat(),
                none(),
                none(),
            ],
            7,
        ),
        (
            [
                [star(0, 47), chain(17)[3..].to_vec()].concat(),
                none(),
                none(),
            ],
            9,
        ),
    ];
    for (owners, number) in [
        (vec![0; 16], 0),
        (vec![0; 17], 12),
        (vec![0, 1, 1, 2], 0),
        (vec![1, 0], 22),
        (vec![2, 2, 1], 22),
        (vec![3], 22),
        (vec![u64::MAX], 22),
    ] {
        let (own, inner) = thresholds(&owners, &chain(1));
        edges.push(([star(7, 2), own, inner], number));
    }
    edges.extend(inner_edges());
    edges.extend(fraction_edges());
    edges
}

/// One threshold at the root of a tree of two nodes, with each fault in its
/// inner list.
fn inner_edges() -> Vec<(Lists, u64)> {
    let mut edges = Vec::new();
    for (inner, number) in [
        (Vec::new(), 22),
        (node(1, 1, 0).to_vec(), 22),
        ([node(1, 0, 0), node(1, 2, 0)].concat(), 22),
        ([node(1, 0, 0), node(1, 0, 0)].concat(), 22),
        ([node(1, 0, 77), node(1, 1, 31)].concat(), 0),
        ([node(1, 0, 0), node(1, 1, 32)].concat(), 7),
        (chain(16), 0),
        (chain(17), 9),
        (star(0, 29), 0),
        (star(3, 29), 0),
        (star(7, 29), 14),
        (star(u64::MAX, 0), 14),
        ([star(0, 0), node(0, 1, 0).repeat(63)].concat(), 0),
        ([star(0, 0), node(0, 1, 0).repeat(64)].concat(), 10),
    ] {
        let (own, all) = thresholds(&[0], &inner);
        edges.push(([chain(1), own, all], number));
    }
    // Inner nodes that no threshold has, too few of them, a rest.
    let (own, all) = thresholds(&[0], &chain(1));
    edges.push(([chain(1), Vec::new(), all.clone()], 22));
    edges.push(([chain(1), own.clone(), all[..3].to_vec()], 22));
    edges.push(([chain(1), own.clone(), all[..5].to_vec()], 22));
    edges.push(([chain(1), own[..4].to_vec(), all.clone()], 22));
    let mut far = own.clone();
    far[4] = 1 << 63;
    edges.push(([chain(1), far, all.clone()], 22));
    // 22 of a later list comes before all other numbers; a node's thresholds
    // before its children.
    let mut bad = own.clone();
    bad[1] = 4;
    let faulty = [node(1, 0, 0), node(1, 1, 32)].concat();
    edges.push(([faulty.clone(), bad.clone(), all.clone()], 13));
    edges.push(([faulty, bad, [all, node(0, 0, 0).to_vec()].concat()], 22));
    edges
}

/// One threshold on the first of two nodes: comparisons and fractions at each
/// edge of their rules, and a bad fraction with another fault before or behind
/// it.
fn fraction_edges() -> Vec<(Lists, u64)> {
    let one = |how, p, q, inner: Vec<u64>| {
        let threshold = vec![0, how, p, q, inner.len() as u64 / 3];
        [chain(1), threshold, inner]
    };
    let mut edges = Vec::new();
    for how in 0..4 {
        edges.push((one(how, 1, 2, chain(0)), 0));
    }
    for (p, q, number) in call_fractions() {
        let number = number.map(u64::from);
        edges.push((one(3, p, q, chain(0)), number.unwrap_or(0)));
        for how in [4, 256, 1 << 32, u64::MAX] {
            edges.push((one(how, p, q, chain(0)), 13));
        }
        for (inner, own) in [
            (Vec::new(), 22),
            (node(1, 1, 0).to_vec(), 22),
            ([node(1, 0, 0), node(1, 1, 32)].concat(), 7),
            (chain(17), 9),
            ([star(0, 0), node(0, 1, 0).repeat(64)].concat(), 10),
            (star(u64::MAX, 0), 14),
        ] {
            // 22 comes before all other numbers.
            let first = if own == 22 { None } else { number };
            edges.push((one(3, p, q, inner), first.unwrap_or(own)));
        }
        edges.extend(among_others(p, q, number));
    }
    edges
}

/// A fraction at the second threshold of two, the 16th and the 17th, and on a
/// node whose role, or that of a node before or behind it, is too high.
fn among_others(p: u64, q: u64, number: Option<u64>) -> Vec<(Lists, u64)> {
    let with = |nodes: Vec<u64>, owners: &[u64]| {
        let (mut own, inner) = thresholds(owners, &chain(0));
        let last = own.len() - 5;
        own[last + 2..last + 4].copy_from_slice(&[p, q]);
        [nodes, own, inner]
    };
    let roles = |first, second| [node(0, 0, 0), node(0, 1, first), node(0, 1, second)].concat();
    vec![
        (with(star(0, 2), &[0, 0]), number.unwrap_or(0)),
        (with(star(0, 2), &[0, 2]), number.unwrap_or(0)),
        (with(star(0, 2), &[0; 16]), number.unwrap_or(0)),
        (with(star(0, 2), &[0; 17]), 12),
        (with(star(0, 2), &[2, 1]), 22),
        (with(roles(0, 32), &[1]), number.unwrap_or(7)),
        (with(roles(32, 0), &[1]), 7),
        (with(roles(32, 0), &[2]), 7),
    ]
}

/// Each with room enough, and with none: 21 comes last.
fn by_hand(seen: &mut Seen) -> Result<(), Difference> {
    for (all, number) in edges() {
        for room in [LONGEST, 0] {
            write(seen, &all, room)?;
            let mut out = vec![UNWRITTEN; room];
            let answer = library::write_requirement([&all[0], &all[1], &all[2]], &mut out);
            let expected = match number {
                0 if room == 0 => [0, 2, 21, 0],
                0 => [GOOD, answer[1], 0, 0],
                number => [0, 2, number, 0],
            };
            let outcome = |answer| Outcome { answer, lent: () };
            seen.compare(WRITE, outcome(answer), outcome(expected), || {
                vec![("by hand", format!("{all:?}"))]
            })?;
        }
    }
    Ok(())
}

/// Outputs of every length up to the message's and a little more.
fn lengths(seen: &mut Seen) -> Result<(), Difference> {
    let (own, inner) = thresholds(&[0, 1, 2], &star(5, 2));
    let all = [star(7, 3), own, inner];
    for room in 0..200 {
        write(seen, &all, room)?;
    }
    let (own, inner) = thresholds(&[63; 16], &[star(0, 0), node(0, 1, 0).repeat(63)].concat());
    let longest = [star(0, 63), own, inner];
    for room in [0, LONGEST - 1, LONGEST, LONGEST + 1] {
        write(seen, &longest, room)?;
    }
    Ok(())
}

// ---- at random

/// A number that is small, at an edge, or any.
fn number(rng: &mut Rng) -> u64 {
    const EDGES: [u64; 12] = [
        0,
        1,
        16,
        17,
        31,
        32,
        64,
        255,
        256,
        1 << 32,
        1 << 63,
        u64::MAX,
    ];
    match rng.below(4) {
        0 => rng.pick(&EDGES),
        1 => rng.word(),
        _ => rng.below(4),
    }
}

fn noise(seen: &mut Seen, rng: &mut Rng) -> Result<(), Difference> {
    for _ in 0..60_000 {
        let mut list = |most: usize| {
            let length = rng.between(0, most);
            (0..length).map(|_| number(rng)).collect::<Vec<u64>>()
        };
        let all = [list(9), list(10), list(9)];
        let room = rng.between(0, 120);
        write(seen, &all, room)?;
    }
    Ok(())
}

/// The lists of good requirements, which must write the message; then with one
/// or two numbers changed, with a node more or less, and with little room.
fn generated(seen: &mut Seen, rng: &mut Rng) -> Result<(), Difference> {
    for round in 0..12_000 {
        let palette = Palette::any(rng);
        let register = small_register(rng, &palette);
        let root = match round % 4 {
            0 => plain(rng, &palette),
            1 | 2 => small_with_thresholds(rng, &palette, &register),
            _ => with_thresholds(rng, &palette, &register),
        };
        let message = encode(&root);
        let all = lists(&root);
        read_back(seen, &all, &message)?;
        write(seen, &all, message.len() - rng.index(2))?;
        for _ in 0..6 {
            let mut changed = all.clone();
            for _ in 0..rng.between(1, 2) {
                let list = &mut changed[rng.index(3)];
                if list.is_empty() || rng.chance(8) {
                    let at = rng.between(0, list.len() / 3) * 3;
                    list.splice(at..at, node(1, rng.below(3), rng.below(33)));
                } else {
                    let at = rng.index(list.len());
                    list[at] = match rng.below(3) {
                        0 => list[at].wrapping_add(1),
                        1 => list[at].wrapping_sub(1),
                        _ => number(rng),
                    };
                }
            }
            write(seen, &changed, LONGEST)?;
        }
    }
    Ok(())
}

/// A list that forms a tree of so many nodes; now and then a role too high.
fn any_list(rng: &mut Rng, nodes: usize, deepest: u64) -> Vec<u64> {
    let mut list = Vec::new();
    let mut depth = 0;
    for _ in 0..nodes {
        let role = if rng.chance(400) { 32 } else { rng.below(32) };
        list.extend(node(rng.below(4), depth, role));
        depth = match rng.below(3) {
            0 => 1 + rng.below(depth + 1),
            _ => depth + 1,
        };
        depth = depth.min(deepest);
    }
    list
}

/// Three fractions for each fault, some of them with a later one as well.
const BAD_FRACTIONS: [[u64; 2]; 9] = [
    [1, 0],
    [1, 1001],
    [2002, 1001],
    [2, 1],
    [4, 2],
    [1001, 1000],
    [0, 2],
    [2, 4],
    [1000, 1000],
];

/// Lists at and near their bounds, with a fault here and there: which of two
/// comes first.
fn crowded(seen: &mut Seen, rng: &mut Rng) -> Result<(), Difference> {
    for _ in 0..6_000 {
        let nodes = rng.pick(&[1, 2, 5, 17, 63, 64, 65]);
        let deepest = rng.pick(&[1, 2, 16, 16, 17]);
        let mut all = [any_list(rng, nodes, deepest), Vec::new(), Vec::new()];
        let count = rng.pick(&[1, 2, 15, 16, 17, 18]);
        let mut owners: Vec<u64> = (0..count).map(|_| rng.below(nodes as u64)).collect();
        owners.sort_unstable();
        for owner in owners {
            let inner = match rng.below(60) {
                0 => chain(rng.pick(&[15, 16, 17])),
                1 => star(rng.pick(&[3, 7]), 29),
                2 => [star(0, 0), node(0, 1, 0).repeat(rng.between(62, 64))].concat(),
                _ => {
                    let own = rng.between(1, 4);
                    any_list(rng, own, 16)
                }
            };
            let how = if rng.chance(60) { 4 } else { rng.below(4) };
            let [p, q] = match rng.below(30) {
                0 => rng.pick(&BAD_FRACTIONS),
                _ => rng.pick(&[[0, 1], [1, 1], [1, 2], [2, 3], [999, 1000]]),
            };
            all[1].extend([owner, how, p, q, inner.len() as u64 / 3]);
            all[2].extend(inner);
        }
        let room = if rng.chance(20) {
            rng.between(0, 2000)
        } else {
            LONGEST
        };
        write(seen, &all, room)?;
    }
    Ok(())
}

/// The message of a requirement is written again byte for byte, and reads back
/// as it.
fn read_back(seen: &mut Seen, all: &Lists, message: &[u8]) -> Result<(), Difference> {
    write(seen, all, message.len() + 3)?;
    let mut out = vec![UNWRITTEN; message.len()];
    let answer = library::write_requirement([&all[0], &all[1], &all[2]], &mut out);
    let written = Outcome { answer, lent: out };
    let expected = Outcome {
        answer: [GOOD, message.len() as u64, 0, 0],
        lent: message.to_vec(),
    };
    assert!(requirement::read(message).is_ok(), "a good requirement");
    seen.compare(WRITE, written, expected, || {
        vec![("lists", format!("{all:?}"))]
    })
}
