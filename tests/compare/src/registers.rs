//! Reading register images: whole inputs, and what a session's buffer begins
//! with.

use second::gen::damage::mend_head;
use second::gen::edges::R1;
use second::gen::{
    damaged_register, largest_register, medium_register, random_bytes, register_edges,
    small_register, Palette, Rng,
};
use second::register::{encode, read_session, read_whole, Link, Register};
use second::{Refusal, Side};

use crate::fence;
use crate::library::{self, Answer};
use crate::part::{hex, refused, Call, Difference, Outcome, Part, Seen, GOOD};

const WHOLE: &str = "read whole";
const SESSION: &str = "read session";

const NUMBERS: &[(Side, &[u64])] = &[(Side::Register, &[1, 2, 3, 4, 5, 6, 7, 8])];

pub const PART: Part = Part {
    name: "registers",
    calls: &[
        Call {
            name: WHOLE,
            kinds: &[GOOD],
            refusals: NUMBERS,
        },
        Call {
            name: SESSION,
            kinds: &[GOOD],
            refusals: NUMBERS,
        },
    ],
    run,
};

fn run(seen: &mut Seen, seed: u64) -> Result<(), Difference> {
    let mut rng = Rng::new(seed);
    edges(seen)?;
    let images = some_images(&mut rng);
    for image in &images {
        truncations(seen, image)?;
        single_bytes(seen, image)?;
        lengths(seen, image)?;
    }
    counts(seen)?;
    links(seen, &mut rng)?;
    largest(seen, &mut rng)?;
    noise(seen, &mut rng)?;
    generated(seen, &mut rng)
}

/// A reading of the second program in four numbers.
fn numbers(reading: Result<Register, Refusal>) -> Answer {
    match reading {
        Ok(register) => {
            let links = register.links.len();
            [GOOD, register.items() as u64, links as u64, 0]
        }
        Err(refusal) => refused(refusal),
    }
}

fn outcome(answer: Answer) -> Outcome<()> {
    Outcome { answer, lent: () }
}

fn whole(seen: &mut Seen, bytes: &[u8]) -> Result<(), Difference> {
    let library = outcome(fence::shown(0, bytes, |bytes| {
        library::read_register(bytes, 0)
    }));
    let second = outcome(numbers(read_whole(bytes)));
    seen.compare(WHOLE, library, second, || vec![("image", hex(bytes))])
}

/// Any number but 0 asks for a session's reading.
fn session(seen: &mut Seen, bytes: &[u8]) -> Result<(), Difference> {
    const ASKS: [u64; 5] = [1, 2, 256, 1 << 32, u64::MAX];
    let ask = ASKS[bytes.len() % ASKS.len()];
    let library = outcome(fence::shown(0, bytes, |bytes| {
        library::read_register(bytes, ask)
    }));
    let second = outcome(numbers(read_session(bytes)));
    seen.compare(SESSION, library, second, || {
        vec![("buffer", hex(bytes)), ("session", ask.to_string())]
    })
}

fn both(seen: &mut Seen, bytes: &[u8]) -> Result<(), Difference> {
    whole(seen, bytes)?;
    session(seen, bytes)
}

/// The bytes with others behind them, as in a session's buffer.
fn with_behind(seen: &mut Seen, bytes: &[u8], behind: &[u8]) -> Result<(), Difference> {
    both(seen, &[bytes, behind].concat())
}

/// The edges, whose refusals were worked out by hand: a third opinion.
fn edges(seen: &mut Seen) -> Result<(), Difference> {
    for edge in register_edges() {
        both(seen, &edge.bytes)?;
        for behind in [&[0][..], &[0xEE; 5], &[0xEE; 300]] {
            with_behind(seen, &edge.bytes, behind)?;
        }
        let answer = library::read_register(&edge.bytes, 0);
        let by_hand = match edge.refusal {
            Some((number, place)) => refused(Refusal::register(number, place)),
            None => [GOOD, answer[1], answer[2], 0],
        };
        seen.compare(WHOLE, outcome(answer), outcome(by_hand), || {
            vec![("by hand", edge.label.clone()), ("image", hex(&edge.bytes))]
        })?;
    }
    Ok(())
}

/// Valid images for exhaustive damage.
fn some_images(rng: &mut Rng) -> Vec<Vec<u8>> {
    let bare = Register {
        names: vec![0],
        links: vec![],
    };
    let every_end = Register {
        names: vec![u64::MAX, 0, 1],
        links: vec![(0, 0, 0), (0, 31, 2), (1, 5, 1), (2, 0, 2), (2, 31, 2)],
    };
    let mut images = vec![R1.to_vec(), encode(&bare), encode(&every_end)];
    for _ in 0..5 {
        let palette = Palette::any(rng);
        images.push(encode(&small_register(rng, &palette)));
    }
    images
}

/// Every truncation, with its head as it was and with one that fits.
fn truncations(seen: &mut Seen, image: &[u8]) -> Result<(), Difference> {
    for length in 0..=image.len() {
        let mut bytes = image[..length].to_vec();
        both(seen, &bytes)?;
        mend_head(&mut bytes);
        both(seen, &bytes)?;
        with_behind(seen, &bytes, &image[length..])?;
    }
    Ok(())
}

/// Every other value of every single byte.
fn single_bytes(seen: &mut Seen, image: &[u8]) -> Result<(), Difference> {
    let mut bytes = image.to_vec();
    for place in 0..image.len() {
        for change in 1..=255 {
            bytes[place] = image[place].wrapping_add(change);
            both(seen, &bytes)?;
        }
        bytes[place] = image[place];
    }
    Ok(())
}

/// Every length that a head can say, and a byte too many or too few behind.
fn lengths(seen: &mut Seen, image: &[u8]) -> Result<(), Difference> {
    let mut longer = [image, &[0, 0, 0, 0, 0, 1]].concat();
    for length in 0..=u16::MAX {
        longer[1..3].copy_from_slice(&length.to_be_bytes());
        both(seen, &longer)?;
        both(seen, &longer[..image.len()])?;
    }
    Ok(())
}

/// The first so many links between so many items in rising order; past the
/// last that there is, ends run out of range.
fn rising(items: usize, links: usize) -> Vec<Link> {
    (0..links)
        .map(|number| {
            let to = number % items;
            let role = number / items % 32;
            let from = number / items / 32;
            (from as u16, role as u8, to as u16)
        })
        .collect()
}

/// Both counts at and past each bound: said alone, written out, and written
/// out with one more or one fewer said.
fn counts(seen: &mut Seen) -> Result<(), Difference> {
    const ITEMS: [usize; 9] = [0, 1, 2, 255, 256, 511, 512, 513, 1024];
    const LINKS: [usize; 8] = [0, 1, 255, 256, 4095, 4096, 4097, 8192];
    for count in 0..=u16::MAX {
        let said = count.to_be_bytes();
        both(seen, &[1, 0, 2, said[0], said[1]])?;
        let one_item = [&[1, 0, 12, 0, 1][..], &[0; 8], &said].concat();
        both(seen, &one_item)?;
    }
    for items in ITEMS {
        for links in LINKS {
            let register = Register {
                names: vec![1; items],
                links: rising(items.max(1), links),
            };
            let image = encode(&register);
            both(seen, &image)?;
            for (place, count) in [(3, items), (5 + 8 * items, links)] {
                for said in [count.wrapping_sub(1), count + 1] {
                    let mut bytes = image.clone();
                    bytes[place..place + 2].copy_from_slice(&(said as u16).to_be_bytes());
                    both(seen, &bytes)?;
                }
            }
        }
    }
    Ok(())
}

/// Links out of order, equal, and out of range, one and two at a time.
fn links(seen: &mut Seen, rng: &mut Rng) -> Result<(), Difference> {
    for _ in 0..40 {
        let palette = Palette::any(rng);
        let good = small_register(rng, &palette);
        let count = good.links.len();
        for first in 0..count {
            for second in 0..count {
                let mut swapped = good.clone();
                swapped.links.swap(first, second);
                both(seen, &encode(&swapped))?;
                let mut copied = good.clone();
                copied.links[first] = copied.links[second];
                both(seen, &encode(&copied))?;
                let mut inserted = good.clone();
                inserted.links.insert(first, inserted.links[second]);
                both(seen, &encode(&inserted))?;
            }
            out_of_range(seen, &good, first)?;
        }
    }
    Ok(())
}

/// One link with its ends and role at and past their bounds, in every
/// combination.
fn out_of_range(seen: &mut Seen, good: &Register, at: usize) -> Result<(), Difference> {
    let items = good.items() as u16;
    let ends = [0, items - 1, items, items + 1, 255, 256, 511, 512, u16::MAX];
    let roles = [0, 30, 31, 32, 33, 255];
    let mut register = good.clone();
    for from in ends {
        for role in roles {
            for to in ends {
                register.links[at] = (from, role, to);
                both(seen, &encode(&register))?;
            }
        }
    }
    Ok(())
}

/// The largest image: whole, in buffers with bytes behind, cut anywhere, and
/// with each byte changed.
fn largest(seen: &mut Seen, rng: &mut Rng) -> Result<(), Difference> {
    for _ in 0..20 {
        let palette = Palette::any(rng);
        let image = encode(&largest_register(rng, &palette));
        both(seen, &image)?;
        with_behind(seen, &image, &[0xEE; 5])?;
        with_behind(seen, &image, &vec![0xEE; 100_000])?;
    }
    let palette = Palette::any(rng);
    let image = encode(&largest_register(rng, &palette));
    for length in 3..image.len() {
        let mut bytes = image[..length].to_vec();
        mend_head(&mut bytes);
        whole(seen, &bytes)?;
    }
    let mut bytes = image.clone();
    for place in 0..image.len() {
        bytes[place] = rng.word() as u8;
        both(seen, &bytes)?;
        bytes[place] = image[place];
    }
    // The longest that a head can say, and more: left over behind the links.
    for length in [65_534, 65_535, 65_536, 70_000] {
        bytes.resize(3 + length, 0);
        bytes[1..3].copy_from_slice(&(length as u16).to_be_bytes());
        both(seen, &bytes)?;
        bytes[1..3].copy_from_slice(&[255, 255]);
        both(seen, &bytes)?;
    }
    Ok(())
}

/// Random bytes, as they come, under a right head, and under small counts.
fn noise(seen: &mut Seen, rng: &mut Rng) -> Result<(), Difference> {
    for round in 0..200_000 {
        let most = if round % 100 == 0 { 5000 } else { 60 };
        let mut bytes = random_bytes(rng, most);
        both(seen, &bytes)?;
        mend_head(&mut bytes);
        both(seen, &bytes)?;
        if bytes.len() >= 5 {
            bytes[3] = 0;
            bytes[4] = rng.below(6) as u8;
            both(seen, &bytes)?;
            let count_place = 5 + 8 * usize::from(bytes[4]);
            if bytes.len() >= count_place + 2 {
                bytes[count_place] = 0;
                bytes[count_place + 1] = rng.below(4) as u8;
                both(seen, &bytes)?;
            }
        }
    }
    Ok(())
}

/// Registers of every size, good and damaged, also with bytes behind.
fn generated(seen: &mut Seen, rng: &mut Rng) -> Result<(), Difference> {
    for _ in 0..100_000 {
        let palette = Palette::any(rng);
        let register = match rng.below(200) {
            0 => largest_register(rng, &palette),
            1..=40 => medium_register(rng, &palette),
            _ => small_register(rng, &palette),
        };
        both(seen, &encode(&register))?;
        let damaged = damaged_register(rng, &register);
        both(seen, &damaged)?;
        let behind = random_bytes(rng, 12);
        with_behind(seen, &damaged, &behind)?;
    }
    Ok(())
}
