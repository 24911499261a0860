//! A session's calls on a lent buffer and a lent log of numbers. Each reads
//! the image, finds a link's place by halves, and moves what is behind it.

use crate::calls::{answer, GOOD};
use crate::graph::place_of;
use crate::register::{key_of, Register, LINK};
use crate::{refuse, Answer, Refusal, Side, MOST_LINKS, MOST_ROLE};

const MOST_NAME: u64 = 63;
const MOST_STEPS: usize = 64;

#[derive(Clone, Copy)]
pub enum Fact {
    Name { item: u64, name: u64 },
    Link { from: u64, role: u64, to: u64 },
}

/// What reading leaves of a register once its bytes are to change.
#[derive(Clone, Copy)]
struct Counts {
    items: usize,
    links: usize,
}

fn read(buffer: &[u8]) -> Result<Counts, Refusal> {
    let Register { items, links, .. } = Register::session(buffer)?;
    Ok(Counts { items, links })
}

fn usable(log: &[u64]) -> u64 {
    log.len().min(MOST_STEPS) as u64
}

fn call<T>(number: u8) -> Result<T, Refusal> {
    refuse(Side::Call, number, 0)
}

pub fn open(buffer: &mut [u8]) -> Answer {
    answer(
        Register::session(buffer)
            .map(|read| read.image.len())
            .map(|end| {
                buffer[end..].fill(0);
                [GOOD, 0, 0, 0]
            }),
    )
}

pub fn keep(buffer: &[u8], log: &[u64], count: u64) -> Answer {
    answer(read(buffer).and_then(|_| match count > usable(log) {
        true => call(17),
        false => Ok([GOOD, 0, 0, 0]),
    }))
}

pub fn edit_name(
    buffer: &mut [u8],
    log: &mut [u64],
    count: u64,
    adds: u64,
    item: u64,
    name: u64,
) -> Answer {
    answer(edit(
        buffer,
        log,
        count,
        adds != 0,
        Fact::Name { item, name },
    ))
}

pub fn edit_link(
    buffer: &mut [u8],
    log: &mut [u64],
    count: u64,
    adds: u64,
    link: [u64; 3],
) -> Answer {
    let [from, role, to] = link;
    answer(edit(
        buffer,
        log,
        count,
        adds != 0,
        Fact::Link { from, role, to },
    ))
}

fn edit(
    buffer: &mut [u8],
    log: &mut [u64],
    count: u64,
    there: bool,
    fact: Fact,
) -> Result<Answer, Refusal> {
    let counts = read(buffer)?;
    let room = usable(log);
    if count > room {
        return call(17);
    }
    if !ends_in_range(counts, fact) {
        return call(15);
    }
    if !role_in_range(fact) {
        return call(7);
    }
    if count == room {
        return call(18);
    }
    let was_there = set(buffer, counts, fact, there)?;
    log[count as usize] = coded(fact, was_there);
    Ok([GOOD, count + 1, 0, 0])
}

pub fn undo(buffer: &mut [u8], log: &[u64], count: u64) -> Answer {
    answer(try_undo(buffer, log, count))
}

fn try_undo(buffer: &mut [u8], log: &[u64], count: u64) -> Result<Answer, Refusal> {
    let counts = read(buffer)?;
    if count > usable(log) {
        return call(17);
    }
    if count == 0 {
        return call(19);
    }
    let (fact, was_there) = decoded(log[count as usize - 1]);
    if !ends_in_range(counts, fact) || !role_in_range(fact) {
        return call(17);
    }
    set(buffer, counts, fact, was_there)?;
    Ok([GOOD, count - 1, 0, 0])
}

fn ends_in_range(counts: Counts, fact: Fact) -> bool {
    let items = counts.items as u64;
    match fact {
        Fact::Name { item, name } => item < items && name <= MOST_NAME,
        Fact::Link { from, to, .. } => from < items && to < items,
    }
}

fn role_in_range(fact: Fact) -> bool {
    match fact {
        Fact::Name { .. } => true,
        Fact::Link { role, .. } => role <= MOST_ROLE,
    }
}

/// A step as include/svelgandur.h says it.
fn coded(fact: Fact, was_there: bool) -> u64 {
    let fact = match fact {
        Fact::Name { item, name } => name << 18 | item << 2,
        Fact::Link { from, role, to } => from << 26 | role << 18 | to << 2 | 2,
    };
    fact | u64::from(was_there)
}

fn decoded(step: u64) -> (Fact, bool) {
    let low = step >> 2 & 0xFFFF;
    let fact = match step & 2 {
        0 => Fact::Name {
            item: low,
            name: step >> 18,
        },
        _ => Fact::Link {
            from: step >> 26,
            role: step >> 18 & 0xFF,
            to: low,
        },
    };
    (fact, step & 1 == 1)
}

/// Makes a fact in range be there or not, and says whether it was.
fn set(buffer: &mut [u8], counts: Counts, fact: Fact, there: bool) -> Result<bool, Refusal> {
    match fact {
        Fact::Name { item, name } => Ok(set_name(buffer, item as usize, name as usize, there)),
        Fact::Link { from, role, to } => set_link(buffer, counts, key_of(from, role, to), there),
    }
}

fn set_name(buffer: &mut [u8], item: usize, name: usize, there: bool) -> bool {
    let byte = &mut buffer[5 + 8 * item + 7 - name / 8];
    let bit = 1 << (name % 8);
    let was_there = *byte & bit != 0;
    match there {
        true => *byte |= bit,
        false => *byte &= !bit,
    }
    was_there
}

fn set_link(buffer: &mut [u8], counts: Counts, key: u64, there: bool) -> Result<bool, Refusal> {
    let Counts { items, links } = counts;
    let register = Register {
        image: buffer,
        items,
        links,
    };
    let number = place_of(&register, key);
    let was_there = number < links && register.key(number) == key;
    let (place, end) = (register.link_place(number), register.link_place(links));
    let count = register.first_link() - 2;
    if was_there == there {
        return Ok(was_there);
    }
    let now = if there {
        if links == MOST_LINKS || buffer.len() - end < LINK {
            return call(20);
        }
        buffer.copy_within(place..end, place + LINK);
        buffer[place..place + LINK].copy_from_slice(&key.to_be_bytes()[3..]);
        links + 1
    } else {
        buffer.copy_within(place + LINK..end, place);
        buffer[end - LINK..end].fill(0);
        links - 1
    };
    let length = count + 2 + LINK * now - 3;
    buffer[1..3].copy_from_slice(&(length as u16).to_be_bytes());
    buffer[count..count + 2].copy_from_slice(&(now as u16).to_be_bytes());
    Ok(was_there)
}
