//! A session of trial edits on a lent buffer, with a lent log of steps.
//!
//! Renders "Session" of document 01 and the numbers 7, 15 and 17 to 20 on the
//! call's side. Each call reads the register anew, changes the facts, and
//! writes the whole image back: a register has one image, so nothing else can
//! stand there.

use crate::register::{encode, read_session, Register, MOST_LINKS, MOST_NAME, MOST_ROLE};
use crate::Refusal;

/// The most records of a log that are ever in use.
pub const MOST_STEPS: usize = 64;
/// The bytes of one link in the image.
pub const LINK_BYTES: usize = 5;

/// One fact. The numbers are wide so that nothing handed in can wrap into a
/// good one.
#[derive(Clone, Copy, PartialEq, Eq, PartialOrd, Ord, Hash, Debug)]
pub enum Fact {
    Name { item: u64, name: u64 },
    Link { from: u64, role: u64, to: u64 },
}

/// One record of the log: the fact, and whether it was there before.
#[derive(Clone, Copy, PartialEq, Eq, Hash, Debug)]
pub struct Step {
    pub fact: Fact,
    pub was_there: bool,
}

impl Step {
    /// A record for a fresh log; no call looks at it before it is written.
    pub const UNUSED: Step = Step {
        fact: Fact::Name { item: 0, name: 0 },
        was_there: false,
    };
}

/// Opens the buffer: reads the register at its front, fills all behind it with
/// zeros and answers count 0.
pub fn open(buffer: &mut [u8]) -> Result<u64, Refusal> {
    let register = read_session(buffer)?;
    let end = encode(&register).len();
    for byte in &mut buffer[end..] {
        *byte = 0;
    }
    Ok(0)
}

/// The image in a session's buffer, of which a degree or yes/no is asked.
pub fn image(buffer: &[u8]) -> Result<&[u8], Refusal> {
    let register = read_session(buffer)?;
    Ok(&buffer[..encode(&register).len()])
}

/// Makes the fact be there (`there` true: add it) or not (false: take it
/// away). Order: register, 17, 15, 7, 18, 20. Answers the new count.
pub fn edit(
    buffer: &mut [u8],
    log: &mut [Step],
    count: u64,
    fact: Fact,
    there: bool,
) -> Result<u64, Refusal> {
    let register = read_session(buffer)?;
    let room = usable(log);
    if count > room {
        return Err(Refusal::call(17));
    }
    if !ends_in_range(&register, fact) {
        return Err(Refusal::call(15));
    }
    if !role_in_range(fact) {
        return Err(Refusal::call(7));
    }
    if count == room {
        return Err(Refusal::call(18));
    }
    let was_there = holds(&register, fact);
    set(buffer, &register, fact, there)?;
    log[count as usize] = Step { fact, was_there };
    Ok(count + 1)
}

/// Sets the last step's fact to what it was. Order: register, 17 (count), 19,
/// 17 (step), 20. Answers the lowered count; the log is not written.
pub fn undo(buffer: &mut [u8], log: &[Step], count: u64) -> Result<u64, Refusal> {
    let register = read_session(buffer)?;
    if count > usable(log) {
        return Err(Refusal::call(17));
    }
    if count == 0 {
        return Err(Refusal::call(19));
    }
    let step = log[(count - 1) as usize];
    if !ends_in_range(&register, step.fact) || !role_in_range(step.fact) {
        return Err(Refusal::call(17));
    }
    set(buffer, &register, step.fact, step.was_there)?;
    Ok(count - 1)
}

/// Keeps what stands: the count becomes 0. Order: register, 17 (count).
pub fn keep(buffer: &[u8], log: &[Step], count: u64) -> Result<u64, Refusal> {
    read_session(buffer)?;
    if count > usable(log) {
        return Err(Refusal::call(17));
    }
    Ok(0)
}

/// A log longer than 64 behaves as one of 64.
fn usable(log: &[Step]) -> u64 {
    log.len().min(MOST_STEPS) as u64
}

/// The item and the name, or the link's two ends, are in range.
fn ends_in_range(register: &Register, fact: Fact) -> bool {
    match fact {
        Fact::Name { item, name } => register.item(item).is_some() && name <= MOST_NAME,
        Fact::Link { from, to, .. } => register.item(from).is_some() && register.item(to).is_some(),
    }
}

fn role_in_range(fact: Fact) -> bool {
    match fact {
        Fact::Name { .. } => true,
        Fact::Link { role, .. } => role <= MOST_ROLE,
    }
}

/// Whether a fact that is in range is there.
fn holds(register: &Register, fact: Fact) -> bool {
    match fact {
        Fact::Name { item, name } => register.names[item as usize] >> name & 1 == 1,
        Fact::Link { from, role, to } => {
            register
                .links
                .contains(&(from as u16, role as u8, to as u16))
        }
    }
}

/// Makes a fact that is in range be there or not, and writes the image back.
/// Number 20 comes before any byte is changed.
fn set(buffer: &mut [u8], register: &Register, fact: Fact, there: bool) -> Result<(), Refusal> {
    let old_end = encode(register).len();
    let mut changed = register.clone();
    match fact {
        Fact::Name { item, name } => {
            let names = &mut changed.names[item as usize];
            if there {
                *names |= 1 << name;
            } else {
                *names &= !(1 << name);
            }
        }
        Fact::Link { from, role, to } => {
            let link = (from as u16, role as u8, to as u16);
            if there && !holds(register, fact) {
                let full = register.links.len() >= MOST_LINKS;
                let tight = buffer.len() - old_end < LINK_BYTES;
                if full || tight {
                    return Err(Refusal::call(20));
                }
                changed.links.push(link);
                changed.links.sort();
            }
            if !there {
                changed.links.retain(|other| *other != link);
            }
        }
    }
    let image = encode(&changed);
    buffer[..image.len()].copy_from_slice(&image);
    // The bytes of a link that went are zeroed; all further ones stay.
    if image.len() < old_end {
        for byte in &mut buffer[image.len()..old_end] {
            *byte = 0;
        }
    }
    Ok(())
}
