//! The register: items with their names, and links between items.
//!
//! Renders "Register image" of document 01 and the register's numbers 1 to 8.

use crate::field::{with_head, Behind, Fields};
use crate::{Refusal, Side};

pub const MOST_ITEMS: usize = 512;
pub const MOST_LINKS: usize = 4096;
pub const MOST_ROLE: u64 = 31;
pub const MOST_NAME: u64 = 63;

/// One link: from, role, to. Tuples compare in the order of the image.
pub type Link = (u16, u8, u16);

/// Item i holds the names whose bits are set in `names[i]`; the links stand
/// strictly rising in a register that was read.
#[derive(Clone, PartialEq, Eq, Debug)]
pub struct Register {
    pub names: Vec<u64>,
    pub links: Vec<Link>,
}

impl Register {
    pub fn items(&self) -> usize {
        self.names.len()
    }

    /// The asked number as an item, if the register has it.
    pub fn item(&self, asked: u64) -> Option<u16> {
        if asked < self.names.len() as u64 {
            u16::try_from(asked).ok()
        } else {
            None
        }
    }
}

/// Reads an image that is the whole of the bytes.
pub fn read_whole(bytes: &[u8]) -> Result<Register, Refusal> {
    read(Fields::after_head(bytes, Side::Register, Behind::Nothing)?)
}

/// Reads the image at the front of a session's buffer.
pub fn read_session(buffer: &[u8]) -> Result<Register, Refusal> {
    read(Fields::after_head(
        buffer,
        Side::Register,
        Behind::Anything,
    )?)
}

fn read(mut fields: Fields<'_>) -> Result<Register, Refusal> {
    // At a count or set of names: 1, 4.
    let items_place = fields.place();
    let items = fields.take(2)?;
    if items < 1 || items > MOST_ITEMS as u64 {
        return Err(fields.refuse(4, items_place));
    }
    let mut names = Vec::new();
    for _ in 0..items {
        names.push(fields.take(8)?);
    }
    let links_place = fields.place();
    let link_count = fields.take(2)?;
    if link_count > MOST_LINKS as u64 {
        return Err(fields.refuse(4, links_place));
    }
    let mut links: Vec<Link> = Vec::new();
    for _ in 0..link_count {
        // At a link: 1 (all 5 bytes), 5 (from), 7, 5 (to), 6.
        let place = fields.place();
        let from = fields.take(2)?;
        let role = fields.take(1)?;
        let to = fields.take(2)?;
        if from >= items {
            return Err(fields.refuse(5, place));
        }
        if role > MOST_ROLE {
            return Err(fields.refuse(7, place + 2));
        }
        if to >= items {
            return Err(fields.refuse(5, place + 3));
        }
        let link = (from as u16, role as u8, to as u16);
        if let Some(before) = links.last() {
            if link <= *before {
                return Err(fields.refuse(6, place));
            }
        }
        links.push(link);
    }
    fields.finish()?;
    Ok(Register { names, links })
}

/// The image of a register. For a register that breaks the rules (a generator
/// makes some) it is the bytes that say so, which a reader must refuse.
pub fn encode(register: &Register) -> Vec<u8> {
    let mut body = Vec::new();
    body.extend_from_slice(&(register.names.len() as u16).to_be_bytes());
    for names in &register.names {
        body.extend_from_slice(&names.to_be_bytes());
    }
    body.extend_from_slice(&(register.links.len() as u16).to_be_bytes());
    for (from, role, to) in &register.links {
        body.extend_from_slice(&from.to_be_bytes());
        body.push(*role);
        body.extend_from_slice(&to.to_be_bytes());
    }
    with_head(&body)
}
