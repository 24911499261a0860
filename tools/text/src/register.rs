//! A register, and its bytes: "Register image" of document 01.

use crate::fault::Fault;
use crate::field::{with_head, Fields};

pub const MOST_ITEMS: usize = 512;
pub const MOST_LINKS: usize = 4096;
pub const MOST_ROLE: u64 = 31;

/// From, role, to. Tuples compare as the image wants them to rise.
pub type Link = (u16, u8, u16);

/// Item i holds the names whose bits are set in `names[i]`; the links rise
/// strictly.
#[derive(Clone, PartialEq, Eq, Debug)]
pub struct Register {
    pub names: Vec<u64>,
    pub links: Vec<Link>,
}

impl Register {
    pub fn from_bytes(bytes: &[u8]) -> Result<Register, Fault> {
        let mut fields = Fields::after_head(bytes)?;
        let items = count(&mut fields, "items", 1, MOST_ITEMS)?;
        let mut names = Vec::new();
        for item in 0..items {
            names.push(fields.take(8, &format!("the names of item {item}"))?);
        }
        let links = count(&mut fields, "links", 0, MOST_LINKS)?;
        let mut register = Register {
            names,
            links: Vec::new(),
        };
        for _ in 0..links {
            register.take_link(&mut fields)?;
        }
        fields.finish()?;
        Ok(register)
    }

    /// Reads one link; all its fields are there before one is looked at.
    fn take_link(&mut self, fields: &mut Fields<'_>) -> Result<(), Fault> {
        let place = fields.place();
        let from = fields.take(2, "the start of a link")?;
        let role = fields.take(1, "the role of a link")?;
        let to = fields.take(2, "the end of a link")?;
        let from = self.end(from, place)?;
        if role > MOST_ROLE {
            let what = format!("role {role} is above {MOST_ROLE}");
            return Err(Fault::byte(place + 2, what));
        }
        let link = (from, role as u8, self.end(to, place + 3)?);
        if self.links.last().is_some_and(|before| link <= *before) {
            return Err(Fault::byte(place, "this link is not above the one before"));
        }
        self.links.push(link);
        Ok(())
    }

    /// A link's end as an item of the register.
    fn end(&self, number: u64, place: usize) -> Result<u16, Fault> {
        let items = self.names.len();
        if number >= items as u64 {
            let what = format!("a link names item {number}, and the last is {}", items - 1);
            return Err(Fault::byte(place, what));
        }
        Ok(number as u16)
    }

    pub fn to_bytes(&self) -> Vec<u8> {
        let mut body = Vec::new();
        body.extend_from_slice(&(self.names.len() as u16).to_be_bytes());
        for names in &self.names {
            body.extend_from_slice(&names.to_be_bytes());
        }
        body.extend_from_slice(&(self.links.len() as u16).to_be_bytes());
        for (from, role, to) in &self.links {
            body.extend_from_slice(&from.to_be_bytes());
            body.push(*role);
            body.extend_from_slice(&to.to_be_bytes());
        }
        with_head(&body)
    }
}

/// A count within its range.
fn count(fields: &mut Fields<'_>, of: &str, least: usize, most: usize) -> Result<usize, Fault> {
    let place = fields.place();
    let count = fields.take(2, &format!("the count of {of}"))? as usize;
    if !(least..=most).contains(&count) {
        let what = format!("{count} {of}; there may be {least} to {most}");
        return Err(Fault::byte(place, what));
    }
    Ok(count)
}
