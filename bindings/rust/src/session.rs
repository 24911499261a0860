//! Trial edits on a register, with undo.

use crate::answer::{Degree, Margin, Verdict};
use crate::ask;
use crate::calls;
use crate::list::{self, List};
use crate::refusal::Refusal;

/// The bytes of the largest image: with a buffer of so many, no edit lacks
/// room.
pub const LARGEST_IMAGE: usize = 24_583;

/// How many steps can be undone at the most.
pub const MOST_STEPS: usize = 64;

/// The bytes of an image before those that its length counts.
const HEAD: usize = 3;

/// One fact of a register. A number out of range is refused by the library.
#[derive(Clone, Copy, PartialEq, Eq, Hash, Debug)]
pub enum Fact {
    Name { item: u64, name: u64 },
    Link { from: u64, role: u64, to: u64 },
}

/// A register under edit: the buffer that holds its image, the log of steps,
/// and how many of them are in use.
#[derive(Clone, Debug)]
pub struct Session {
    buffer: Vec<u8>,
    log: [u64; MOST_STEPS],
    count: u64,
}

impl Session {
    /// Opens a session on a copy of the image, with room for every link that a
    /// register can have. The image is the whole of the bytes: it is read as
    /// such before the room is added, so that no zero of the room can pass for
    /// a byte that is missing.
    pub fn open(image: &[u8]) -> Result<Session, Refusal> {
        ask::read_register(image)?;
        let mut buffer = image.to_vec();
        buffer.resize(LARGEST_IMAGE, 0);
        Session::on(buffer)
    }

    /// Opens a session on this buffer: the image is its first 3 + length
    /// bytes, the rest is room and is filled with zeros.
    pub fn on(mut buffer: Vec<u8>) -> Result<Session, Refusal> {
        Refusal::or(calls::open(&mut buffer))?;
        Ok(Session {
            buffer,
            log: [0; MOST_STEPS],
            count: 0,
        })
    }

    /// Makes a fact stand. Also where it stood already this is a step.
    pub fn add(&mut self, fact: Fact) -> Result<(), Refusal> {
        self.edit(fact, true)
    }

    /// Makes a fact not stand. Also where it did not this is a step.
    pub fn take_away(&mut self, fact: Fact) -> Result<(), Refusal> {
        self.edit(fact, false)
    }

    fn edit(&mut self, fact: Fact, adds: bool) -> Result<(), Refusal> {
        let (buffer, log, count) = (&mut self.buffer, &mut self.log, self.count);
        let answer = match fact {
            Fact::Name { item, name } => calls::edit_name(buffer, log, count, adds, item, name),
            Fact::Link { from, role, to } => {
                calls::edit_link(buffer, log, count, adds, (from, role, to))
            }
        };
        let [_, count, ..] = Refusal::or(answer)?;
        self.count = count;
        Ok(())
    }

    /// Sets the last step's fact to what it was before that step.
    pub fn undo(&mut self) -> Result<(), Refusal> {
        let answer = calls::undo(&mut self.buffer, &self.log, self.count);
        let [_, count, ..] = Refusal::or(answer)?;
        self.count = count;
        Ok(())
    }

    /// Keeps what stands: there is nothing left to undo.
    pub fn keep(&mut self) -> Result<(), Refusal> {
        Refusal::or(calls::keep(&self.buffer, &self.log, self.count))?;
        self.count = 0;
        Ok(())
    }

    /// How many steps can be undone.
    pub fn count(&self) -> u64 {
        self.count
    }

    /// The image as it stands.
    pub fn image(&self) -> &[u8] {
        let length = u16::from_be_bytes([self.buffer[1], self.buffer[2]]);
        &self.buffer[..HEAD + usize::from(length)]
    }

    /// The whole buffer: the image, and the room behind it.
    pub fn buffer(&self) -> &[u8] {
        &self.buffer
    }

    /// See [`degree`](crate::degree()); it is asked of the image alone.
    pub fn degree(&self, message: &[u8], item: u64) -> Result<Degree, Refusal> {
        ask::degree(self.image(), message, item)
    }

    /// See [`margin`](crate::margin()); it is asked of the image alone.
    pub fn margin(&self, message: &[u8], item: u64, p: u64, q: u64) -> Result<Margin, Refusal> {
        ask::margin(self.image(), message, item, p, q)
    }

    /// See [`member`](crate::member()); it is asked of the image alone.
    pub fn member(&self, message: &[u8], item: u64) -> Result<Verdict, Refusal> {
        ask::member(self.image(), message, item)
    }

    /// See [`list`](crate::list()); it is asked of the image alone.
    pub fn list(&self, message: &[u8]) -> Result<List<'static>, Refusal> {
        list::list(self.image(), message)
    }
}
