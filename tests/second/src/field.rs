//! Fields read from left to right, and the head that both messages share.
//!
//! Renders, of document 01, "Register image" (big-endian throughout, the
//! 3-byte head) and the numbers 1, 2 and 3 of "Refusal numbers".

use crate::{Refusal, Side};

/// How many bytes may stand behind the 3 + length bytes of the message.
#[derive(Clone, Copy, PartialEq, Eq, Debug)]
pub enum Behind {
    /// A whole message: the length is exactly that of the bytes that follow.
    Nothing,
    /// A session's buffer: what lies behind the image is no part of it.
    Anything,
}

/// A place in a message, and the end that no field may run past. An inner
/// concept gets fields of its own, with its own end.
#[derive(Clone, Debug)]
pub struct Fields<'a> {
    bytes: &'a [u8],
    side: Side,
    place: usize,
    end: usize,
}

impl<'a> Fields<'a> {
    /// Reads the head, in the order 1, 2, 3, and stands behind it.
    pub fn after_head(bytes: &'a [u8], side: Side, behind: Behind) -> Result<Fields<'a>, Refusal> {
        if bytes.len() < 3 {
            return Err(Refusal::new(side, 1, 0));
        }
        if bytes[0] != 1 {
            return Err(Refusal::new(side, 2, 0));
        }
        let length = usize::from(bytes[1]) * 256 + usize::from(bytes[2]);
        let following = bytes.len() - 3;
        let wrong = match behind {
            Behind::Nothing => length != following,
            Behind::Anything => length > following,
        };
        if wrong {
            return Err(Refusal::new(side, 3, 1));
        }
        Ok(Fields {
            bytes,
            side,
            place: 3,
            end: 3 + length,
        })
    }

    pub fn place(&self) -> usize {
        self.place
    }

    pub fn left(&self) -> usize {
        self.end - self.place
    }

    pub fn refuse(&self, number: u32, place: usize) -> Refusal {
        Refusal::new(self.side, number, place)
    }

    /// Takes one big-endian field of at most 8 bytes, or refuses with 1 at the
    /// field that does not fit whole. Where a row tests a group of fields for
    /// 1 first, the reader takes them all before it judges any.
    pub fn take(&mut self, width: usize) -> Result<u64, Refusal> {
        if width > self.left() {
            return Err(self.refuse(1, self.place));
        }
        let mut value = 0u64;
        for byte in &self.bytes[self.place..self.place + width] {
            value = (value << 8) | u64::from(*byte);
        }
        self.place += width;
        Ok(value)
    }

    /// Takes the next `length` bytes as fields of their own. None when they
    /// run past the end: the caller knows at which place that is refused.
    pub fn part(&mut self, length: usize) -> Option<Fields<'a>> {
        if length > self.left() {
            return None;
        }
        let part = Fields {
            bytes: self.bytes,
            side: self.side,
            place: self.place,
            end: self.place + length,
        };
        self.place += length;
        Some(part)
    }

    /// Number 8: bytes left over, at the first of them.
    pub fn finish(&self) -> Result<(), Refusal> {
        if self.left() > 0 {
            return Err(self.refuse(8, self.place));
        }
        Ok(())
    }
}

/// Puts the head before a body. A body above 65,535 bytes has no head that
/// fits: its length field then holds the low 16 bits, for a reader to refuse.
pub fn with_head(body: &[u8]) -> Vec<u8> {
    let length = body.len() as u16;
    let mut message = vec![1];
    message.extend_from_slice(&length.to_be_bytes());
    message.extend_from_slice(body);
    message
}
