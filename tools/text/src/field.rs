//! Big-endian fields read from left to right, and the head that both share.

use crate::fault::Fault;

/// Version, then the length of the rest.
const HEAD: usize = 3;
const VERSION: u8 = 1;

/// A place among bytes, and the end that no field may run past.
pub struct Fields<'a> {
    bytes: &'a [u8],
    place: usize,
    end: usize,
}

impl<'a> Fields<'a> {
    /// Reads the head, and stands behind it.
    pub fn after_head(bytes: &'a [u8]) -> Result<Fields<'a>, Fault> {
        if bytes.len() < HEAD {
            return Err(Fault::byte(0, "the 3 bytes of the head are not there"));
        }
        if bytes[0] != VERSION {
            let what = format!("version {}; only {VERSION} is known", bytes[0]);
            return Err(Fault::byte(0, what));
        }
        let length = usize::from(bytes[1]) << 8 | usize::from(bytes[2]);
        let follow = bytes.len() - HEAD;
        if length != follow {
            let what = format!("the length says {length} bytes, and {follow} follow");
            return Err(Fault::byte(1, what));
        }
        Ok(Fields {
            bytes,
            place: HEAD,
            end: bytes.len(),
        })
    }

    pub fn place(&self) -> usize {
        self.place
    }

    /// The next so many bytes as one number; `what` names the field.
    pub fn take(&mut self, width: usize, what: &str) -> Result<u64, Fault> {
        if self.end - self.place < width {
            return Err(Fault::byte(self.place, format!("cut short: {what}")));
        }
        let field = &self.bytes[self.place..self.place + width];
        self.place += width;
        Ok(field
            .iter()
            .fold(0, |number, byte| number << 8 | u64::from(*byte)))
    }

    /// The next so many bytes as fields with an end of their own. `at` is the
    /// place of the length that says so.
    pub fn part(&mut self, length: usize, at: usize) -> Result<Fields<'a>, Fault> {
        if self.end - self.place < length {
            let what = format!("cut short: an inner concept of {length} bytes");
            return Err(Fault::byte(at, what));
        }
        let part = Fields {
            bytes: self.bytes,
            place: self.place,
            end: self.place + length,
        };
        self.place += length;
        Ok(part)
    }

    /// Nothing is left over.
    pub fn finish(&self) -> Result<(), Fault> {
        match self.end - self.place {
            0 => Ok(()),
            left => Err(Fault::byte(
                self.place,
                format!("{left} bytes are left over"),
            )),
        }
    }
}

/// The head, and the bytes behind it.
pub fn with_head(body: &[u8]) -> Vec<u8> {
    let length = u16::try_from(body.len()).expect("the rules keep every body below 65,536 bytes");
    [&[VERSION][..], &length.to_be_bytes(), body].concat()
}
