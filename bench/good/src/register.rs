//! Reading a register image. Each link is one load: the number of its five
//! bytes, from which order, role and ends are tested together for all links;
//! where a fault is, and which, is only looked for once there is one.

use crate::{eight, head, pair, refuse, Refusal, Side, MOST_ITEMS, MOST_LINKS, MOST_ROLE};

/// An image that was read.
#[derive(Clone, Copy)]
pub struct Register<'a> {
    pub image: &'a [u8],
    pub items: usize,
    pub links: usize,
}

/// Where the names begin, and how long they and a link are.
const NAMES: usize = 5;
pub const LINK: usize = 5;
/// Name 63 in the first byte of an item's names.
const WITHDRAWN: u8 = 0x80;
/// The bits of a link's number.
const KEY: u64 = (1 << 40) - 1;
/// Of these, the role's that no role of at most 31 has.
const ROLE_TOO_GREAT: u64 = 0xE0_0000;
/// Links that are tested in one go.
const GO: usize = 8;

impl<'a> Register<'a> {
    /// The image is all of the bytes.
    pub fn whole(bytes: &'a [u8]) -> Result<Register<'a>, Refusal> {
        head(bytes, Side::Register, true)?;
        read(bytes)
    }

    /// The image is what the bytes begin with.
    pub fn session(bytes: &'a [u8]) -> Result<Register<'a>, Refusal> {
        let end = head(bytes, Side::Register, false)?;
        read(&bytes[..end])
    }

    #[inline]
    pub fn first_link(&self) -> usize {
        NAMES + 8 * self.items + 2
    }

    #[inline]
    pub fn names_place(&self, item: usize) -> usize {
        NAMES + 8 * item
    }

    #[inline]
    pub fn names(&self, item: usize) -> u64 {
        eight(self.image, self.names_place(item))
    }

    /// Whether an item is not withdrawn. The first byte of its names says it.
    #[inline]
    pub fn judged(&self, item: usize) -> bool {
        self.image[self.names_place(item)] & WITHDRAWN == 0
    }

    /// The names of an item, and none of a withdrawn one.
    #[inline]
    pub fn judged_names(&self, item: usize) -> u64 {
        let names = self.names(item);
        names & !((names as i64 >> 63) as u64)
    }

    #[inline]
    pub fn link_place(&self, number: usize) -> usize {
        self.first_link() + LINK * number
    }

    /// From, role and to as one number, which rises.
    #[inline]
    pub fn key(&self, number: usize) -> u64 {
        eight(self.image, self.link_place(number) - 3) & KEY
    }

    /// Its links, five bytes each.
    #[inline]
    pub fn link_bytes(&self) -> &'a [u8] {
        &self.image[self.first_link()..self.link_place(self.links)]
    }
}

pub fn key_of(from: u64, role: u64, to: u64) -> u64 {
    from << 24 | role << 16 | to
}

fn read(image: &[u8]) -> Result<Register<'_>, Refusal> {
    if image.len() < NAMES {
        return refuse(Side::Register, 1, 3);
    }
    let items = pair(image, 3);
    if items == 0 || items > MOST_ITEMS {
        return refuse(Side::Register, 4, 3);
    }
    let count = NAMES + 8 * items;
    if image.len() < count + 2 {
        let whole = (image.len() - NAMES) / 8;
        return refuse(Side::Register, 1, NAMES + 8 * whole.min(items));
    }
    let links = pair(image, count);
    if links > MOST_LINKS {
        return refuse(Side::Register, 4, count);
    }
    let register = Register {
        image,
        items,
        links,
    };
    let end = register.link_place(links);
    if end > image.len() || !in_order(&register) {
        return first_fault(&register);
    }
    if end < image.len() {
        return refuse(Side::Register, 8, end);
    }
    Ok(register)
}

/// What is gathered over all links: signs and bits that show a fault anywhere.
struct Gathered {
    before: i64,
    rises: i64,
    bits: i64,
    within: i64,
    last: i64,
}

impl Gathered {
    #[inline(always)]
    fn link(&mut self, word: u64) {
        let key = (word & KEY) as i64;
        // Below zero where the link is above the one before.
        self.rises &= self.before - key;
        self.bits |= key;
        // Below zero where it ends at no item.
        self.within |= self.last - (key & 0xFFFF);
        self.before = key;
    }
}

/// Whether no link has a fault. Links rise, so only the last one's item needs
/// to be looked at.
fn in_order(register: &Register) -> bool {
    let mut all = Gathered {
        before: -1,
        rises: -1,
        bits: 0,
        within: 0,
        last: register.items as i64 - 1,
    };
    // Each load has the three bytes before the link among its eight.
    let first = register.first_link();
    let bytes = &register.image[first - 3..first + LINK * register.links];
    let goes = register.links / GO;
    for go in 0..goes {
        let some: &[u8; LINK * GO + 3] = bytes[LINK * GO * go..][..LINK * GO + 3]
            .try_into()
            .expect("so many");
        for link in 0..GO {
            all.link(eight(some, LINK * link));
        }
    }
    for link in GO * goes..register.links {
        all.link(eight(bytes, LINK * link));
    }
    all.rises < 0
        && all.bits as u64 & ROLE_TOO_GREAT == 0
        && all.within >= 0
        && all.before >> 24 <= all.last
}

/// The first fault of an image whose links are not all in order or not all
/// there.
#[cold]
fn first_fault<'a>(register: &Register) -> Result<Register<'a>, Refusal> {
    let image = register.image;
    let mut before = None;
    for link in 0..register.links {
        let place = register.link_place(link);
        match image.len() - place {
            0 | 1 => return refuse(Side::Register, 1, place),
            2 => return refuse(Side::Register, 1, place + 2),
            3 | 4 => return refuse(Side::Register, 1, place + 3),
            _ => {}
        }
        let key = register.key(link);
        if pair(image, place) >= register.items {
            return refuse(Side::Register, 5, place);
        }
        if u64::from(image[place + 2]) > MOST_ROLE {
            return refuse(Side::Register, 7, place + 2);
        }
        if pair(image, place + 3) >= register.items {
            return refuse(Side::Register, 5, place + 3);
        }
        if before.is_some_and(|before| key <= before) {
            return refuse(Side::Register, 6, place);
        }
        before = Some(key);
    }
    unreachable!("all links are there and in order")
}
