//! The whole list: the degrees of all items in one call.

use std::borrow::Cow;
use std::cmp::{Ordering, Reverse};
use std::fmt;

use crate::ask::WITHDRAWN;
use crate::calls;
use crate::refusal::Refusal;

/// A table of so many places is long enough for every register and requirement:
/// 64 nodes at 512 items.
pub const LONGEST_TABLE: usize = 64 * 512;

/// A degree as a list has it: in lowest terms, and at most 1. Only a list makes
/// one, so two are equal exactly when they are the same. They compare exactly.
#[derive(Clone, Copy, PartialEq, Eq, Hash, Debug)]
#[non_exhaustive]
pub struct Fraction {
    pub num: u64,
    pub den: u64,
}

impl Fraction {
    /// `over` is not 0.
    fn lowest(number: u64, over: u64) -> Fraction {
        let factor = common_factor(number, over);
        Fraction {
            num: number / factor,
            den: over / factor,
        }
    }
}

fn common_factor(a: u64, b: u64) -> u64 {
    match b {
        0 => a,
        _ => common_factor(b, a % b),
    }
}

impl Ord for Fraction {
    fn cmp(&self, other: &Fraction) -> Ordering {
        let [ours, theirs] = [(self.num, other.den), (other.num, self.den)]
            .map(|(num, den)| u128::from(num) * u128::from(den));
        ours.cmp(&theirs)
    }
}

impl PartialOrd for Fraction {
    fn partial_cmp(&self, other: &Fraction) -> Option<Ordering> {
        Some(self.cmp(other))
    }
}

/// As the listing program prints it.
impl fmt::Display for Fraction {
    fn fmt(&self, f: &mut fmt::Formatter<'_>) -> fmt::Result {
        write!(f, "{}/{}", self.num, self.den)
    }
}

/// The degrees of all items in a plain requirement, and of all items in each of
/// its nodes. A withdrawn item has none.
///
/// The table is the library's: a whole number for each written node at each
/// item, 0 at a withdrawn one. It is this list's own ([`list`]) or lent
/// ([`list_into`]).
#[derive(Clone, PartialEq, Eq, Hash, Debug)]
pub struct List<'a> {
    table: Cow<'a, [u32]>,
    items: usize,
    scale: u64,
    out: Out,
}

impl List<'_> {
    /// How many items there are, withdrawn ones among them.
    pub fn items(&self) -> u64 {
        self.items as u64
    }

    /// How many nodes are written.
    pub fn nodes(&self) -> u64 {
        (self.table.len() / self.items) as u64
    }

    /// What the numbers of the root stand over.
    pub fn scale(&self) -> u64 {
        self.scale
    }

    /// Whether an item is withdrawn; none where the register has no such item.
    pub fn is_withdrawn(&self, item: u64) -> Option<bool> {
        let item = usize::try_from(item).ok()?;
        (item < self.items).then(|| self.out.has(item))
    }

    /// The degree of an item; none where the register has no such item or it is
    /// withdrawn.
    pub fn degree(&self, item: u64) -> Option<Fraction> {
        let item = usize::try_from(item).ok()?;
        let number = self.root().get(item).filter(|_| !self.out.has(item))?;
        Some(Fraction::lowest(u64::from(*number), self.scale))
    }

    /// Each item that is not withdrawn with its degree, in the register's order.
    pub fn iter(&self) -> impl Iterator<Item = (u64, Fraction)> + '_ {
        self.told(self.judged())
    }

    /// Each item that is not withdrawn with its degree, the greatest degree
    /// first, and of equal ones the lower item.
    pub fn by_degree(&self) -> impl Iterator<Item = (u64, Fraction)> + '_ {
        // Over one scale degrees compare as their numbers do, and a stable sort
        // leaves equal ones in the register's order.
        let mut items: Vec<usize> = self.judged().collect();
        items.sort_by_key(|item| Reverse(self.table[*item]));
        self.told(items)
    }

    /// The numbers of a written node at all items, node 0 being the root; none
    /// where there is no such node. Each is the node's degree there, were it a
    /// requirement of its own, over the node's own scale, so the numbers of one
    /// row compare as these degrees do. The row of a dropped node, and of any
    /// below it, is all 0, and every row is 0 at a withdrawn item.
    pub fn row(&self, node: u64) -> Option<&[u32]> {
        let node = usize::try_from(node).ok()?;
        self.table.chunks_exact(self.items).nth(node)
    }

    fn root(&self) -> &[u32] {
        &self.table[..self.items]
    }

    fn judged(&self) -> impl Iterator<Item = usize> + '_ {
        (0..self.items).filter(|item| !self.out.has(*item))
    }

    fn told<'b>(
        &'b self,
        items: impl IntoIterator<Item = usize> + 'b,
    ) -> impl Iterator<Item = (u64, Fraction)> + 'b {
        items.into_iter().map(|item| {
            let number = self.table[item].into();
            (item as u64, Fraction::lowest(number, self.scale))
        })
    }
}

/// The withdrawn items of a register, a bit for each: the table has no number
/// that says so.
#[derive(Clone, Copy, PartialEq, Eq, Hash, Debug)]
struct Out([u64; 8]);

impl Out {
    /// Of an image that was read: the names of item 0 stand at place 5.
    fn of(image: &[u8]) -> Out {
        let mut out = [0; 8];
        let names = image[5..].chunks_exact(8);
        let items = usize::from(u16::from_be_bytes([image[3], image[4]]));
        for (item, names) in names.take(items).enumerate() {
            // Big-endian: the byte of the greatest names comes first.
            let withdrawn = u64::from(names[0] >> (WITHDRAWN % 8));
            out[item / 64] |= withdrawn << (item % 64);
        }
        Out(out)
    }

    fn has(&self, item: usize) -> bool {
        self.0[item / 64] >> (item % 64) & 1 == 1
    }
}

/// The degrees of all items in a plain requirement. It is one call: a node's
/// degree at an item is worked out once, and not again for each item from which
/// it is reached.
///
/// ```
/// use svelgandur::{list, Requirement};
/// # let register = [
/// #     1, 0, 0x26, 0, 3, 0, 0, 0, 0, 0, 0, 0, 0x0A, 0, 0, 0, 0, 0, 0, 0, 2, 0, 0, 0, 0, 0, 0, 0,
/// #     4, 0, 2, 0, 0, 0, 0, 1, 0, 0, 1, 0, 2,
/// # ];
///
/// let requirement = Requirement::new().names([1, 2]).message()?;
/// let list = list(&register, &requirement)?;
/// for (item, degree) in list.by_degree() {
///     println!("{item} {degree}");
/// }
/// # Ok::<(), svelgandur::Refusal>(())
/// ```
pub fn list(image: &[u8], message: &[u8]) -> Result<List<'static>, Refusal> {
    let mut table = vec![0; LONGEST_TABLE];
    let filled = Filled::of(image, message, &mut table)?;
    table.truncate(filled.places());
    Ok(filled.list(Cow::Owned(table)))
}

/// The same without memory of its own, for who asks many requirements of one
/// register: the list is read off the lent table. A table of nodes times items
/// places is long enough, and [`LONGEST_TABLE`] for all; what it holds before
/// does not matter, and places behind stay as they were.
///
/// ```
/// use svelgandur::{list_into, LONGEST_TABLE};
/// # let register = [1, 0, 12, 0, 1, 0, 0, 0, 0, 0, 0, 0, 2, 0, 0];
/// # let requirements = [[1, 0, 10, 0, 0, 0, 0, 0, 0, 0, 6, 0, 0]];
///
/// let mut table = vec![0; LONGEST_TABLE];
/// for requirement in &requirements {
///     let list = list_into(&register, requirement, &mut table)?;
///     let (item, degree) = list.by_degree().next().expect("a register has an item");
///     println!("best: {item} {degree}");
/// #   assert_eq!((item, degree.to_string()), (0, "1/2".to_string()));
/// }
/// # Ok::<(), svelgandur::Refusal>(())
/// ```
pub fn list_into<'a>(
    image: &[u8],
    message: &[u8],
    table: &'a mut [u32],
) -> Result<List<'a>, Refusal> {
    let filled = Filled::of(image, message, table)?;
    Ok(filled.list(Cow::Borrowed(&table[..filled.places()])))
}

/// What the library says of a table that it has filled.
struct Filled {
    items: u64,
    nodes: u64,
    scale: u64,
    out: Out,
}

impl Filled {
    fn of(image: &[u8], message: &[u8], table: &mut [u32]) -> Result<Filled, Refusal> {
        let [_, items, nodes, scale] = Refusal::or(calls::list(image, message, table))?;
        Ok(Filled {
            items,
            nodes,
            scale,
            out: Out::of(image),
        })
    }

    fn places(&self) -> usize {
        (self.nodes * self.items) as usize
    }

    fn list<'a>(&self, table: Cow<'a, [u32]>) -> List<'a> {
        List {
            table,
            items: self.items as usize,
            scale: self.scale,
            out: self.out,
        }
    }
}
