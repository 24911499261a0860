//! One part of the comparison: its calls, what was met, and a difference.

use std::collections::BTreeMap;
use std::fmt;

use second::{Refusal, Side};

use crate::library::Answer;

/// The kind of a refusal; every other answer is of another kind.
pub const REFUSED: u64 = 0;
pub const GOOD: u64 = 1;
/// Of a yes or no: no.
pub const NO: u64 = 2;

/// The sides in the order of their numbers.
const SIDES: [(Side, &str); 3] = [
    (Side::Register, "register"),
    (Side::Requirement, "requirement"),
    (Side::Call, "call"),
];

fn side_number(side: Side) -> u64 {
    let at = SIDES.iter().position(|(one, _)| *one == side);
    at.expect("every side is listed") as u64
}

fn side_name(number: u64) -> &'static str {
    SIDES
        .get(number as usize)
        .map_or("no side", |(_, name)| name)
}

/// A refusal of the second program in the library's four numbers.
pub fn refused(refusal: Refusal) -> Answer {
    [
        REFUSED,
        side_number(refusal.side),
        u64::from(refusal.number),
        refusal.place as u64,
    ]
}

/// A call, its good answers by kind, and the refusals that it can give. Each
/// of them is to be met.
pub struct Call {
    pub name: &'static str,
    pub kinds: &'static [u64],
    pub refusals: &'static [(Side, &'static [u64])],
}

impl Call {
    /// Its refusals, each as the numbers of side and refusal.
    fn can_give(&self) -> impl Iterator<Item = (u64, u64)> {
        self.refusals
            .iter()
            .flat_map(|(side, numbers)| numbers.iter().map(|number| (side_number(*side), *number)))
    }
}

pub struct Part {
    pub name: &'static str,
    pub calls: &'static [Call],
    pub run: fn(&mut Seen, u64) -> Result<(), Difference>,
}

/// What one call came to: the answer, and the memory that it was lent, as it
/// is afterwards.
#[derive(Clone, PartialEq, Eq, Debug)]
pub struct Outcome<M> {
    pub answer: Answer,
    pub lent: M,
}

/// The two programs differ.
pub struct Difference {
    call: &'static str,
    inputs: Vec<(&'static str, String)>,
    library: String,
    second: String,
}

impl fmt::Display for Difference {
    fn fmt(&self, f: &mut fmt::Formatter<'_>) -> fmt::Result {
        writeln!(f, "the two programs differ at {}", self.call)?;
        for (name, value) in &self.inputs {
            writeln!(f, "  {name}: {value}")?;
        }
        writeln!(f, "  library: {}", self.library)?;
        write!(f, "  second:  {}", self.second)
    }
}

/// Bytes as they are printed for a difference.
pub fn hex(bytes: &[u8]) -> String {
    let digits: String = bytes.iter().map(|byte| format!("{byte:02x}")).collect();
    format!("{} bytes {digits}", bytes.len())
}

/// What was met so far: for each call its good answers by kind, and its
/// refusals by side and number.
#[derive(Default)]
pub struct Seen {
    good: BTreeMap<(&'static str, u64), u64>,
    refused: BTreeMap<(&'static str, u64, u64), u64>,
}

impl Seen {
    /// Holds the two outcomes of one call against each other, and counts them.
    /// `inputs` is asked only where they differ.
    pub fn compare<M: PartialEq + fmt::Debug>(
        &mut self,
        call: &'static str,
        library: Outcome<M>,
        second: Outcome<M>,
        inputs: impl Fn() -> Vec<(&'static str, String)>,
    ) -> Result<(), Difference> {
        if library != second {
            return Err(Difference {
                call,
                inputs: inputs(),
                library: format!("{library:?}"),
                second: format!("{second:?}"),
            });
        }
        let [kind, side, number, _] = library.answer;
        let count = if kind == REFUSED {
            self.refused.entry((call, side, number)).or_insert(0)
        } else {
            self.good.entry((call, kind)).or_insert(0)
        };
        *count += 1;
        Ok(())
    }

    pub fn calls(&self) -> u64 {
        self.good.values().sum::<u64>() + self.refused.values().sum::<u64>()
    }

    /// How often each answer of a call was met, in one line.
    pub fn told(&self, call: &str) -> String {
        let good = self
            .good
            .iter()
            .filter(|((name, _), _)| *name == call)
            .map(|((_, kind), count)| format!("kind {kind}: {count}"));
        let refused = self
            .refused
            .iter()
            .filter(|((name, _, _), _)| *name == call)
            .map(|((_, at, number), count)| format!("{} {number}: {count}", side_name(*at)));
        good.chain(refused).collect::<Vec<_>>().join(", ")
    }

    /// Each call was met with each answer that it can give, and with no other.
    pub fn complete(&self, calls: &[Call]) -> Result<(), String> {
        for call in calls {
            for kind in call.kinds {
                if !self.good.contains_key(&(call.name, *kind)) {
                    return Err(format!("{} never gave kind {kind}", call.name));
                }
            }
            for (side, number) in call.can_give() {
                if !self.refused.contains_key(&(call.name, side, number)) {
                    let side = side_name(side);
                    return Err(format!("{} never gave {side} {number}", call.name));
                }
            }
        }
        for (name, kind) in self.good.keys() {
            let mut named = calls.iter().filter(|call| call.name == *name);
            if !named.any(|call| call.kinds.contains(kind)) {
                return Err(format!("{name} gave kind {kind}, which is not its own"));
            }
        }
        for (name, side, number) in self.refused.keys() {
            let mut named = calls.iter().filter(|call| call.name == *name);
            if !named.any(|call| call.can_give().any(|given| given == (*side, *number))) {
                let side = side_name(*side);
                return Err(format!("{name} gave {side} {number}, which is not its own"));
            }
        }
        Ok(())
    }
}
