//! Reading, degree, margin, and yes or no, each as the four numbers that
//! include/svelgandur.h says.

use crate::graph::Graph;
use crate::meeting::Meeting;
use crate::message::{Each, Message, Passing};
use crate::numbers::{Numbers, Reached};
use crate::register::Register;
use crate::{common_factor, fraction_fault, refuse, Answer, Refusal, Side};

pub const REFUSED: u64 = 0;
pub const GOOD: u64 = 1;
pub const NO: u64 = 2;

pub fn answer(result: Result<Answer, Refusal>) -> Answer {
    result.unwrap_or_else(|refusal| {
        let Refusal {
            side,
            number,
            place,
        } = refusal;
        [REFUSED, side as u64, number.into(), place.into()]
    })
}

pub fn read_register(image: &[u8], session: u64) -> Answer {
    let register = match session {
        0 => Register::whole(image),
        _ => Register::session(image),
    };
    answer(register.map(|read| [GOOD, read.items as u64, read.links as u64, 0]))
}

pub fn read_requirement(message: &[u8]) -> Answer {
    let read = Message::read(message, &mut Passing(None));
    answer(read.map(|read| [GOOD, read.tree.nodes as u64, read.count as u64, 0]))
}

pub fn inner_part(message: &[u8], k: u64) -> Answer {
    let Ok(read) = Message::read(message, &mut Passing(None)) else {
        return [REFUSED; 4];
    };
    let thresholds = &read.thresholds[..read.count];
    match usize::try_from(k).ok().and_then(|k| thresholds.get(k)) {
        Some(threshold) => [GOOD, threshold.start.into(), threshold.length.into(), 0],
        None => [REFUSED; 4],
    }
}

/// An item that the register has and that is not withdrawn.
fn asked(register: &Register, item: u64) -> Result<usize, Refusal> {
    if item >= register.items as u64 {
        return refuse(Side::Call, 15, 0);
    }
    if !register.judged(item as usize) {
        return refuse(Side::Call, 26, 0);
    }
    Ok(item as usize)
}

pub fn degree(image: &[u8], message: &[u8], item: u64, map: &mut [u16]) -> Answer {
    answer(try_degree(image, message, item, map))
}

fn try_degree(image: &[u8], message: &[u8], item: u64, map: &mut [u16]) -> Result<Answer, Refusal> {
    let register = Register::whole(image)?;
    let tree = Message::plain(message)?;
    let item = asked(&register, item)?;
    if map.len() < tree.nodes {
        return refuse(Side::Call, 16, 0);
    }
    let (mut graph, mut numbers) = (Graph::of(register), Numbers::none());
    let scale = numbers.work_out(&mut graph, &tree, Reached::One(item as u16));
    numbers.show(&mut graph, &tree, item, map);
    let (num, den) = lowest(numbers.root(item), scale);
    Ok([GOOD, num, den, tree.nodes as u64])
}

/// A fraction in lowest terms.
pub fn lowest(number: u32, scale: u32) -> (u64, u64) {
    let factor = common_factor(number.into(), scale.into()) as u32;
    ((number / factor).into(), (scale / factor).into())
}

pub fn margin(image: &[u8], message: &[u8], item: u64, p: u64, q: u64) -> Answer {
    answer(try_margin(image, message, item, p, q))
}

fn try_margin(image: &[u8], message: &[u8], item: u64, p: u64, q: u64) -> Result<Answer, Refusal> {
    let register = Register::whole(image)?;
    let tree = Message::plain(message)?;
    let item = asked(&register, item)?;
    if let Some((number, _)) = fraction_fault(p, q) {
        return refuse(Side::Call, number, 0);
    }
    let (mut graph, mut numbers) = (Graph::of(register), Numbers::none());
    let scale = numbers.work_out(&mut graph, &tree, Reached::One(item as u16));
    let (num, den) = lowest(numbers.root(item), scale);
    let (ours, theirs) = (num * q, p * den);
    let below = u64::from(ours < theirs);
    Ok([GOOD, ours.abs_diff(theirs), den * q, below])
}

pub fn member(image: &[u8], message: &[u8], item: u64, map: &mut [u16]) -> Answer {
    answer(try_member(image, message, item, map))
}

fn try_member(image: &[u8], message: &[u8], item: u64, map: &mut [u16]) -> Result<Answer, Refusal> {
    let register = Register::whole(image)?;
    let mut inner = Each::NONE;
    let message = Message::read(message, &mut inner)?;
    let item = asked(&register, item)?;
    let nodes = message.tree.nodes;
    if map.len() < nodes {
        return refuse(Side::Call, 16, 0);
    }
    let mut graph = Graph::of(register);
    let from = Reached::One(item as u16);
    match Meeting::of(&mut graph, &message, &inner, from) {
        Some(meeting) => {
            meeting.show(&mut graph, &message.tree, item, map);
            Ok([GOOD, nodes as u64, 0, 0])
        }
        None => Ok([NO, 0, 0, 0]),
    }
}
