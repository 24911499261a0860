//! What the listing program prints: both sides read once, and all items
//! worked out in one go.

use std::io::{self, Write};

use crate::calls::lowest;
use crate::graph::Graph;
use crate::items::Items;
use crate::meeting::Meeting;
use crate::message::{Each, Message};
use crate::numbers::{Numbers, Reached};
use crate::register::Register;
use crate::tree::Tree;
use crate::{refuse, Refusal, Side, DROPPED, MOST_NODES, MOST_SIZE, UNMAPPED};

pub const MOST_INPUT: usize = 65_536;
/// Bytes that are gathered before they are written; a line has no more than
/// 500.
const GATHERED: usize = 65_536;
const LONGEST: usize = 512;

/// Writes the listing of an input.
pub fn listing(input: &[u8], out: &mut impl Write) -> io::Result<()> {
    if input.len() > MOST_INPUT {
        return out.write_all(b"input too long\n");
    }
    let (register, message) = split(input);
    let mut text = Text {
        bytes: [0; GATHERED],
        length: 0,
        out,
    };
    match lines(register, message, &mut text) {
        Ok(written) => written?,
        Err(refusal) => text.refusal(refusal)?,
    }
    text.flush()
}

fn split(input: &[u8]) -> (&[u8], &[u8]) {
    match input {
        [_, high, low, ..] => {
            let length = usize::from(u16::from_be_bytes([*high, *low]));
            input.split_at(input.len().min(3 + length))
        }
        _ => (input, &[]),
    }
}

fn lines(
    register: &[u8],
    message: &[u8],
    text: &mut Text<impl Write>,
) -> Result<io::Result<()>, Refusal> {
    let register = Register::whole(register)?;
    let mut inner = Each::NONE;
    let mut message = Message::read(message, &mut inner)?;
    let mut judged = Items::NONE;
    (0..register.items)
        .filter(|item| register.judged(*item))
        .for_each(|item| judged.insert(item));
    let all = Reached::of(judged);
    let mut graph = Graph::of(register);
    if message.count > 0 {
        let meeting = Meeting::of(&mut graph, &message, &inner, all);
        return Ok(members(&mut graph, &message.tree, meeting, text));
    }
    if message.tree.reduce() > MOST_SIZE {
        return refuse(Side::Requirement, 14, 3);
    }
    let mut numbers = Numbers::none();
    let scale = numbers.work_out(&mut graph, &message.tree, all);
    Ok(degrees(&mut graph, &message.tree, &numbers, scale, text))
}

fn degrees(
    graph: &mut Graph,
    tree: &Tree,
    numbers: &Numbers,
    scale: u32,
    text: &mut Text<impl Write>,
) -> io::Result<()> {
    let mut map = [0; MOST_NODES];
    text.word(b"item degree map\n");
    for item in 0..graph.register.items {
        text.number(item as u64);
        if !graph.register.judged(item) {
            text.withdrawn()?;
            continue;
        }
        numbers.show(graph, tree, item, &mut map);
        let (num, den) = lowest(numbers.root(item), scale);
        text.word(b" ");
        text.number(num);
        text.word(b"/");
        text.number(den);
        text.map(&map[..tree.nodes])?;
    }
    Ok(())
}

fn members(
    graph: &mut Graph,
    tree: &Tree,
    meeting: Option<Meeting>,
    text: &mut Text<impl Write>,
) -> io::Result<()> {
    let mut map = [0; MOST_NODES];
    text.word(b"item member map\n");
    for item in 0..graph.register.items {
        text.number(item as u64);
        match &meeting {
            _ if !graph.register.judged(item) => text.withdrawn()?,
            Some(meeting) if meeting.meets(item) => {
                meeting.show(graph, tree, item, &mut map);
                text.word(b" yes");
                text.map(&map[..tree.nodes])?;
            }
            _ => {
                text.word(b" no");
                text.map(&[UNMAPPED])?;
            }
        }
    }
    Ok(())
}

/// Text that is gathered before it is written.
struct Text<'a, W> {
    bytes: [u8; GATHERED],
    length: usize,
    out: &'a mut W,
}

impl<W: Write> Text<'_, W> {
    fn word(&mut self, word: &[u8]) {
        self.bytes[self.length..self.length + word.len()].copy_from_slice(word);
        self.length += word.len();
    }

    fn number(&mut self, number: u64) {
        let (mut digits, mut at, mut left) = ([0; 20], 20, number);
        loop {
            at -= 1;
            digits[at] = b'0' + (left % 10) as u8;
            left /= 10;
            if left == 0 {
                break;
            }
        }
        self.word(&digits[at..]);
    }

    /// What stands behind the number of a withdrawn item.
    fn withdrawn(&mut self) -> io::Result<()> {
        self.word(b" withdrawn");
        self.map(&[UNMAPPED])
    }

    /// A blank, the map and the end of the line.
    fn map(&mut self, map: &[u16]) -> io::Result<()> {
        for (node, value) in map.iter().enumerate() {
            self.word(if node == 0 { b" " } else { b"," });
            match *value {
                UNMAPPED => self.word(b"-"),
                DROPPED => self.word(b"="),
                item => self.number(item.into()),
            }
        }
        self.word(b"\n");
        match self.length + LONGEST > GATHERED {
            true => self.flush(),
            false => Ok(()),
        }
    }

    fn refusal(&mut self, refusal: Refusal) -> io::Result<()> {
        let side = match refusal.side {
            Side::Register => "register",
            Side::Requirement => "requirement",
            Side::Call => "call",
        };
        let Refusal { number, place, .. } = refusal;
        writeln!(self.out, "{side} refused {number} at {place}")
    }

    fn flush(&mut self) -> io::Result<()> {
        self.out.write_all(&self.bytes[..self.length])?;
        self.length = 0;
        Ok(())
    }
}
