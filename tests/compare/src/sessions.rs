//! Sessions: open, edit, undo and keep. Every byte of the buffer and every
//! number of the log is compared after every call, with the second program's
//! session and, over whole histories, with the model of what a session means.
//! Degrees, margins and yes or no are asked in between: a session keeps all facts
//! of a withdrawn item, and no question counts it.

use second::gen::registers::register_of;
use second::gen::requirements::fraction;
use second::gen::{
    action, damaged_register, fact, junk_fact, junk_step, largest_register, medium_register,
    register_edges, small_plain, small_register, small_with_thresholds, Action, Palette, Rng,
};
use second::judged::WITHDRAWN;
use second::model::Model;
use second::register::{self, Register};
use second::session::{self as direct, Fact, Step};
use second::{degree, member, requirement, Refusal, Side};

use crate::fence;
use crate::library;
use crate::part::{hex, refused, Call, Difference, Outcome, Part, Seen, GOOD, NO};
use crate::steps::{coded, decoded};

const OPEN: &str = "open";
const NAME: &str = "edit name";
const LINK: &str = "edit link";
const UNDO: &str = "undo";
const KEEP: &str = "keep";
const DEGREE: &str = "degree in a session";
const MARGIN: &str = "margin in a session";
const MEMBER: &str = "member in a session";

const READING: (Side, &[u64]) = (Side::Register, &[1, 2, 3, 4, 5, 6, 7, 8]);
const WITHDRAWN_ONE: (Side, &[u64]) = (Side::Call, &[26]);

const fn call(name: &'static str, refusals: &'static [(Side, &'static [u64])]) -> Call {
    Call {
        name,
        kinds: &[GOOD],
        refusals,
    }
}

pub const PART: Part = Part {
    name: "sessions",
    calls: &[
        call(OPEN, &[READING]),
        call(NAME, &[READING, (Side::Call, &[15, 17, 18])]),
        call(LINK, &[READING, (Side::Call, &[7, 15, 17, 18, 20])]),
        call(UNDO, &[READING, (Side::Call, &[17, 19, 20])]),
        call(KEEP, &[READING, (Side::Call, &[17])]),
        call(DEGREE, &[WITHDRAWN_ONE]),
        call(MARGIN, &[WITHDRAWN_ONE]),
        Call {
            name: MEMBER,
            kinds: &[GOOD, NO],
            refusals: &[WITHDRAWN_ONE],
        },
    ],
    run,
};

fn run(seen: &mut Seen, seed: u64) -> Result<(), Difference> {
    let mut rng = Rng::new(seed);
    edges(seen)?;
    stands_and_is_undone(seen)?;
    withdrawn_and_back(seen, &mut rng)?;
    histories(seen, &mut rng)?;
    full_registers(seen, &mut rng)?;
    played_back(seen, &mut rng)?;
    junk(seen, &mut rng)?;
    every_low_number(seen)
}

/// What a session lends, and the count that the caller holds.
#[derive(Clone)]
struct Session {
    buffer: Vec<u8>,
    log: Vec<u64>,
    count: u64,
}

/// Buffer and log after a call.
type Lent = (Vec<u8>, Vec<u64>);

/// One call of a session.
#[derive(Clone, Copy, Debug)]
enum Asked {
    Open,
    Edit { fact: Fact, adds: u64 },
    Undo,
    Keep,
}

impl Asked {
    fn name(self) -> &'static str {
        match self {
            Asked::Open => OPEN,
            Asked::Edit { fact, .. } => match fact {
                Fact::Name { .. } => NAME,
                Fact::Link { .. } => LINK,
            },
            Asked::Undo => UNDO,
            Asked::Keep => KEEP,
        }
    }
}

impl Session {
    fn of(register: &Register, behind: &[u8], log: Vec<u64>) -> Session {
        let mut buffer = register::encode(register);
        buffer.extend_from_slice(behind);
        Session {
            buffer,
            log,
            count: 0,
        }
    }

    /// The library's outcome.
    fn library(&self, asked: Asked) -> Outcome<Lent> {
        let Session {
            mut buffer,
            mut log,
            count,
        } = self.clone();
        let answer = match asked {
            Asked::Open => fence::lent(0, &mut buffer, library::open),
            Asked::Edit { fact, adds } => fence::lent(0, &mut buffer, |buffer| {
                fence::lent(1, &mut log, |log| match fact {
                    Fact::Name { item, name } => {
                        library::edit_name(buffer, log, count, adds, item, name)
                    }
                    Fact::Link { from, role, to } => {
                        library::edit_link(buffer, log, count, adds, [from, role, to])
                    }
                })
            }),
            Asked::Undo => fence::lent(0, &mut buffer, |buffer| {
                fence::shown(1, &log, |log| library::undo(buffer, log, count))
            }),
            Asked::Keep => fence::shown(0, &buffer, |buffer| {
                fence::shown(1, &log, |log| library::keep(buffer, log, count))
            }),
        };
        Outcome {
            answer,
            lent: (buffer, log),
        }
    }

    /// The second program's outcome: its log has steps, each of which is a
    /// number of ours.
    fn second(&self, asked: Asked) -> Outcome<Lent> {
        let mut buffer = self.buffer.clone();
        let mut steps: Vec<Step> = self.log.iter().map(|number| decoded(*number)).collect();
        let count = match asked {
            Asked::Open => direct::open(&mut buffer),
            Asked::Edit { fact, adds } => {
                direct::edit(&mut buffer, &mut steps, self.count, fact, adds != 0)
            }
            Asked::Undo => direct::undo(&mut buffer, &steps, self.count),
            Asked::Keep => direct::keep(&buffer, &steps, self.count),
        };
        let log = steps.into_iter().map(coded).collect();
        Outcome {
            answer: count.map_or_else(refused, |count| [GOOD, count, 0, 0]),
            lent: (buffer, log),
        }
    }

    fn told(&self, asked: Asked) -> Vec<(&'static str, String)> {
        vec![
            ("call", format!("{asked:?}")),
            ("buffer", hex(&self.buffer)),
            ("log", format!("{:?}", self.log)),
            ("count", self.count.to_string()),
        ]
    }

    /// Makes the call with both programs and compares them; afterwards the
    /// session is as the library left it.
    fn call(&mut self, seen: &mut Seen, asked: Asked) -> Result<Outcome<Lent>, Difference> {
        let outcome = self.library(asked);
        let second = self.second(asked);
        seen.compare(asked.name(), outcome.clone(), second, || self.told(asked))?;
        (self.buffer, self.log) = outcome.lent.clone();
        if outcome.answer[0] == GOOD {
            self.count = outcome.answer[1];
        }
        Ok(outcome)
    }
}

/// The edges of a register, whose refusals were worked out by hand, in every
/// call. In a session a byte more than the length is no fault.
fn edges(seen: &mut Seen) -> Result<(), Difference> {
    let name = Fact::Name { item: 0, name: 0 };
    let link = Fact::Link {
        from: 0,
        role: 0,
        to: 0,
    };
    for edge in register_edges() {
        let start = Session {
            buffer: edge.bytes.clone(),
            log: vec![0, 7],
            count: 1,
        };
        let calls = [
            Asked::Open,
            Asked::Edit {
                fact: name,
                adds: 1,
            },
            Asked::Edit {
                fact: link,
                adds: 1,
            },
            Asked::Undo,
            Asked::Keep,
        ];
        for asked in calls {
            let answer = start.clone().call(seen, asked)?.answer;
            if let Some((number, place)) = edge.refusal {
                let refusal = refused(Refusal::register(number, place));
                let longer = number == 3 && answer != refusal;
                assert!(longer || answer == refusal, "{asked:?}: {}", edge.label);
            }
        }
    }
    Ok(())
}

/// Of the sheet: add a link that stands, undo: the link stands.
fn stands_and_is_undone(seen: &mut Seen) -> Result<(), Difference> {
    let mut session = Session {
        buffer: second::gen::edges::R1.to_vec(),
        log: vec![0; 2],
        count: 0,
    };
    let before = session.buffer.clone();
    let fact = Fact::Link {
        from: 0,
        role: 1,
        to: 2,
    };
    for asked in [Asked::Open, Asked::Edit { fact, adds: 1 }, Asked::Undo] {
        session.call(seen, asked)?;
        assert_eq!(session.buffer, before);
    }
    // From 0 under role 1 to 2, a link that was there.
    assert_eq!((session.log[0], session.count), (1 << 18 | 2 << 2 | 3, 0));
    Ok(())
}

/// Any number but 0 adds.
fn flag(rng: &mut Rng, there: bool) -> u64 {
    match there {
        true => rng.pick(&[1, 2, 256, 1 << 32, u64::MAX]),
        false => 0,
    }
}

/// A session beside the model of what it means.
struct History {
    session: Session,
    model: Model,
}

impl History {
    fn open(
        seen: &mut Seen,
        register: &Register,
        room: usize,
        log: usize,
    ) -> Result<History, Difference> {
        let unwritten = (0..log).map(|place| 0xAB00 + place as u64).collect();
        let mut session = Session::of(register, &vec![0xEE; room], unwritten);
        session.call(seen, Asked::Open)?;
        let model = Model::open(register, session.buffer.len(), log);
        Ok(History { session, model })
    }

    /// The image of the model's facts, and zeros behind it.
    fn buffer(&self) -> Vec<u8> {
        let mut buffer = register::encode(&self.model.facts().register());
        buffer.resize(self.session.buffer.len(), 0);
        buffer
    }

    /// A call with the session's own count, held against the model too.
    fn call(&mut self, seen: &mut Seen, asked: Asked) -> Result<(), Difference> {
        let before = self.session.clone();
        let outcome = self.session.call(seen, asked)?;
        let mut log = before.log.clone();
        let result = match asked {
            Asked::Open | Asked::Keep => {
                self.model.keep();
                Ok(())
            }
            Asked::Undo => self.model.undo(),
            Asked::Edit { fact, adds } => {
                let was_there = self.model.facts().holds(fact);
                let result = self.model.edit(fact, adds != 0);
                if result.is_ok() {
                    log[before.count as usize] = coded(Step { fact, was_there });
                }
                result
            }
        };
        let answer = match result {
            Ok(()) => [GOOD, self.model.count(), 0, 0],
            Err(number) => refused(Refusal::call(number)),
        };
        let expected = Outcome {
            answer,
            lent: (self.buffer(), log),
        };
        seen.compare(asked.name(), outcome, expected, || {
            let mut told = before.told(asked);
            told.push(("second", "the model".to_string()));
            told
        })
    }

    /// A call with a count that is too great: 17, and nothing changes.
    fn miscounted(
        &mut self,
        seen: &mut Seen,
        rng: &mut Rng,
        asked: Asked,
    ) -> Result<(), Difference> {
        let room = self.session.log.len().min(64) as u64;
        let mut wrong = self.session.clone();
        wrong.count = room + rng.pick(&[1, 2, 255, 1 << 32, u64::MAX - room]);
        let answer = wrong.call(seen, asked)?.answer;
        assert!(matches!(asked, Asked::Open) || answer == refused(Refusal::call(17)));
        Ok(())
    }

    /// The image alone.
    fn image(&self) -> &[u8] {
        let buffer = &self.session.buffer;
        let length = u16::from_be_bytes([buffer[1], buffer[2]]);
        &buffer[..3 + usize::from(length)]
    }

    /// Degree, margin and yes or no, asked of the image alone, are those over the
    /// model's facts.
    fn ask(
        &self,
        seen: &mut Seen,
        rng: &mut Rng,
        palette: &Palette,
        item: u64,
    ) -> Result<(), Difference> {
        let facts = self.model.facts().register();
        let plain = small_plain(rng, palette);
        let root = match rng.below(2) {
            0 => plain.clone(),
            _ => small_with_thresholds(rng, palette, &facts),
        };
        let [plain, root] = [plain, root].map(|root| requirement::encode(&root));
        let (p, q) = fraction(rng);
        self.degree(seen, &facts, &plain, item)?;
        self.margin(seen, &facts, &plain, item, (p.into(), q.into()))?;
        self.member(seen, &facts, &root, item)
    }

    fn degree(
        &self,
        seen: &mut Seen,
        facts: &Register,
        message: &[u8],
        item: u64,
    ) -> Result<(), Difference> {
        let mut map = vec![7; 8];
        let answer = library::degree(self.image(), message, item, &mut map);
        let library = Outcome { answer, lent: map };
        let mut lent = vec![7; 8];
        let answer = match degree::degree(&register::encode(facts), message, item, 8) {
            Ok((num, den, values)) => {
                lent[..values.len()].copy_from_slice(&values);
                [GOOD, num, den, values.len() as u64]
            }
            Err(refusal) => refused(refusal),
        };
        let second = Outcome { answer, lent };
        seen.compare(DEGREE, library, second, || self.question(message, item))
    }

    fn margin(
        &self,
        seen: &mut Seen,
        facts: &Register,
        message: &[u8],
        item: u64,
        (p, q): (u64, u64),
    ) -> Result<(), Difference> {
        let answer = library::margin(self.image(), message, item, p, q);
        let library = Outcome { answer, lent: () };
        let answer = match degree::margin(&register::encode(facts), message, item, p, q) {
            Ok((margin, over)) => [GOOD, margin.unsigned_abs(), over, u64::from(margin < 0)],
            Err(refusal) => refused(refusal),
        };
        let second = Outcome { answer, lent: () };
        seen.compare(MARGIN, library, second, || self.question(message, item))
    }

    fn member(
        &self,
        seen: &mut Seen,
        facts: &Register,
        message: &[u8],
        item: u64,
    ) -> Result<(), Difference> {
        let mut map = vec![7; 8];
        let answer = library::member(self.image(), message, item, &mut map);
        let library = Outcome { answer, lent: map };
        let mut lent = vec![7; 8];
        let answer = match member::member(&register::encode(facts), message, item, 8) {
            Ok(Some(values)) => {
                lent[..values.len()].copy_from_slice(&values);
                [GOOD, values.len() as u64, 0, 0]
            }
            Ok(None) => [NO, 0, 0, 0],
            Err(refusal) => refused(refusal),
        };
        let second = Outcome { answer, lent };
        seen.compare(MEMBER, library, second, || self.question(message, item))
    }

    fn question(&self, message: &[u8], item: u64) -> Vec<(&'static str, String)> {
        vec![
            ("image", hex(self.image())),
            ("message", hex(message)),
            ("item", item.to_string()),
        ]
    }
}

/// Each item of small registers withdrawn by an edit and brought back by its
/// undo, and the other way round where it is withdrawn to begin with; all items
/// asked for before, between and after.
fn withdrawn_and_back(seen: &mut Seen, rng: &mut Rng) -> Result<(), Difference> {
    for _ in 0..200 {
        let palette = Palette::any(rng);
        let register = small_register(rng, &palette);
        let items = register.items() as u64;
        let mut history = History::open(seen, &register, 0, 4)?;
        for item in 0..items {
            let name = u64::from(WITHDRAWN);
            let fact = Fact::Name { item, name };
            let adds = u64::from(!history.model.facts().holds(fact));
            let before = history.session.buffer.clone();
            for asked in [Asked::Keep, Asked::Edit { fact, adds }, Asked::Undo] {
                history.call(seen, asked)?;
                for other in 0..items {
                    history.ask(seen, rng, &palette, other)?;
                }
            }
            assert!(history.session.buffer == before, "it is not as it was");
        }
    }
    Ok(())
}

/// So many calls, some of them refused.
fn play(
    seen: &mut Seen,
    rng: &mut Rng,
    palette: &Palette,
    history: &mut History,
    calls: usize,
) -> Result<(), Difference> {
    for _ in 0..calls {
        let now = history.model.facts().register();
        let asked = match action(rng, palette, &now) {
            Action::Edit { fact, there } => Asked::Edit {
                fact,
                adds: flag(rng, there),
            },
            Action::Undo => Asked::Undo,
            Action::Keep if rng.chance(3) => Asked::Open,
            Action::Keep => Asked::Keep,
        };
        if rng.chance(16) {
            history.miscounted(seen, rng, asked)?;
        }
        history.call(seen, asked)?;
        // An item that was just withdrawn or brought back, or any other.
        let asked_for = match asked {
            Asked::Edit {
                fact: Fact::Name { item, name: 63 },
                ..
            } if item < now.items() as u64 => Some(item),
            _ => None,
        };
        let any = rng.below(now.items() as u64);
        if rng.chance(if asked_for.is_some() { 2 } else { 16 }) {
            history.ask(seen, rng, palette, asked_for.unwrap_or(any))?;
        }
    }
    Ok(())
}

const LOGS: [usize; 9] = [0, 1, 2, 5, 20, 63, 64, 65, 80];

/// Random histories: small registers with 0 to 9 bytes of room or more, and
/// logs of every kind of length.
fn histories(seen: &mut Seen, rng: &mut Rng) -> Result<(), Difference> {
    for round in 0..1200 {
        let palette = Palette::any(rng);
        let (register, calls) = match round % 12 {
            0 => (medium_register(rng, &palette), 60),
            _ => (small_register(rng, &palette), 250),
        };
        let room = match round % 3 {
            0 => rng.between(0, 9),
            1 => rng.between(10, 40),
            _ => 5 * 64,
        };
        let mut history = History::open(seen, &register, room, rng.pick(&LOGS))?;
        play(seen, rng, &palette, &mut history, calls)?;
    }
    Ok(())
}

/// Registers at and near 4,096 links, with room for more and without.
fn full_registers(seen: &mut Seen, rng: &mut Rng) -> Result<(), Difference> {
    let palette = Palette {
        names: vec![0, 62],
        roles: vec![0, 31],
        withdrawn: 8,
    };
    for (links, room) in [(4096, 0), (4096, 40), (4095, 9), (4095, 4), (4094, 300)] {
        let register = register_of(rng, &palette, 512, links);
        let mut history = History::open(seen, &register, room, 64)?;
        play(seen, rng, &palette, &mut history, 100)?;
        let few_items = register_of(rng, &palette, 64, links);
        let mut history = History::open(seen, &few_items, room, 64)?;
        play(seen, rng, &palette, &mut history, 100)?;
    }
    Ok(())
}

/// Logs filled to their end and undone to the start: the buffer is what it was
/// at each step.
fn played_back(seen: &mut Seen, rng: &mut Rng) -> Result<(), Difference> {
    for round in 0..150 {
        let palette = Palette::any(rng);
        let register = match round {
            0 => largest_register(rng, &palette),
            1..=10 => medium_register(rng, &palette),
            _ => small_register(rng, &palette),
        };
        let steps = rng.pick(&[1, 7, 63, 64, 66]);
        let mut session = Session::of(&register, &[0; 5 * 64], vec![0; steps]);
        session.call(seen, Asked::Open)?;
        let mut buffers = Vec::new();
        loop {
            let fact = fact(rng, &palette, &register);
            let adds = rng.below(2);
            let before = session.buffer.clone();
            let answer = session.call(seen, Asked::Edit { fact, adds })?.answer;
            if answer == refused(Refusal::call(18)) {
                break;
            }
            if answer[0] == GOOD {
                buffers.push(before);
            }
        }
        assert_eq!(buffers.len(), steps.min(64), "a log is filled to its end");
        while let Some(before) = buffers.pop() {
            session.call(seen, Asked::Undo)?;
            assert!(session.buffer == before, "undone to what it was");
        }
        assert_eq!(
            session.call(seen, Asked::Undo)?.answer,
            refused(Refusal::call(19))
        );
    }
    Ok(())
}

/// A number for a log that no edit of this session wrote.
fn junk_number(rng: &mut Rng, palette: &Palette, register: &Register) -> u64 {
    match rng.below(4) {
        0 => rng.word(),
        1 => rng.pick(&[
            0,
            1,
            2,
            3,
            u64::MAX,
            1 << 63,
            1 << 18,
            64 << 18,
            32 << 18 | 2,
        ]),
        _ => {
            let step = junk_step(rng, palette, register);
            let fits = match step.fact {
                Fact::Name { item, name } => item < 1 << 16 && name < 1 << 46,
                Fact::Link { from, role, to } => from < 1 << 38 && role < 1 << 8 && to < 1 << 16,
            };
            if fits {
                coded(step)
            } else {
                rng.word() >> rng.below(40)
            }
        }
    }
}

/// Buffers that nobody opened, logs that no edit wrote, counts of any value,
/// facts of any value, sometimes all at once.
fn junk(seen: &mut Seen, rng: &mut Rng) -> Result<(), Difference> {
    for _ in 0..300_000 {
        let palette = Palette::any(rng);
        let register = small_register(rng, &palette);
        let behind: Vec<u8> = (0..rng.between(0, 9)).map(|_| rng.word() as u8).collect();
        let longest = rng.pick(&[1, 3, 70]);
        let log: Vec<u64> = (0..rng.between(0, longest))
            .map(|_| junk_number(rng, &palette, &register))
            .collect();
        let mut session = Session::of(&register, &behind, log);
        if rng.chance(4) {
            session.buffer = damaged_register(rng, &register);
            session.buffer.extend_from_slice(&behind);
        }
        session.count = match rng.below(8) {
            0 => rng.pick(&[0, 64, 65, 1 << 32, u64::MAX]),
            1 => session.log.len() as u64 + 1,
            _ => rng.below(session.log.len() as u64 + 1),
        };
        let fact = match rng.below(3) {
            0 => junk_fact(rng, register.items()),
            _ => fact(rng, &palette, &register),
        };
        let there = rng.chance(2);
        let asked = match rng.below(8) {
            0 => Asked::Open,
            1 => Asked::Keep,
            2..=4 => Asked::Undo,
            _ => Asked::Edit {
                fact,
                adds: flag(rng, there),
            },
        };
        session.call(seen, asked)?;
    }
    Ok(())
}

/// The undo of every number of a log up to all names and links of a small
/// register, and of numbers with one high bit each.
fn every_low_number(seen: &mut Seen) -> Result<(), Difference> {
    let register = Register {
        names: vec![1 << 63, 5],
        links: vec![(0, 0, 1), (0, 31, 0), (1, 0, 0)],
    };
    let fields = |high: u64| (0..16).map(move |low| high << 18 | low);
    let high_bits = (0..64).flat_map(|bit| (0..16).map(move |low| 1 << bit | low));
    let numbers = (0..200).flat_map(fields).chain(high_bits);
    for number in numbers {
        for room in [0, 4, 5] {
            let mut session = Session::of(&register, &vec![0xEE; room], vec![number]);
            session.count = 1;
            session.call(seen, Asked::Undo)?;
        }
    }
    Ok(())
}
