//! What a session means: the facts of a history, with no image and no log.
//!
//! Renders "Session" of document 01 a second time. The facts stand as sets,
//! and the accepted edits since the last keep as a list; undoing is to forget
//! the last edit and play the others again from the start. `session` is right
//! when its image is the image of these facts after every call. Name 63 is a
//! name like any other here; degrees are taken over the graph that is judged of
//! these facts (§5 of document 02).

use std::collections::BTreeSet;

use crate::register::{Register, MOST_LINKS};
use crate::session::{Fact, LINK_BYTES, MOST_STEPS};

/// The facts of a register, whose items are fixed.
#[derive(Clone, PartialEq, Eq, Debug)]
pub struct Facts {
    items: usize,
    there: BTreeSet<Fact>,
}

impl Facts {
    pub fn of(register: &Register) -> Facts {
        let mut there = BTreeSet::new();
        for (item, names) in register.names.iter().enumerate() {
            for name in 0..64 {
                if names >> name & 1 == 1 {
                    there.insert(Fact::Name {
                        item: item as u64,
                        name,
                    });
                }
            }
        }
        for (from, role, to) in &register.links {
            there.insert(Fact::Link {
                from: u64::from(*from),
                role: u64::from(*role),
                to: u64::from(*to),
            });
        }
        Facts {
            items: register.items(),
            there,
        }
    }

    pub fn holds(&self, fact: Fact) -> bool {
        self.there.contains(&fact)
    }

    pub fn set(&mut self, fact: Fact, there: bool) {
        if there {
            self.there.insert(fact);
        } else {
            self.there.remove(&fact);
        }
    }

    pub fn links(&self) -> usize {
        self.there
            .iter()
            .filter(|fact| matches!(fact, Fact::Link { .. }))
            .count()
    }

    /// The register of these facts, of which there is one. The set is ordered
    /// by (from, role, to), as the image is.
    pub fn register(&self) -> Register {
        let mut register = Register {
            names: vec![0; self.items],
            links: Vec::new(),
        };
        for fact in &self.there {
            match *fact {
                Fact::Name { item, name } => register.names[item as usize] |= 1 << name,
                Fact::Link { from, role, to } => {
                    register.links.push((from as u16, role as u8, to as u16))
                }
            }
        }
        register
    }
}

/// A session over a buffer and a log of fixed lengths, seen from outside.
#[derive(Clone, Debug)]
pub struct Model {
    opened: Facts,
    history: Vec<(Fact, bool)>,
    buffer_len: usize,
    log_len: usize,
}

impl Model {
    /// The session just opened on a register that its buffer holds.
    pub fn open(register: &Register, buffer_len: usize, log_len: usize) -> Model {
        Model {
            opened: Facts::of(register),
            history: Vec::new(),
            buffer_len,
            log_len,
        }
    }

    /// The facts now: those at the opening or last keep, then each accepted
    /// edit in its turn.
    pub fn facts(&self) -> Facts {
        let mut facts = self.opened.clone();
        for (fact, there) in &self.history {
            facts.set(*fact, *there);
        }
        facts
    }

    pub fn count(&self) -> u64 {
        self.history.len() as u64
    }

    /// Accepts an edit, or answers the number that refuses it: 15, 7, 18, 20.
    pub fn edit(&mut self, fact: Fact, there: bool) -> Result<(), u32> {
        let items = self.opened.items as u64;
        let (in_range, role_in_range) = match fact {
            Fact::Name { item, name } => (item < items && name < 64, true),
            Fact::Link { from, role, to } => (from < items && to < items, role < 32),
        };
        if !in_range {
            return Err(15);
        }
        if !role_in_range {
            return Err(7);
        }
        if self.history.len() == self.log_len || self.history.len() == MOST_STEPS {
            return Err(18);
        }
        let facts = self.facts();
        if there && matches!(fact, Fact::Link { .. }) && !facts.holds(fact) {
            let links = facts.links();
            let needed = 3 + 2 + 8 * self.opened.items + 2 + LINK_BYTES * (links + 1);
            if links == MOST_LINKS || needed > self.buffer_len {
                return Err(20);
            }
        }
        self.history.push((fact, there));
        Ok(())
    }

    /// Forgets the last edit, or answers 19. What stood before it had room,
    /// so no 20 can come.
    pub fn undo(&mut self) -> Result<(), u32> {
        match self.history.pop() {
            Some(_) => Ok(()),
            None => Err(19),
        }
    }

    pub fn keep(&mut self) {
        self.opened = self.facts();
        self.history.clear();
    }
}
