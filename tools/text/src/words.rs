//! The words that a text declares for numbers: `name 3 timecode`, `role 0 feeds`.
//!
//! Wherever a word may stand, its number may too. Name 63 has a meaning of its
//! own, and its word in every text: `withdrawn`, declared or not.

use crate::fault::Fault;
use crate::line::{self, Line};

/// The name of a withdrawn item, and its word.
const WITHDRAWN: (u16, &str) = (63, "withdrawn");

/// The words for one kind of number, 0 to `most`.
#[derive(Clone, Debug)]
pub struct List {
    kind: &'static str,
    most: u16,
    /// A number that has its word without a declaration.
    fixed: Option<(u16, &'static str)>,
    words: Vec<(u16, String)>,
}

impl List {
    pub fn new(kind: &'static str, most: u16) -> List {
        List {
            kind,
            most,
            fixed: None,
            words: Vec::new(),
        }
    }

    /// Declares a word. Number and word are each declared once; what is fixed may
    /// be declared as it is.
    pub fn declare(&mut self, number: u16, word: &str) -> Result<(), String> {
        let kind = self.kind;
        if !is_word(word) {
            return Err(format!(
                "'{word}' is no word: a letter, then letters, digits, '-' and '_'"
            ));
        }
        if self.fixed == Some((number, word)) {
            return Ok(());
        }
        if let Some(other) = self.called(word) {
            return Err(format!("'{word}' is {kind} {other} already"));
        }
        if let Some(other) = self.word(number) {
            return Err(format!("{kind} {number} is '{other}' already"));
        }
        self.words.push((number, word.to_string()));
        Ok(())
    }

    /// The number itself, in range.
    pub fn number(&self, digits: &str) -> Result<u16, String> {
        let kind = self.kind;
        if digits.is_empty() || !digits.bytes().all(|byte| byte.is_ascii_digit()) {
            return Err(format!("'{digits}' is no {kind} number"));
        }
        match digits.parse() {
            Ok(number) if number <= self.most => Ok(number),
            _ => Err(format!("{kind} {digits} is above {}", self.most)),
        }
    }

    /// The number that a word or a number stands for.
    pub fn resolve(&self, said: &str) -> Result<u16, String> {
        if said.starts_with(|one: char| one.is_ascii_digit()) {
            return self.number(said);
        }
        match self.called(said) {
            Some(number) => Ok(number),
            None => Err(format!("no {} is called '{said}'", self.kind)),
        }
    }

    /// Each number that has a word, with it.
    fn all(&self) -> impl Iterator<Item = (u16, &str)> {
        let declared = self.words.iter();
        let declared = declared.map(|(number, word)| (*number, word.as_str()));
        self.fixed.into_iter().chain(declared)
    }

    fn called(&self, said: &str) -> Option<u16> {
        let mut all = self.all();
        all.find(|(_, word)| *word == said)
            .map(|(number, _)| number)
    }

    pub fn word(&self, number: u16) -> Option<&str> {
        let mut all = self.all();
        all.find(|(one, _)| *one == number).map(|(_, word)| word)
    }

    /// The word for a number, or the number where it has none.
    pub fn shown(&self, number: u16) -> String {
        self.word(number)
            .map_or_else(|| number.to_string(), str::to_string)
    }

    /// The words with their numbers, in the order of their declaration.
    pub fn declared(&self) -> &[(u16, String)] {
        &self.words
    }
}

fn is_word(word: &str) -> bool {
    word.starts_with(|one: char| one.is_ascii_alphabetic())
        && word
            .bytes()
            .all(|byte| byte.is_ascii_alphanumeric() || byte == b'-' || byte == b'_')
}

/// The words for names and for roles.
#[derive(Clone, Debug)]
pub struct Words {
    pub names: List,
    pub roles: List,
}

impl Default for Words {
    fn default() -> Words {
        Words {
            names: List {
                fixed: Some(WITHDRAWN),
                ..List::new("name", 63)
            },
            roles: List::new("role", 31),
        }
    }
}

impl Words {
    /// The words that a text declares, whatever else it says: a register's
    /// text serves, or a list of declarations alone.
    pub fn of(text: &str) -> Result<Words, Fault> {
        let mut words = Words::default();
        for line in line::all(text)? {
            words.take(&line)?;
        }
        Ok(words)
    }

    /// Takes the line if it is a declaration, and says whether it was one.
    pub fn take(&mut self, line: &Line<'_>) -> Result<bool, Fault> {
        let (first, rest) = line.first();
        let list = match first {
            "name" if line.depth == 0 => &mut self.names,
            "role" if line.depth == 0 => &mut self.roles,
            _ => return Ok(false),
        };
        let parts: Vec<&str> = rest.split_whitespace().collect();
        let [number, word] = parts[..] else {
            let what = format!("a declaration is '{first} NUMBER WORD'");
            return Err(line.fault(what));
        };
        let number = list.number(number).map_err(|what| line.fault(what))?;
        list.declare(number, word)
            .map_err(|what| line.fault(what))?;
        Ok(true)
    }

    /// The set of the names on a line.
    pub fn set(&self, line: &Line<'_>, names: &str) -> Result<u64, Fault> {
        let mut set = 0;
        for said in names.split_whitespace() {
            let number = self.names.resolve(said).map_err(|what| line.fault(what))?;
            if set >> number & 1 == 1 {
                return Err(line.fault(format!("the name '{said}' stands here already")));
            }
            set |= 1 << number;
        }
        Ok(set)
    }

    /// A set of names as it is written behind a colon.
    pub fn shown_set(&self, set: u64) -> String {
        (0..64)
            .filter(|number| set >> number & 1 == 1)
            .map(|number| format!(" {}", self.names.shown(number)))
            .collect()
    }

    /// The declarations, as they stand under a title.
    pub fn declarations(&self) -> String {
        let lines = |first: &str, list: &List| -> String {
            list.declared()
                .iter()
                .map(|(number, word)| format!("{first} {number} {word}\n"))
                .collect()
        };
        lines("name", &self.names) + &lines("role", &self.roles)
    }
}
