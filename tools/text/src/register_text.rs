//! A register's text.
//!
//! ```text
//! register
//! name 1 output              # words for names and roles, before their use
//! role 0 feeds
//! item 0 board-a: 3 output   # items in order from 0; a word of their own if wanted
//! item 1: output
//! link board-a feeds 1       # links in any order, each once
//! ```

use crate::fault::Fault;
use crate::line::{self, Line};
use crate::register::{Link, Register, MOST_ITEMS, MOST_LINKS};
use crate::words::{List, Words};

/// The register that a text says.
pub fn parse(text: &str) -> Result<Register, Fault> {
    let (lines, last) = line::body(text, "register")?;
    let mut words = Words::default();
    let mut items = Items {
        words: List::new("item", MOST_ITEMS as u16 - 1),
        names: Vec::new(),
    };
    let mut links = Vec::new();
    for line in lines {
        if line.depth != 0 {
            return Err(line.fault("nothing is indented in a register"));
        }
        if words.take(&line)? {
            continue;
        }
        match line.first() {
            ("item", _) => items.take(&line, &words)?,
            ("link", rest) => links.push((line, rest)),
            (first, _) => {
                let what = format!("a line begins with name, role, item or link, not '{first}'");
                return Err(line.fault(what));
            }
        }
    }
    if items.names.is_empty() {
        return Err(Fault::line(last, "a register has at least one item"));
    }
    // An item may stand below a link to it, so links are looked at last.
    let links = rising(&links, &items, &words)?;
    Ok(Register {
        names: items.names,
        links,
    })
}

/// The items so far, and the words for them.
struct Items {
    words: List,
    names: Vec<u64>,
}

impl Items {
    /// Takes `item NUMBER [WORD]: NAMES`.
    fn take(&mut self, line: &Line<'_>, words: &Words) -> Result<(), Fault> {
        let (head, names) = line.halves()?;
        let parts: Vec<&str> = head.split_whitespace().skip(1).collect();
        let (number, word) = match parts[..] {
            [number] => (number, None),
            [number, word] => (number, Some(word)),
            _ => return Err(line.fault("an item is 'item NUMBER [WORD]: NAMES'")),
        };
        let number = self.words.number(number).map_err(|what| line.fault(what))?;
        let next = self.names.len();
        if usize::from(number) != next {
            return Err(line.fault(format!("item {next} comes next, not {number}")));
        }
        if let Some(word) = word {
            self.words
                .declare(number, word)
                .map_err(|what| line.fault(what))?;
        }
        self.names.push(words.set(line, names)?);
        Ok(())
    }

    /// An item of this register, by number or word.
    fn resolve(&self, said: &str) -> Result<u16, String> {
        let number = self.words.resolve(said)?;
        let items = self.names.len();
        if usize::from(number) >= items {
            return Err(format!(
                "there is no item {number}; the last is {}",
                items - 1
            ));
        }
        Ok(number)
    }
}

/// The links in the order of the image, each of them once.
fn rising(said: &[(Line<'_>, &str)], items: &Items, words: &Words) -> Result<Vec<Link>, Fault> {
    let mut links: Vec<(Link, Line<'_>)> = Vec::new();
    for (line, rest) in said {
        let link = link(rest, items, words).map_err(|what| line.fault(what))?;
        links.push((link, *line));
    }
    if let Some((line, _)) = said.get(MOST_LINKS) {
        return Err(line.fault(format!("a register has at most {MOST_LINKS} links")));
    }
    links.sort_by_key(|(link, line)| (*link, line.number));
    for two in links.windows(2) {
        if two[0].0 == two[1].0 {
            let before = two[0].1.number;
            return Err(two[1]
                .1
                .fault(format!("this link stands on line {before} already")));
        }
    }
    Ok(links.into_iter().map(|(link, _)| link).collect())
}

fn link(said: &str, items: &Items, words: &Words) -> Result<Link, String> {
    let parts: Vec<&str> = said.split_whitespace().collect();
    let [from, role, to] = parts[..] else {
        return Err("a link is 'link ITEM ROLE ITEM'".to_string());
    };
    let from = items.resolve(from)?;
    let role = words.roles.resolve(role)? as u8;
    Ok((from, role, items.resolve(to)?))
}

/// The text of a register, with the words given.
pub fn print(register: &Register, words: &Words) -> String {
    let mut text = format!("register\n{}", words.declarations());
    for (item, names) in register.names.iter().enumerate() {
        text.push_str(&format!("item {item}:{}\n", words.shown_set(*names)));
    }
    for (from, role, to) in &register.links {
        let role = words.roles.shown(u16::from(*role));
        text.push_str(&format!("link {from} {role} {to}\n"));
    }
    text
}
