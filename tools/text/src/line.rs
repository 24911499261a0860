//! The lines of a text: comments and empty lines off, depth counted.

use crate::fault::Fault;

/// Spaces for each level of depth.
const LEVEL: usize = 2;

#[derive(Clone, Copy, Debug)]
pub struct Line<'a> {
    /// From 1, as editors count.
    pub number: usize,
    pub depth: usize,
    /// Without indentation and comment, not empty.
    pub text: &'a str,
}

impl<'a> Line<'a> {
    pub fn fault(&self, what: impl Into<String>) -> Fault {
        Fault::line(self.number, what)
    }

    /// The first word, and what follows it.
    pub fn first(&self) -> (&'a str, &'a str) {
        match self.text.split_once(char::is_whitespace) {
            Some((first, rest)) => (first, rest.trim_start()),
            None => (self.text, ""),
        }
    }

    /// What stands before the colon, and after it.
    pub fn halves(&self) -> Result<(&'a str, &'a str), Fault> {
        match self.text.split_once(':') {
            Some((head, tail)) => Ok((head.trim(), tail.trim())),
            None => Err(self.fault("a colon is missing before the names")),
        }
    }
}

/// The lines behind the title, which is the word `kind` alone, with the number
/// of the last line for a fault that belongs to the end.
pub fn body<'a>(text: &'a str, kind: &str) -> Result<(Vec<Line<'a>>, usize), Fault> {
    let mut lines = all(text)?;
    let last = text.lines().count().max(1);
    let title = match lines.first() {
        Some(line) => *line,
        None => return Err(Fault::line(last, format!("the title '{kind}' is missing"))),
    };
    if title.text != kind || title.depth != 0 {
        let found = title.text;
        return Err(title.fault(format!("the title must be '{kind}', not '{found}'")));
    }
    lines.remove(0);
    Ok((lines, last))
}

/// Every line that says something.
pub fn all(text: &str) -> Result<Vec<Line<'_>>, Fault> {
    let mut lines = Vec::new();
    for (before, whole) in text.lines().enumerate() {
        let number = before + 1;
        let said = whole.split('#').next().unwrap_or("").trim_end();
        let text = said.trim_start();
        if text.is_empty() {
            continue;
        }
        let indent = &said[..said.len() - text.len()];
        if indent.contains(|one| one != ' ') {
            return Err(Fault::line(number, "indent with spaces only"));
        }
        if indent.len() % LEVEL != 0 {
            let what = format!("indented by {} spaces; a level is {LEVEL}", indent.len());
            return Err(Fault::line(number, what));
        }
        lines.push(Line {
            number,
            depth: indent.len() / LEVEL,
            text,
        });
    }
    Ok(lines)
}
