//! A requirement's text.
//!
//! ```text
//! requirement
//! name 1 output              # words for names and roles, before their use
//! role 0 feeds
//! root: 3                    # the root, with its names
//!   >= 2/3: output           # a threshold: the inner concept's root stands here ..
//!     feeds: output          # .. and what is below it follows, one level in
//!   feeds: output            # a child, under its role
//!     1: 5                   # a child of that child
//! ```
//!
//! Two spaces to a level. Thresholds may stand among the children; in the
//! bytes they come first.

use crate::fault::Fault;
use crate::line::{self, Line};
use crate::requirement::{
    fraction, Bounds, Node, Requirement, Threshold, COMPARISONS, INSIDE, NO_COMPARISON,
};
use crate::words::Words;

/// The requirement that a text says.
pub fn parse(text: &str) -> Result<Requirement, Fault> {
    let (lines, last) = line::body(text, "requirement")?;
    let mut words = Words::default();
    let mut declarations = 0;
    for line in &lines {
        if !words.take(line)? {
            break;
        }
        declarations += 1;
    }
    let mut reader = Reader {
        words,
        lines: &lines[declarations..],
    };
    let root = match reader.next(0)? {
        Some(line) => line,
        None => return Err(Fault::line(last, "the line 'root: NAMES' is missing")),
    };
    let (head, names) = root.halves()?;
    if head != "root" {
        let what = format!("declarations, then 'root: NAMES'; not '{head}'");
        return Err(root.fault(what));
    }
    let root = reader.node(&root, names, &mut Bounds::new(false), 0)?;
    match reader.lines.first() {
        Some(line) => Err(line.fault("behind the root every line is indented")),
        None => Ok(Requirement { root }),
    }
}

/// The words, and the lines still to be read.
struct Reader<'a> {
    words: Words,
    lines: &'a [Line<'a>],
}

impl<'a> Reader<'a> {
    /// The next line, if it stands at this level.
    fn next(&mut self, level: usize) -> Result<Option<Line<'a>>, Fault> {
        match self.lines.first() {
            Some(line) if line.depth > level => Err(line.fault("indented too far")),
            Some(line) if line.depth == level => {
                self.lines = &self.lines[1..];
                Ok(Some(*line))
            }
            _ => Ok(None),
        }
    }

    /// The node whose names stand on this line, with all that is below it;
    /// `depth` is its depth in its own tree.
    fn node(
        &mut self,
        at: &Line<'a>,
        names: &str,
        bounds: &mut Bounds,
        depth: usize,
    ) -> Result<Node, Fault> {
        bounds.node(depth).map_err(|what| at.fault(what))?;
        let mut node = Node {
            names: self.words.set(at, names)?,
            thresholds: Vec::new(),
            children: Vec::new(),
        };
        while let Some(line) = self.next(at.depth + 1)? {
            let (head, names) = line.halves()?;
            if head.starts_with(['<', '>']) {
                let threshold = self.threshold(&line, head, names, bounds)?;
                node.thresholds.push(threshold);
            } else {
                let role = self
                    .words
                    .roles
                    .resolve(head)
                    .map_err(|what| line.fault(what))?;
                let child = self.node(&line, names, bounds, depth + 1)?;
                node.children.push((role as u8, child));
            }
        }
        Ok(node)
    }

    /// The threshold that this line begins.
    fn threshold(
        &mut self,
        line: &Line<'a>,
        head: &str,
        names: &str,
        bounds: &mut Bounds,
    ) -> Result<Threshold, Fault> {
        if bounds.inner {
            return Err(line.fault(INSIDE));
        }
        bounds.threshold().map_err(|what| line.fault(what))?;
        let (comparison, p, q) = comparison(head).map_err(|what| line.fault(what))?;
        let inner = self.node(line, names, &mut Bounds::new(true), 0)?;
        Ok(Threshold {
            comparison,
            p,
            q,
            inner,
        })
    }
}

/// Reads `>= 2/3`.
fn comparison(head: &str) -> Result<(u8, u16, u16), String> {
    let sign = head.trim_end_matches(|one| one != '<' && one != '>' && one != '=');
    let rest = head[sign.len()..].trim();
    let Some(comparison) = COMPARISONS.iter().position(|one| *one == sign) else {
        return Err(format!("'{sign}': {NO_COMPARISON}"));
    };
    let number = |digits: &str| -> Result<u64, String> {
        let digits = digits.trim();
        if digits.is_empty() || !digits.bytes().all(|byte| byte.is_ascii_digit()) {
            return Err(format!("'{rest}' is no fraction P/Q"));
        }
        // With more digits than a u64 has room for it is above every bound.
        Ok(digits.parse().unwrap_or(u64::MAX))
    };
    let Some((p, q)) = rest.split_once('/') else {
        return Err(format!("'{rest}' is no fraction P/Q (0 is 0/1, 1 is 1/1)"));
    };
    let (p, q) = fraction(number(p)?, number(q)?).map_err(|(_, what)| format!("{rest}: {what}"))?;
    Ok((comparison as u8, p, q))
}

/// The text of a requirement, with the words given.
pub fn print(requirement: &Requirement, words: &Words) -> String {
    let mut text = format!("requirement\n{}", words.declarations());
    put_node(&requirement.root, "root", 0, words, &mut text);
    text
}

fn put_node(node: &Node, head: &str, level: usize, words: &Words, text: &mut String) {
    let indent = "  ".repeat(level);
    let names = words.shown_set(node.names);
    text.push_str(&format!("{indent}{head}:{names}\n"));
    for threshold in &node.thresholds {
        let sign = COMPARISONS[usize::from(threshold.comparison)];
        let head = format!("{sign} {}/{}", threshold.p, threshold.q);
        put_node(&threshold.inner, &head, level + 1, words, text);
    }
    for (role, child) in &node.children {
        let head = words.roles.shown(u16::from(*role));
        put_node(child, &head, level + 1, words, text);
    }
}
