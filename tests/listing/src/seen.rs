//! What kinds of listing were met, so that none is left out unnoticed.

use std::collections::BTreeMap;

/// Every kind that is to be met.
fn wanted() -> Vec<String> {
    let refusals = |side: &str, numbers: &[u32]| -> Vec<String> {
        numbers
            .iter()
            .map(|number| format!("{side} refused {number}"))
            .collect()
    };
    let mut kinds = refusals("register", &[1, 2, 3, 4, 5, 6, 7, 8]);
    let of_requirements = [1, 2, 3, 7, 8, 9, 10, 11, 12, 13, 14, 23, 24, 25];
    kinds.extend(refusals("requirement", &of_requirements));
    let lists = [
        "degrees",
        "yes",
        "no",
        "withdrawn beside degrees",
        "withdrawn beside yes or no",
    ];
    for other in lists.into_iter().chain(["input too long"]) {
        kinds.push(other.to_string());
    }
    kinds
}

/// The kinds of one listing.
fn kinds_of(text: &str) -> Vec<String> {
    let has = |field: &str| {
        text.lines()
            .any(|line| line.split(' ').nth(1) == Some(field))
    };
    match text.split_once(" at ") {
        Some((refusal, _)) => vec![refusal.to_string()],
        None if text.starts_with("item degree") => {
            let mut kinds = vec!["degrees".to_string()];
            if has("withdrawn") {
                kinds.push("withdrawn beside degrees".to_string());
            }
            kinds
        }
        None if text.starts_with("item member") => [
            ("yes", "yes"),
            ("no", "no"),
            ("withdrawn", "withdrawn beside yes or no"),
        ]
        .iter()
        .filter(|(field, _)| has(field))
        .map(|(_, kind)| kind.to_string())
        .collect(),
        None => vec![text.trim_end().to_string()],
    }
}

#[derive(Default)]
pub struct Seen {
    pub inputs: u64,
    kinds: BTreeMap<String, u64>,
}

impl Seen {
    pub fn count(&mut self, listing: &[u8]) {
        self.inputs += 1;
        for kind in kinds_of(&String::from_utf8_lossy(listing)) {
            *self.kinds.entry(kind).or_insert(0) += 1;
        }
    }

    /// Every kind was met, and no other.
    pub fn complete(&self) -> Result<(), String> {
        let wanted = wanted();
        if let Some(missing) = wanted.iter().find(|kind| !self.kinds.contains_key(*kind)) {
            return Err(format!("no input gave '{missing}'"));
        }
        match self.kinds.keys().find(|kind| !wanted.contains(kind)) {
            Some(other) => Err(format!("some input gave '{other}'")),
            None => Ok(()),
        }
    }

    pub fn told(&self) -> String {
        let kinds: Vec<String> = self
            .kinds
            .iter()
            .map(|(kind, count)| format!("{kind}: {count}"))
            .collect();
        kinds.join(", ")
    }
}
