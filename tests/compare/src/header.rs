//! The header declares exactly the calls that are made here.

use std::fs;
use std::path::Path;

/// Holds the header to the declarations, whatever its line breaks.
pub fn declares(wanted: &[&str]) -> Result<(), String> {
    let path = Path::new(env!("CARGO_MANIFEST_DIR")).join("../../include/svelgandur.h");
    let text = fs::read_to_string(&path).map_err(|error| format!("the header: {error}"))?;
    let found: Vec<String> = uncommented(&text)
        .split(';')
        .filter_map(|part| {
            part.find("void svelgandur_")
                .map(|at| one_line(&part[at..]))
        })
        .collect();
    let wanted: Vec<String> = wanted.iter().map(|one| one_line(one)).collect();
    if found == wanted {
        return Ok(());
    }
    Err(format!(
        "the header declares\n  {}\nand the calls are\n  {}",
        found.join("\n  "),
        wanted.join("\n  ")
    ))
}

fn uncommented(text: &str) -> String {
    let mut kept = String::new();
    let mut rest = text;
    while let Some(at) = rest.find("/*") {
        kept.push_str(&rest[..at]);
        rest = rest[at..]
            .find("*/")
            .map_or("", |end| &rest[at + end + 2..]);
    }
    kept + rest
}

fn one_line(text: &str) -> String {
    text.split_whitespace().collect::<Vec<_>>().join(" ")
}
