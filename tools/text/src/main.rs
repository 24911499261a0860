//! `svelgandur-text KIND to-bytes [FILE]`, `svelgandur-text KIND to-text [--words FILE] [FILE]`
//!
//! KIND is `register` or `requirement`. Reads FILE or standard input, writes
//! standard output. `--words` takes the words for names and roles from another
//! text, which may be the register's.

use std::fs;
use std::io::{self, Read, Write};
use std::process::ExitCode;

use svelgandur_text::{register_text, requirement_text, Fault, Register, Requirement, Words};

const USAGE: &str = "usage: svelgandur-text register|requirement to-bytes [FILE]
       svelgandur-text register|requirement to-text [--words FILE] [FILE]";

enum Kind {
    Register,
    Requirement,
}

enum Turn {
    ToBytes,
    ToText(Option<String>),
}

fn main() -> ExitCode {
    let arguments: Vec<String> = std::env::args().skip(1).collect();
    let Some((kind, turn, file)) = asked(&arguments) else {
        eprintln!("{USAGE}");
        return ExitCode::from(2);
    };
    match turned(&kind, &turn, file.as_deref()) {
        Ok(()) => ExitCode::SUCCESS,
        Err(what) => {
            eprintln!("svelgandur-text: {what}");
            ExitCode::FAILURE
        }
    }
}

/// What the arguments ask for.
fn asked(arguments: &[String]) -> Option<(Kind, Turn, Option<String>)> {
    let kind = match arguments.first()?.as_str() {
        "register" => Kind::Register,
        "requirement" => Kind::Requirement,
        _ => return None,
    };
    let rest = &arguments[2.min(arguments.len())..];
    let (turn, rest) = match (arguments.get(1)?.as_str(), rest) {
        ("to-bytes", rest) => (Turn::ToBytes, rest),
        ("to-text", [flag, words, rest @ ..]) if flag == "--words" => {
            (Turn::ToText(Some(words.clone())), rest)
        }
        ("to-text", rest) => (Turn::ToText(None), rest),
        _ => return None,
    };
    match rest {
        [] => Some((kind, turn, None)),
        [file] if !file.starts_with("--") => Some((kind, turn, Some(file.clone()))),
        _ => None,
    }
}

fn turned(kind: &Kind, turn: &Turn, file: Option<&str>) -> Result<(), String> {
    let input = read(file)?;
    let shown = file.unwrap_or("standard input");
    let output = match turn {
        Turn::ToBytes => bytes(kind, &text_of(&input, shown)?),
        Turn::ToText(words) => {
            let words = match words {
                Some(file) => {
                    let text = text_of(&read(Some(file))?, file)?;
                    Words::of(&text).map_err(|fault| format!("{file}: {fault}"))?
                }
                None => Words::default(),
            };
            text(kind, &input, &words).map(String::into_bytes)
        }
    };
    let output = output.map_err(|fault| format!("{shown}: {fault}"))?;
    io::stdout()
        .write_all(&output)
        .map_err(|error| format!("standard output: {error}"))
}

fn read(file: Option<&str>) -> Result<Vec<u8>, String> {
    let Some(file) = file else {
        let mut input = Vec::new();
        io::stdin()
            .read_to_end(&mut input)
            .map_err(|error| format!("standard input: {error}"))?;
        return Ok(input);
    };
    fs::read(file).map_err(|error| format!("{file}: {error}"))
}

/// The input as text; where it is none, the line that is not.
fn text_of(input: &[u8], shown: &str) -> Result<String, String> {
    match std::str::from_utf8(input) {
        Ok(text) => Ok(text.to_string()),
        Err(error) => {
            let before = &input[..error.valid_up_to()];
            let line = before.iter().filter(|byte| **byte == b'\n').count() + 1;
            Err(format!(
                "{shown}: {}",
                Fault::line(line, "this is not text")
            ))
        }
    }
}

fn bytes(kind: &Kind, text: &str) -> Result<Vec<u8>, Fault> {
    match kind {
        Kind::Register => Ok(register_text::parse(text)?.to_bytes()),
        Kind::Requirement => Ok(requirement_text::parse(text)?.to_bytes()),
    }
}

fn text(kind: &Kind, bytes: &[u8], words: &Words) -> Result<String, Fault> {
    match kind {
        Kind::Register => Ok(register_text::print(&Register::from_bytes(bytes)?, words)),
        Kind::Requirement => {
            let requirement = Requirement::from_bytes(bytes)?;
            Ok(requirement_text::print(&requirement, words))
        }
    }
}
