//! Each file of examples/: its text says its bytes, and its bytes are turned
//! to text and back.

use std::fs;
use std::path::{Path, PathBuf};

use svelgandur_text::{register_text, requirement_text, Fault, Register, Requirement, Words};

fn folder() -> PathBuf {
    Path::new(env!("CARGO_MANIFEST_DIR")).join("../../examples")
}

/// The byte files with this ending, each with its bytes and its text.
fn pairs(ending: &str) -> Vec<(String, Vec<u8>, String)> {
    let mut list = Vec::new();
    for entry in fs::read_dir(folder()).unwrap() {
        let path = entry.unwrap().path();
        let name = path.file_name().unwrap().to_str().unwrap().to_string();
        if name.ends_with(ending) {
            let text = fs::read_to_string(folder().join(format!("{name}.txt"))).unwrap();
            list.push((name, fs::read(&path).unwrap(), text));
        }
    }
    list
}

fn register_bytes(text: &str) -> Result<Vec<u8>, Fault> {
    Ok(register_text::parse(text)?.to_bytes())
}

fn requirement_bytes(text: &str) -> Result<Vec<u8>, Fault> {
    Ok(requirement_text::parse(text)?.to_bytes())
}

#[test]
fn the_text_says_the_bytes() {
    let registers = pairs(".register");
    let requirements = pairs(".requirement");
    assert_eq!((registers.len(), requirements.len()), (2, 5));
    for (name, bytes, text) in registers {
        assert_eq!(register_bytes(&text).unwrap(), bytes, "{name}");
    }
    for (name, bytes, text) in requirements {
        assert_eq!(requirement_bytes(&text).unwrap(), bytes, "{name}");
    }
}

#[test]
fn every_text_file_has_its_bytes() {
    for entry in fs::read_dir(folder()).unwrap() {
        let path = entry.unwrap().path();
        if path.extension().is_some_and(|ending| ending == "txt") {
            assert!(path.with_extension("").exists(), "{}", path.display());
        }
    }
}

#[test]
fn the_bytes_come_back() {
    let mut words = vec![Words::default()];
    for (_, bytes, text) in pairs(".register") {
        words.push(Words::of(&text).unwrap());
        for words in &words {
            let register = Register::from_bytes(&bytes).unwrap();
            let printed = register_text::print(&register, words);
            assert_eq!(register_bytes(&printed).unwrap(), bytes);
        }
    }
    for (name, bytes, _) in pairs(".requirement") {
        for words in &words {
            let requirement = Requirement::from_bytes(&bytes).unwrap();
            let printed = requirement_text::print(&requirement, words);
            assert_eq!(requirement_bytes(&printed).unwrap(), bytes, "{name}");
        }
    }
}

/// Each text declares its own words: one word is one number throughout.
#[test]
fn the_words_agree() {
    let text = fs::read_to_string(folder().join("house.register.txt")).unwrap();
    let house = Words::of(&text).unwrap();
    for (name, _, text) in pairs(".requirement").into_iter().chain(pairs(".register")) {
        let words = Words::of(&text).unwrap();
        for (number, word) in words.names.declared() {
            assert_eq!(house.names.resolve(word), Ok(*number), "{name}");
        }
        for (number, word) in words.roles.declared() {
            assert_eq!(house.roles.resolve(word), Ok(*number), "{name}");
        }
    }
}
