//! The register and the requirement that README.md shows, and their listing.

use std::path::Path;

use svelgandur_text::{register_text, requirement_text};

/// The indented blocks of the file, without their indentation.
fn blocks() -> Vec<String> {
    let path = Path::new(env!("CARGO_MANIFEST_DIR")).join("../../README.md");
    let text = std::fs::read_to_string(path).unwrap();
    let mut blocks = vec![String::new()];
    for line in text.lines() {
        match line.strip_prefix("    ") {
            Some(code) => {
                let block = blocks.last_mut().unwrap();
                block.push_str(code);
                block.push('\n');
            }
            None => blocks.push(String::new()),
        }
    }
    blocks
}

/// The block that begins with this line.
fn block(first: &str) -> String {
    let found = blocks()
        .into_iter()
        .find(|block| block.starts_with(&format!("{first}\n")));
    found.unwrap_or_else(|| panic!("README.md shows no block '{first}'"))
}

#[test]
fn what_the_readme_shows() {
    let register = register_text::parse(&block("register")).unwrap();
    let requirement = requirement_text::parse(&block("requirement")).unwrap();
    let input = [register.to_bytes(), requirement.to_bytes()].concat();
    let listing = second::listing::listing(&input);
    assert_eq!(String::from_utf8_lossy(&listing), block("item degree map"));
}
