//! What is wrong with a threshold is said in the words of the wrapper for Rust.
//! The two share no code: a sentence that is reworded on one side alone is
//! noticed here.

use svelgandur_text::requirement::{COMMON_FACTOR, NO_COMPARISON, P_ABOVE_Q, Q_OUT_OF_RANGE};
use svelgandur_text::{requirement_text, Requirement};

const WRAPPER: &str = include_str!("../../../bindings/rust/src/refusal.rs");

/// The library's number and its sentence.
const SENTENCES: [(u32, &str); 4] = [
    (13, NO_COMPARISON),
    (23, Q_OUT_OF_RANGE),
    (24, P_ABOVE_Q),
    (25, COMMON_FACTOR),
];

#[test]
fn the_sentences_are_the_wrappers() {
    for (number, sentence) in SENTENCES {
        let line = format!("{number} => \"{sentence}\",");
        assert!(WRAPPER.contains(&line), "not in the wrapper: {line}");
    }
}

#[test]
fn a_text_with_each_fault() {
    let said = [
        ("<< 1/2", format!("line 3: '<<': {NO_COMPARISON}")),
        (">= 1/0", format!("line 3: 1/0: {Q_OUT_OF_RANGE}")),
        (">= 3/2", format!("line 3: 3/2: {P_ABOVE_Q}")),
        (
            ">= 4/6",
            format!("line 3: 4/6: {COMMON_FACTOR} (2/3 is the same)"),
        ),
    ];
    for (threshold, wanted) in said {
        let text = format!("requirement\nroot:\n  {threshold}: 1\n");
        let fault = requirement_text::parse(&text).unwrap_err();
        assert_eq!(fault.to_string(), wanted);
    }
}

/// The root of a message stands at 3, its threshold at 13, p at 14 and q at 16.
#[test]
fn bytes_with_each_fault() {
    let said = [
        ([4, 0, 1, 0, 2], format!("byte 13: 4: {NO_COMPARISON}")),
        ([4, 0, 1, 0, 0], format!("byte 13: 4: {NO_COMPARISON}")),
        ([3, 0, 1, 0, 0], format!("byte 16: 1/0: {Q_OUT_OF_RANGE}")),
        ([3, 0, 3, 0, 2], format!("byte 14: 3/2: {P_ABOVE_Q}")),
        ([3, 0, 4, 0, 2], format!("byte 14: 4/2: {P_ABOVE_Q}")),
        (
            [3, 0, 4, 0, 6],
            format!("byte 14: 4/6: {COMMON_FACTOR} (2/3 is the same)"),
        ),
    ];
    for (threshold, wanted) in said {
        let node = [0, 0, 0, 0, 0, 0, 0, 0, 1, 0];
        let message = [&[1, 0, 15][..], &node, &threshold].concat();
        let fault = Requirement::from_bytes(&message).unwrap_err();
        assert_eq!(fault.to_string(), wanted);
    }
}
