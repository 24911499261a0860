//! What is wrong with a text is said by its line.

use svelgandur_text::{register_text, requirement_text, Words};

fn register_fault(text: &str) -> String {
    register_text::parse(text).unwrap_err().to_string()
}

fn requirement_fault(text: &str) -> String {
    requirement_text::parse(text).unwrap_err().to_string()
}

#[test]
fn registers() {
    let cases = [
        ("", "line 1: the title 'register' is missing"),
        ("# only this\n\n", "line 2: the title 'register' is missing"),
        (
            "requirement\nroot:\n",
            "line 1: the title must be 'register', not 'requirement'",
        ),
        ("register\n", "line 1: a register has at least one item"),
        (
            "register\nitem 0\n",
            "line 2: a colon is missing before the names",
        ),
        (
            "register\nitem : 1\n",
            "line 2: an item is 'item NUMBER [WORD]: NAMES'",
        ),
        (
            "register\nitem 0 a b: 1\n",
            "line 2: an item is 'item NUMBER [WORD]: NAMES'",
        ),
        (
            "register\nitem board:\n",
            "line 2: 'board' is no item number",
        ),
        ("register\n\nitem 1:\n", "line 3: item 0 comes next, not 1"),
        (
            "register\nitem 0:\nitem 0:\n",
            "line 3: item 1 comes next, not 0",
        ),
        (
            "register\nitem 0 a:\nitem 1 a:\n",
            "line 3: 'a' is item 0 already",
        ),
        ("register\nitem 0: 64\n", "line 2: name 64 is above 63"),
        (
            "register\nitem 0: 99999999999999999999\n",
            "line 2: name 99999999999999999999 is above 63",
        ),
        (
            "register\nitem 0: 3 3\n",
            "line 2: the name '3' stands here already",
        ),
        (
            "register\nitem 0: clock\n",
            "line 2: no name is called 'clock'",
        ),
        (
            "register\nitem 0: clock\nname 0 clock\n",
            "line 2: no name is called 'clock'",
        ),
        (
            "register\nname 0 a\nname 1 a\n",
            "line 3: 'a' is name 0 already",
        ),
        (
            "register\nname 0 a\nname 0 b\n",
            "line 3: name 0 is 'a' already",
        ),
        (
            "register\nname 0 4x\n",
            "line 2: '4x' is no word: a letter, then letters, digits, '-' and '_'",
        ),
        ("register\nname 64 a\n", "line 2: name 64 is above 63"),
        (
            "register\nname 63 repair\n",
            "line 2: name 63 is 'withdrawn' already",
        ),
        (
            "register\nname 62 withdrawn\n",
            "line 2: 'withdrawn' is name 63 already",
        ),
        (
            "register\nitem 0: withdrawn 63\n",
            "line 2: the name '63' stands here already",
        ),
        ("register\nrole 32 a\n", "line 2: role 32 is above 31"),
        (
            "register\nrole feeds\n",
            "line 2: a declaration is 'role NUMBER WORD'",
        ),
        (
            "register\nitem 0:\n  item 1:\n",
            "line 3: nothing is indented in a register",
        ),
        ("register\n\titem 0:\n", "line 2: indent with spaces only"),
        (
            "register\nitem 0:\nboard 1:\n",
            "line 3: a line begins with name, role, item or link, not 'board'",
        ),
        (
            "register\nitem 0:\nlink 0 0\n",
            "line 3: a link is 'link ITEM ROLE ITEM'",
        ),
        (
            "register\nitem 0:\nlink 0 0 1\n",
            "line 3: there is no item 1; the last is 0",
        ),
        (
            "register\nitem 0:\nlink 0 32 0\n",
            "line 3: role 32 is above 31",
        ),
        (
            "register\nitem 0:\nlink 0 feeds 0\n",
            "line 3: no role is called 'feeds'",
        ),
        (
            "register\nitem 0:\nlink 0 0 b\n",
            "line 3: no item is called 'b'",
        ),
        (
            "register\nitem 0:\nlink 0 0 0\nlink 0 1 0\nlink 0 0 0\n",
            "line 5: this link stands on line 3 already",
        ),
    ];
    for (text, wanted) in cases {
        assert_eq!(register_fault(text), wanted, "{text}");
    }
}

#[test]
fn a_register_too_large() {
    let items =
        |count: usize| -> String { (0..count).map(|item| format!("item {item}:\n")).collect() };
    let full = format!("register\n{}", items(512));
    register_text::parse(&full).unwrap();
    assert_eq!(
        register_fault(&format!("register\n{}", items(513))),
        "line 514: item 512 is above 511"
    );
    let links: String = (0..4097)
        .map(|link| format!("link {} {} {}\n", link / 512, link % 8, link / 8 % 512))
        .collect();
    let (most, _) = links.trim_end().rsplit_once('\n').unwrap();
    register_text::parse(&format!("{full}{most}\n")).unwrap();
    assert_eq!(
        register_fault(&format!("{full}{links}")),
        "line 4610: a register has at most 4096 links"
    );
}

#[test]
fn requirements() {
    let cases = [
        ("", "line 1: the title 'requirement' is missing"),
        (
            "register\n",
            "line 1: the title must be 'requirement', not 'register'",
        ),
        (
            "requirement\nname 0 a\n",
            "line 2: the line 'root: NAMES' is missing",
        ),
        (
            "requirement\nroot\n",
            "line 2: a colon is missing before the names",
        ),
        (
            "requirement\nfeeds: 1\n",
            "line 2: declarations, then 'root: NAMES'; not 'feeds'",
        ),
        ("requirement\n  root:\n", "line 2: indented too far"),
        ("requirement\nroot:\n    0:\n", "line 3: indented too far"),
        (
            "requirement\nroot:\n   0:\n",
            "line 3: indented by 3 spaces; a level is 2",
        ),
        (
            "requirement\nroot:\n\t0:\n",
            "line 3: indent with spaces only",
        ),
        (
            "requirement\nroot:\n  0:\nroot:\n",
            "line 4: behind the root every line is indented",
        ),
        (
            "requirement\nroot:\nname 0 a\n",
            "line 3: behind the root every line is indented",
        ),
        ("requirement\nroot: a\n", "line 2: no name is called 'a'"),
        ("requirement\nroot:\n  32:\n", "line 3: role 32 is above 31"),
        (
            "requirement\nroot:\n  feeds:\n",
            "line 3: no role is called 'feeds'",
        ),
        (
            "requirement\nroot:\n  : 1\n",
            "line 3: no role is called ''",
        ),
        (
            "requirement\nroot:\n  => 1/2: 1\n",
            "line 3: no role is called '=> 1/2'",
        ),
        (
            "requirement\nroot:\n  >> 1/2: 1\n",
            "line 3: '>>': a threshold's comparison is none of <, <=, > and >=",
        ),
        (
            "requirement\nroot:\n  >> 4/0: 1\n",
            "line 3: '>>': a threshold's comparison is none of <, <=, > and >=",
        ),
        (
            "requirement\nroot:\n  >= 1: 1\n",
            "line 3: '1' is no fraction P/Q (0 is 0/1, 1 is 1/1)",
        ),
        (
            "requirement\nroot:\n  >= 0.5/1: 1\n",
            "line 3: '0.5/1' is no fraction P/Q",
        ),
        (
            "requirement\nroot:\n  > 1/2: 1\n    > 1/2: 1\n",
            "line 4: a threshold inside the concept of a threshold",
        ),
    ];
    for (text, wanted) in cases {
        assert_eq!(requirement_fault(text), wanted, "{text}");
    }
}

/// A bad fraction is shown as it is written; of two faults the first in the
/// document's order is said.
#[test]
fn fractions() {
    let q_at_fault = "a threshold's q is 0 or above 1,000";
    let p_at_fault = "a threshold's p is above its q";
    let common = "a threshold's p and q share a factor above 1";
    let cases = [
        ("1/0", q_at_fault, ""),
        ("0/0", q_at_fault, ""),
        ("1/1001", q_at_fault, ""),
        ("1002/1001", q_at_fault, ""),
        ("7/1001", q_at_fault, ""),
        ("1/65538", q_at_fault, ""),
        ("1/99999999999999999999", q_at_fault, ""),
        ("99999999999999999999/0", q_at_fault, ""),
        ("3/2", p_at_fault, ""),
        ("4/2", p_at_fault, ""),
        ("1001/1000", p_at_fault, ""),
        ("65537/2", p_at_fault, ""),
        ("99999999999999999999/1000", p_at_fault, ""),
        ("4/6", common, " (2/3 is the same)"),
        ("0/2", common, " (0/1 is the same)"),
        ("1000/1000", common, " (1/1 is the same)"),
        ("02 / 04", common, " (1/2 is the same)"),
    ];
    for (fraction, what, more) in cases {
        // The fraction comes before the names, and its line before the next.
        let text = format!("requirement\nroot:\n  >= {fraction}: 64\n    32:\n");
        let wanted = format!("line 3: {fraction}: {what}{more}");
        assert_eq!(requirement_fault(&text), wanted);
    }
}

#[test]
fn a_requirement_too_large() {
    let title = "requirement\nroot:\n";
    let chain = |depth: usize| -> String {
        (1..=depth)
            .map(|level| format!("{}0:\n", "  ".repeat(level)))
            .collect()
    };
    requirement_text::parse(&format!("{title}{}", chain(16))).unwrap();
    assert_eq!(
        requirement_fault(&format!("{title}{}", chain(17))),
        "line 19: a node at depth 17; 16 is the most"
    );
    let children = "  0:\n".repeat(63);
    requirement_text::parse(&format!("{title}{children}")).unwrap();
    assert_eq!(
        requirement_fault(&format!("{title}{children}  0:\n")),
        "line 66: more than 64 nodes"
    );
    // Depth and nodes are counted anew in an inner concept.
    let inner = format!("  >= 1/2: 1\n{}", chain(17).replacen("  0:\n", "", 1));
    requirement_text::parse(&format!("{title}{inner}{children}")).unwrap();
    let thresholds = "  > 0/1: 1\n".repeat(16);
    requirement_text::parse(&format!("{title}{thresholds}")).unwrap();
    assert_eq!(
        requirement_fault(&format!("{title}{thresholds}  >> 1/0: 1\n")),
        "line 19: more than 16 thresholds"
    );
}

#[test]
fn words_from_another_text() {
    let words = Words::of("register\nname 1 output\nitem 0: output\nrole 0 feeds\n").unwrap();
    assert_eq!(words.names.shown(1), "output");
    assert_eq!(words.names.shown(2), "2");
    assert_eq!(words.roles.resolve("feeds"), Ok(0));
    let fault = Words::of("name 1 a\n\nname 1 b\n").unwrap_err();
    assert_eq!(fault.to_string(), "line 3: name 1 is 'a' already");
}

/// Comments, empty lines, spaces and line ends of another system do not matter.
#[test]
fn what_does_not_matter() {
    let plain = "register\nname 1 output\nitem 0: output 3\nitem 1:\nlink 0 0 1\nlink 0 1 1\n";
    let other = "# A register.\n\nregister # this one\r\nname  1   output\n\nlink 0 1 1\n\
                 item 0 board :  3  output # two\n\nitem 1 : \nlink board 0 1";
    assert_eq!(
        register_text::parse(plain).unwrap(),
        register_text::parse(other).unwrap()
    );
    let plain = "requirement\nroot: 1\n  > 1/2: 2\n    0: 3\n  0: 4\n";
    let other = "requirement\n\nroot : 1 # all\n  0 :4\n\n  # between\n  >1/2:2\n    0: 3";
    assert_eq!(
        requirement_text::parse(plain).unwrap(),
        requirement_text::parse(other).unwrap()
    );
}
