//! The command itself: its arguments, its streams and its exit codes.

use std::io::Write;
use std::path::{Path, PathBuf};
use std::process::{Command, Output, Stdio};

use second::gen::edges::{Q1, R1};

fn run(arguments: &[&str], input: &[u8]) -> Output {
    let mut child = Command::new(env!("CARGO_BIN_EXE_svelgandur-text"))
        .args(arguments)
        .stdin(Stdio::piped())
        .stdout(Stdio::piped())
        .stderr(Stdio::piped())
        .spawn()
        .unwrap();
    // A command that refuses its arguments reads nothing.
    let _ = child.stdin.take().unwrap().write_all(input);
    child.wait_with_output().unwrap()
}

fn example(name: &str) -> PathBuf {
    Path::new(env!("CARGO_MANIFEST_DIR"))
        .join("../../examples")
        .join(name)
}

#[test]
fn the_sheet_both_ways() {
    let text = "register\nitem 0: 1 3\nitem 1: 1\nitem 2: 2\nlink 0 0 1\nlink 0 1 2\n";
    let printed = run(&["register", "to-text"], &R1);
    assert!(printed.status.success());
    assert_eq!(String::from_utf8_lossy(&printed.stdout), text);
    assert_eq!(run(&["register", "to-bytes"], text.as_bytes()).stdout, R1);
    let text = "requirement\nroot: 1 2\n  0: 1\n";
    let printed = run(&["requirement", "to-text"], &Q1);
    assert_eq!(String::from_utf8_lossy(&printed.stdout), text);
    assert_eq!(
        run(&["requirement", "to-bytes"], text.as_bytes()).stdout,
        Q1
    );
}

#[test]
fn files_and_words() {
    let words = example("house.register.txt");
    let file = example("doubled.requirement");
    let arguments = [
        "requirement",
        "to-text",
        "--words",
        words.to_str().unwrap(),
        file.to_str().unwrap(),
    ];
    let printed = String::from_utf8(run(&arguments, &[]).stdout).unwrap();
    assert!(printed.ends_with("root:\n  feeds: output\n  feeds: output timecode\n"));
    let bytes = run(&["requirement", "to-bytes"], printed.as_bytes()).stdout;
    assert_eq!(bytes, std::fs::read(&file).unwrap());
}

#[test]
fn faults() {
    let cases: [(&[&str], &[u8], i32, &str); 6] = [
        (
            &["register", "to-bytes"],
            b"register\nitem 1:\n",
            1,
            "svelgandur-text: standard input: line 2: item 0 comes next, not 1\n",
        ),
        (
            &["register", "to-bytes"],
            b"register\n\xff\n",
            1,
            "svelgandur-text: standard input: line 2: this is not text\n",
        ),
        (
            &["register", "to-text"],
            &[1, 0],
            1,
            "svelgandur-text: standard input: byte 0: the 3 bytes of the head are not there\n",
        ),
        (
            &["requirement", "to-text"],
            &R1,
            1,
            "svelgandur-text: standard input: byte 36: cut short: the names of a node\n",
        ),
        (
            &["requirement", "to-text", "no-such-file"],
            &[],
            1,
            "svelgandur-text: no-such-file: No such file or directory (os error 2)\n",
        ),
        (
            &["requirement", "to-text", "--words", "no-such-file"],
            &[],
            1,
            "svelgandur-text: no-such-file: No such file or directory (os error 2)\n",
        ),
    ];
    for (arguments, input, code, wanted) in cases {
        let output = run(arguments, input);
        assert_eq!(String::from_utf8_lossy(&output.stderr), wanted);
        assert_eq!(output.status.code(), Some(code));
        assert!(output.stdout.is_empty());
    }
}

#[test]
fn usage() {
    let wrong: [&[&str]; 7] = [
        &[],
        &["register"],
        &["graph", "to-text"],
        &["register", "to-word"],
        &["register", "to-bytes", "--words", "file"],
        &["register", "to-text", "--words"],
        &["register", "to-text", "one", "two"],
    ];
    for arguments in wrong {
        let output = run(arguments, &[]);
        assert_eq!(output.status.code(), Some(2), "{arguments:?}");
        assert!(String::from_utf8_lossy(&output.stderr).starts_with("usage: svelgandur-text"));
    }
}
