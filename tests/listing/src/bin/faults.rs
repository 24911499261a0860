//! `faults PROGRAM`: runs the listing program where its input cannot be read or
//! its output cannot be written. Each time it must say so in one line on
//! standard error that gives the reason, and what it wrote until then must be
//! the listing's first bytes. It stops at the first fault that goes unsaid.

use std::fs::File;
use std::io::Write;
use std::os::unix::process::ExitStatusExt;
use std::path::{Path, PathBuf};
use std::process::{Command, ExitCode, Output, Stdio};

use second::gen::edges::Q1;
use second::gen::{largest_register, Palette, Rng};
use second::listing::listing;
use second::register;

fn main() -> ExitCode {
    let arguments: Vec<String> = std::env::args().skip(1).collect();
    let [program] = &arguments[..] else {
        eprintln!("usage: faults PROGRAM");
        return ExitCode::from(2);
    };
    match all(program) {
        Ok(tried) => {
            println!("faults: {tried} ways to fail, each said");
            ExitCode::SUCCESS
        }
        Err(fault) => {
            eprintln!("faults: {fault}");
            ExitCode::FAILURE
        }
    }
}

/// A way to fail: what the shell does before it becomes the program, and the
/// line that the program must say; none where a signal must end it.
struct Way {
    before: &'static str,
    says: Option<&'static str>,
}

const OUTPUT: [Way; 5] = [
    Way {
        before: "exec \"$0\" > /dev/full",
        says: Some("list: standard output: No space left on device\n"),
    },
    Way {
        before: "exec \"$0\" >&-",
        says: Some("list: standard output: Bad file descriptor\n"),
    },
    Way {
        before: "exec \"$0\" 1< /dev/null",
        says: Some("list: standard output: Bad file descriptor\n"),
    },
    Way {
        before: "trap '' XFSZ; ulimit -f 1; exec \"$0\" > \"$1\"",
        says: Some("list: standard output: File too large\n"),
    },
    Way {
        before: "ulimit -f 1; exec \"$0\" > \"$1\"",
        says: None,
    },
];

const INPUT: [Way; 3] = [
    Way {
        before: "exec \"$0\" < /",
        says: Some("list: standard input: Is a directory\n"),
    },
    Way {
        before: "exec \"$0\" <&-",
        says: Some("list: standard input: Bad file descriptor\n"),
    },
    Way {
        before: "exec \"$0\" 0> /dev/null",
        says: Some("list: standard input: Bad file descriptor\n"),
    },
];

/// What the program meets where nobody reads its output any more. The kit has
/// every program pass over that signal, as Rust does, so it says its line
/// whether the shell had it do so before or not.
const READER_GONE: [Way; 2] = [
    Way {
        before: "trap '' PIPE; exec \"$0\"",
        says: Some("list: standard output: Broken pipe\n"),
    },
    Way {
        before: "exec \"$0\"",
        says: Some("list: standard output: Broken pipe\n"),
    },
];

fn all(program: &str) -> Result<usize, String> {
    let mut rng = Rng::new(1);
    let palette = Palette::any(&mut rng);
    let large = register::encode(&largest_register(&mut rng, &palette));
    let input = [&large[..], &Q1].concat();
    let wanted = listing(&input);
    if wanted.len() < 4096 {
        return Err("the listing is too short to fail half-way".to_string());
    }
    let folder = std::env::temp_dir();
    let taken = folder.join(format!("faults-input-{}", std::process::id()));
    let written = folder.join(format!("faults-output-{}", std::process::id()));
    std::fs::write(&taken, &input).map_err(|error| error.to_string())?;
    let done = tried(program, &taken, &written, &wanted);
    // Nothing depends on whether the names could be taken away.
    let _ = std::fs::remove_file(&taken);
    let _ = std::fs::remove_file(&written);
    done
}

fn tried(program: &str, taken: &Path, written: &Path, wanted: &[u8]) -> Result<usize, String> {
    for way in &OUTPUT {
        let _ = std::fs::remove_file(written);
        let output = run(program, way, taken, written)?;
        said(way, &output)?;
        let half = std::fs::read(written).unwrap_or_default();
        if !output.stdout.is_empty() || !wanted.starts_with(&half) || half == wanted {
            return Err(format!("{}: it wrote what it should not", way.before));
        }
    }
    for way in &INPUT {
        let output = run(program, way, taken, written)?;
        said(way, &output)?;
        if !output.stdout.is_empty() {
            return Err(format!("{}: it printed a listing", way.before));
        }
    }
    for way in &READER_GONE {
        said(way, &left(program, way, taken)?)?;
    }
    Ok(OUTPUT.len() + INPUT.len() + READER_GONE.len())
}

fn run(program: &str, way: &Way, taken: &Path, written: &Path) -> Result<Output, String> {
    let input = File::open(taken).map_err(|error| error.to_string())?;
    Command::new("sh")
        .arg("-c")
        .arg(way.before)
        .arg(program)
        .arg(PathBuf::from(written))
        .stdin(Stdio::from(input))
        .output()
        .map_err(|error| format!("{}: {error}", way.before))
}

/// It said its line, or was ended by a signal where that is wanted.
fn said(way: &Way, output: &Output) -> Result<(), String> {
    let heard = String::from_utf8_lossy(&output.stderr);
    let good = match way.says {
        Some(line) => heard == line && output.status.success(),
        None => output.status.signal().is_some(),
    };
    match good {
        true => Ok(()),
        false => Err(format!("{}: {} and {heard:?}", way.before, output.status)),
    }
}

/// A reader that leaves before the program has its input.
fn left(program: &str, way: &Way, taken: &Path) -> Result<Output, String> {
    let input = std::fs::read(taken).map_err(|error| error.to_string())?;
    let mut child = Command::new("sh")
        .arg("-c")
        .arg(way.before)
        .arg(program)
        .stdin(Stdio::piped())
        .stdout(Stdio::piped())
        .stderr(Stdio::piped())
        .spawn()
        .map_err(|error| format!("{}: {error}", way.before))?;
    drop(child.stdout.take());
    if let Some(mut stdin) = child.stdin.take() {
        stdin.write_all(&input).map_err(|error| error.to_string())?;
    }
    child.wait_with_output().map_err(|error| error.to_string())
}
