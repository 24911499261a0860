//! Running the program on one input, however the input comes.

use std::fs::File;
use std::io::{self, ErrorKind, Read, Write};
use std::path::PathBuf;
use std::process::{Child, ChildStdin, Command, Stdio};
use std::thread;
use std::time::Duration;

pub struct Program {
    pub path: PathBuf,
}

/// The stack that the program is given, in KiB.
pub const STACK: usize = 192;

/// How the input comes.
#[derive(Clone, Copy, PartialEq, Eq, Debug)]
pub enum Comes {
    /// Through a pipe, as fast as it is taken.
    AtOnce,
    /// Through a pipe, in pieces of so many bytes with a pause before each and
    /// before the end.
    InPieces(usize, Duration),
    /// As a file.
    FromFile,
}

impl Program {
    /// What the program prints. It must end by itself, with success, and say
    /// nothing on standard error.
    pub fn printed(&self, input: &[u8], comes: Comes) -> Result<Vec<u8>, String> {
        let file = match comes {
            Comes::FromFile => Some(written(input)?),
            _ => None,
        };
        let mut child = self.started(file)?;
        let stdin = child.stdin.take();
        let output = thread::scope(|scope| {
            // A thread of its own, so that neither side waits for the other.
            let writer = scope.spawn(|| match stdin {
                Some(stdin) => fed(stdin, input, comes),
                None => Ok(()),
            });
            let output = child
                .wait_with_output()
                .map_err(|error| format!("waiting: {error}"))?;
            match writer.join() {
                Ok(Ok(())) => Ok(output),
                Ok(Err(error)) => Err(format!("writing its input: {error}")),
                Err(_) => Err("writing its input".to_string()),
            }
        })?;
        if !output.status.success() {
            return Err(format!("it ended with {}", output.status));
        }
        if !output.stderr.is_empty() {
            let said = String::from_utf8_lossy(&output.stderr).into_owned();
            return Err(format!("it said on standard error: {said}"));
        }
        Ok(output.stdout)
    }

    fn started(&self, file: Option<File>) -> Result<Child, String> {
        Command::new("sh")
            .arg("-c")
            .arg(format!("ulimit -s {STACK} && exec \"$0\""))
            .arg(&self.path)
            .stdin(file.map_or_else(Stdio::piped, Stdio::from))
            .stdout(Stdio::piped())
            .stderr(Stdio::piped())
            .spawn()
            .map_err(|error| format!("{}: {error}", self.path.display()))
    }
}

/// Writes the input and closes the pipe. A program that knows its answer may
/// end before it has taken all.
fn fed(mut stdin: ChildStdin, input: &[u8], comes: Comes) -> io::Result<()> {
    let written = match comes {
        Comes::InPieces(length, pause) => input.chunks(length).try_for_each(|piece| {
            thread::sleep(pause);
            stdin.write_all(piece)
        }),
        _ => stdin.write_all(input),
    };
    if let Comes::InPieces(_, pause) = comes {
        thread::sleep(pause);
    }
    match written {
        Err(error) if error.kind() == ErrorKind::BrokenPipe => Ok(()),
        other => other,
    }
}

/// The input as a file, opened for reading and already without a name.
fn written(input: &[u8]) -> Result<File, String> {
    let path = std::env::temp_dir().join(format!("listing-input-{}", std::process::id()));
    let file = std::fs::write(&path, input)
        .and_then(|()| File::open(&path))
        .map_err(|error| format!("{}: {error}", path.display()));
    // Nothing depends on whether the name could be taken away.
    let _ = std::fs::remove_file(&path);
    file
}

/// All bytes of a file.
pub fn read(path: &std::path::Path) -> Result<Vec<u8>, String> {
    let mut bytes = Vec::new();
    File::open(path)
        .and_then(|mut file| file.read_to_end(&mut bytes))
        .map_err(|error| format!("{}: {error}", path.display()))?;
    Ok(bytes)
}
