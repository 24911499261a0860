//! Runs the proved library and the second program over the same inputs, and
//! stops at the first difference.
//!
//! `compare [SEED] [PART ..]`: all parts with the usual seed, or those named.
//! Each part counts what it met, and fails where a refusal that its calls can
//! give was never given.

use std::process::ExitCode;
use std::time::Instant;

use compare::part::{Part, Seen};
use compare::{header, library, PARTS};

const SEED: u64 = 1;

fn main() -> ExitCode {
    let mut seed = SEED;
    let mut named = Vec::new();
    for word in std::env::args().skip(1) {
        match word.parse() {
            Ok(number) => seed = number,
            Err(_) => named.push(word),
        }
    }
    if let Some(word) = named
        .iter()
        .find(|word| PARTS.iter().all(|part| part.name != **word))
    {
        eprintln!("compare: no part {word}");
        return ExitCode::FAILURE;
    }
    if let Err(fault) = header::declares(&library::DECLARATIONS) {
        eprintln!("compare: {fault}");
        return ExitCode::FAILURE;
    }
    let mut calls = 0;
    for part in &PARTS {
        if named.is_empty() || named.iter().any(|word| word == part.name) {
            match run(part, seed) {
                Ok(more) => calls += more,
                Err(fault) => {
                    eprintln!("compare: {}, seed {seed}: {fault}", part.name);
                    return ExitCode::FAILURE;
                }
            }
        }
    }
    println!("compare: {calls} calls, no difference");
    ExitCode::SUCCESS
}

/// Runs one part and says what it met.
fn run(part: &Part, seed: u64) -> Result<u64, String> {
    let began = Instant::now();
    let mut seen = Seen::default();
    (part.run)(&mut seen, seed).map_err(|difference| difference.to_string())?;
    let seconds = began.elapsed().as_secs_f64();
    println!(
        "compare: {}: {} calls, no difference ({seconds:.1} s)",
        part.name,
        seen.calls()
    );
    for call in part.calls {
        println!("  {}: {}", call.name, seen.told(call.name));
    }
    seen.complete(part.calls)?;
    Ok(seen.calls())
}
