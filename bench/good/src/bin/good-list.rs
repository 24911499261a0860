//! The yardstick as a listing program: standard input to its listing.

use std::fs::File;
use std::io::{self, Read};
use std::mem::ManuallyDrop;
use std::os::fd::FromRawFd;

use good::listing::{listing, MOST_INPUT};

fn main() -> io::Result<()> {
    let mut input = [0; MOST_INPUT + 1];
    let mut length = 0;
    let mut from = io::stdin().lock();
    while length < input.len() {
        match from.read(&mut input[length..])? {
            0 => break,
            more => length += more,
        }
    }
    // What is left over is read, so that who writes it can end.
    if length == input.len() {
        io::copy(&mut from, &mut io::sink())?;
    }
    // SAFETY: descriptor 1 stays open, and nobody else writes to it here.
    let mut out = ManuallyDrop::new(unsafe { File::from_raw_fd(1) });
    listing(&input[..length], &mut *out)
}
