//! Memory lent to the library between two pages that cannot be touched: what
//! a call reads or writes outside of it ends the program.
//!
//! Three times in four the lent memory ends where the page behind begins, and
//! once it begins where the page before ends. On its other side stand bytes
//! that must not change. What is lent for reading must not change either.

use std::cell::{Cell, OnceCell};
use std::ffi::c_void;
use std::ptr;

const PAGE: usize = 4096;
/// More than anything that is lent.
const ROOM: usize = 64 * PAGE;
/// Bytes on the other side, and what they hold.
const BESIDE: usize = 64;
const UNTOUCHED: u8 = 0xA7;

const NOTHING: i32 = 0;
const READ_AND_WRITE: i32 = 1 | 2;
const PRIVATE_AND_ANONYMOUS: i32 = 0x02 | 0x20;

extern "C" {
    fn mmap(at: *mut c_void, bytes: usize, may: i32, how: i32, file: i32, from: i64)
        -> *mut c_void;
    fn mprotect(at: *mut c_void, bytes: usize, may: i32) -> i32;
}

/// Pages between two that cannot be touched. They are not given back.
pub struct Pages {
    pub first: *mut u8,
    pub bytes: usize,
}

impl Pages {
    /// So many bytes, and what is missing to a whole page.
    pub fn new(bytes: usize) -> Pages {
        let bytes = bytes.next_multiple_of(PAGE);
        // SAFETY: fresh pages, of which all but the first and last are opened.
        unsafe {
            let all = mmap(
                ptr::null_mut(),
                bytes + 2 * PAGE,
                NOTHING,
                PRIVATE_AND_ANONYMOUS,
                -1,
                0,
            );
            let first = all.cast::<u8>().add(PAGE);
            assert_eq!(mprotect(first.cast(), bytes, READ_AND_WRITE), 0, "no pages");
            Pages { first, bytes }
        }
    }

    /// Where `bytes` bytes are lent, and where the untouched ones stand.
    fn place(&self, bytes: usize, at_the_end: bool) -> (*mut u8, *mut u8) {
        assert!(bytes + BESIDE <= self.bytes, "more than was thought of");
        // SAFETY: within the pages.
        unsafe {
            if at_the_end {
                let lent = self.first.add(self.bytes - bytes);
                (lent, lent.sub(BESIDE))
            } else {
                (self.first, self.first.add(bytes))
            }
        }
    }
}

/// A call is lent at most this many pieces of memory.
pub const PIECES: usize = 4;

thread_local! {
    static FENCED: [OnceCell<Pages>; PIECES] = const { [const { OnceCell::new() }; PIECES] };
    static TURN: Cell<u32> = const { Cell::new(0) };
}

fn at_the_end() -> bool {
    TURN.with(|turn| {
        turn.set(turn.get().wrapping_add(1));
        turn.get() % 4 != 0
    })
}

/// Lends a piece for reading.
pub fn shown<T: Copy + PartialEq, R>(piece: usize, data: &[T], call: impl FnOnce(&[T]) -> R) -> R {
    let (lent, beside) = filled(piece, data);
    // SAFETY: as many as were filled.
    let (result, same) = unsafe {
        let result = call(std::slice::from_raw_parts(lent, data.len()));
        (result, std::slice::from_raw_parts(lent, data.len()) == data)
    };
    assert!(same, "memory lent for reading was written");
    untouched(beside);
    result
}

/// Lends a piece for writing too.
pub fn lent<T: Copy, R>(piece: usize, data: &mut [T], call: impl FnOnce(&mut [T]) -> R) -> R {
    let (lent, beside) = filled(piece, data);
    // SAFETY: as many as were filled.
    let result = unsafe {
        let result = call(std::slice::from_raw_parts_mut(lent, data.len()));
        data.copy_from_slice(std::slice::from_raw_parts(lent, data.len()));
        result
    };
    untouched(beside);
    result
}

/// Puts the data where it is lent, and says where the untouched bytes stand.
fn filled<T: Copy>(piece: usize, data: &[T]) -> (*mut T, *const u8) {
    let bytes = size_of_val(data);
    let (lent, beside) = FENCED.with(|fenced| {
        let fenced = fenced[piece].get_or_init(|| Pages::new(ROOM));
        fenced.place(bytes, at_the_end())
    });
    // SAFETY: both places are within pages that nobody else uses, they do not
    // overlap, and pages end at a multiple of every alignment.
    unsafe {
        ptr::write_bytes(beside, UNTOUCHED, BESIDE);
        ptr::copy_nonoverlapping(data.as_ptr().cast(), lent, bytes);
    }
    (lent.cast(), beside)
}

fn untouched(beside: *const u8) {
    // SAFETY: filled with that many.
    let beside = unsafe { std::slice::from_raw_parts(beside, BESIDE) };
    assert!(
        beside.iter().all(|byte| *byte == UNTOUCHED),
        "memory beside what was lent was written"
    );
}
