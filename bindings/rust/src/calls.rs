//! The calls of include/svelgandur.h, each with a safe function that lends it
//! slices. The four numbers that come back are as the header says.
//!
//! Why this is safe: a slice's pointer is never null and is good for the
//! length that goes with it; memory that a call writes is lent to it alone, as
//! `&mut`; a call keeps nothing and takes any number.

#![allow(unsafe_code)]

/// The kind, then three numbers that go with it.
pub type Answer = [u64; 4];

/// The kind of a refusal.
pub const REFUSED: u64 = 0;
/// The kind of a good answer, and of a yes.
pub const GOOD: u64 = 1;

extern "C" {
    fn svelgandur_read_register(image: *const u8, length: usize, session: u64, answer: *mut u64);
    fn svelgandur_read_requirement(message: *const u8, length: usize, answer: *mut u64);
    fn svelgandur_inner_part(message: *const u8, length: usize, k: u64, answer: *mut u64);
    fn svelgandur_write_requirement(
        nodes: *const u64,
        nodes_length: usize,
        thresholds: *const u64,
        thresholds_length: usize,
        inner: *const u64,
        inner_length: usize,
        message: *mut u8,
        message_length: usize,
        answer: *mut u64,
    );
    fn svelgandur_degree(
        image: *const u8,
        image_length: usize,
        message: *const u8,
        message_length: usize,
        item: u64,
        map: *mut u16,
        map_length: usize,
        answer: *mut u64,
    );
    fn svelgandur_margin(
        image: *const u8,
        image_length: usize,
        message: *const u8,
        message_length: usize,
        item: u64,
        p: u64,
        q: u64,
        answer: *mut u64,
    );
    fn svelgandur_member(
        image: *const u8,
        image_length: usize,
        message: *const u8,
        message_length: usize,
        item: u64,
        map: *mut u16,
        map_length: usize,
        answer: *mut u64,
    );
    fn svelgandur_list(
        image: *const u8,
        image_length: usize,
        message: *const u8,
        message_length: usize,
        table: *mut u32,
        table_length: usize,
        answer: *mut u64,
    );
    fn svelgandur_open(buffer: *mut u8, buffer_length: usize, answer: *mut u64);
    fn svelgandur_edit_name(
        buffer: *mut u8,
        buffer_length: usize,
        log: *mut u64,
        log_length: usize,
        count: u64,
        adds: u64,
        item: u64,
        name: u64,
        answer: *mut u64,
    );
    fn svelgandur_edit_link(
        buffer: *mut u8,
        buffer_length: usize,
        log: *mut u64,
        log_length: usize,
        count: u64,
        adds: u64,
        from: u64,
        role: u64,
        to: u64,
        answer: *mut u64,
    );
    fn svelgandur_undo(
        buffer: *mut u8,
        buffer_length: usize,
        log: *const u64,
        log_length: usize,
        count: u64,
        answer: *mut u64,
    );
    fn svelgandur_keep(
        buffer: *const u8,
        buffer_length: usize,
        log: *const u64,
        log_length: usize,
        count: u64,
        answer: *mut u64,
    );
}

/// Lends a call its four numbers.
fn answered(call: impl FnOnce(*mut u64)) -> Answer {
    let mut answer = [0; 4];
    call(answer.as_mut_ptr());
    answer
}

pub fn read_register(image: &[u8], session: bool) -> Answer {
    // SAFETY: each pointer goes with its own slice's length.
    answered(|answer| unsafe {
        svelgandur_read_register(image.as_ptr(), image.len(), session.into(), answer)
    })
}

pub fn read_requirement(message: &[u8]) -> Answer {
    // SAFETY: each pointer goes with its own slice's length.
    answered(|answer| unsafe {
        svelgandur_read_requirement(message.as_ptr(), message.len(), answer)
    })
}

pub fn inner_part(message: &[u8], k: u64) -> Answer {
    // SAFETY: each pointer goes with its own slice's length.
    answered(|answer| unsafe { svelgandur_inner_part(message.as_ptr(), message.len(), k, answer) })
}

pub fn write_requirement(
    nodes: &[u64],
    thresholds: &[u64],
    inner: &[u64],
    message: &mut [u8],
) -> Answer {
    // SAFETY: each pointer goes with its own slice's length.
    answered(|answer| unsafe {
        svelgandur_write_requirement(
            nodes.as_ptr(),
            nodes.len(),
            thresholds.as_ptr(),
            thresholds.len(),
            inner.as_ptr(),
            inner.len(),
            message.as_mut_ptr(),
            message.len(),
            answer,
        )
    })
}

pub fn degree(image: &[u8], message: &[u8], item: u64, map: &mut [u16]) -> Answer {
    // SAFETY: each pointer goes with its own slice's length.
    answered(|answer| unsafe {
        svelgandur_degree(
            image.as_ptr(),
            image.len(),
            message.as_ptr(),
            message.len(),
            item,
            map.as_mut_ptr(),
            map.len(),
            answer,
        )
    })
}

pub fn margin(image: &[u8], message: &[u8], item: u64, p: u64, q: u64) -> Answer {
    // SAFETY: each pointer goes with its own slice's length.
    answered(|answer| unsafe {
        svelgandur_margin(
            image.as_ptr(),
            image.len(),
            message.as_ptr(),
            message.len(),
            item,
            p,
            q,
            answer,
        )
    })
}

pub fn member(image: &[u8], message: &[u8], item: u64, map: &mut [u16]) -> Answer {
    // SAFETY: each pointer goes with its own slice's length.
    answered(|answer| unsafe {
        svelgandur_member(
            image.as_ptr(),
            image.len(),
            message.as_ptr(),
            message.len(),
            item,
            map.as_mut_ptr(),
            map.len(),
            answer,
        )
    })
}

pub fn list(image: &[u8], message: &[u8], table: &mut [u32]) -> Answer {
    // SAFETY: each pointer goes with its own slice's length.
    answered(|answer| unsafe {
        svelgandur_list(
            image.as_ptr(),
            image.len(),
            message.as_ptr(),
            message.len(),
            table.as_mut_ptr(),
            table.len(),
            answer,
        )
    })
}

pub fn open(buffer: &mut [u8]) -> Answer {
    // SAFETY: each pointer goes with its own slice's length.
    answered(|answer| unsafe { svelgandur_open(buffer.as_mut_ptr(), buffer.len(), answer) })
}

pub fn edit_name(
    buffer: &mut [u8],
    log: &mut [u64],
    count: u64,
    adds: bool,
    item: u64,
    name: u64,
) -> Answer {
    // SAFETY: each pointer goes with its own slice's length.
    answered(|answer| unsafe {
        svelgandur_edit_name(
            buffer.as_mut_ptr(),
            buffer.len(),
            log.as_mut_ptr(),
            log.len(),
            count,
            adds.into(),
            item,
            name,
            answer,
        )
    })
}

pub fn edit_link(
    buffer: &mut [u8],
    log: &mut [u64],
    count: u64,
    adds: bool,
    (from, role, to): (u64, u64, u64),
) -> Answer {
    // SAFETY: each pointer goes with its own slice's length.
    answered(|answer| unsafe {
        svelgandur_edit_link(
            buffer.as_mut_ptr(),
            buffer.len(),
            log.as_mut_ptr(),
            log.len(),
            count,
            adds.into(),
            from,
            role,
            to,
            answer,
        )
    })
}

pub fn undo(buffer: &mut [u8], log: &[u64], count: u64) -> Answer {
    // SAFETY: each pointer goes with its own slice's length.
    answered(|answer| unsafe {
        svelgandur_undo(
            buffer.as_mut_ptr(),
            buffer.len(),
            log.as_ptr(),
            log.len(),
            count,
            answer,
        )
    })
}

pub fn keep(buffer: &[u8], log: &[u64], count: u64) -> Answer {
    // SAFETY: each pointer goes with its own slice's length.
    answered(|answer| unsafe {
        svelgandur_keep(
            buffer.as_ptr(),
            buffer.len(),
            log.as_ptr(),
            log.len(),
            count,
            answer,
        )
    })
}
