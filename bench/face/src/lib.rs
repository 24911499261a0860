//! The yardstick with the calls of include/svelgandur.h, for the comparison.
//!
//! Why this is safe: who calls it lends each pointer with its length, as the
//! header says.

#![allow(clippy::missing_safety_doc, clippy::too_many_arguments)]

use std::slice::{from_raw_parts as lent, from_raw_parts_mut as lent_mut};

use good::{calls, list, session, writing};

#[no_mangle]
pub unsafe extern "C" fn svelgandur_read_register(
    image: *const u8,
    length: usize,
    in_session: u64,
    answer: *mut [u64; 4],
) {
    *answer = calls::read_register(lent(image, length), in_session);
}

#[no_mangle]
pub unsafe extern "C" fn svelgandur_read_requirement(
    message: *const u8,
    length: usize,
    answer: *mut [u64; 4],
) {
    *answer = calls::read_requirement(lent(message, length));
}

#[no_mangle]
pub unsafe extern "C" fn svelgandur_inner_part(
    message: *const u8,
    length: usize,
    k: u64,
    answer: *mut [u64; 4],
) {
    *answer = calls::inner_part(lent(message, length), k);
}

#[no_mangle]
pub unsafe extern "C" fn svelgandur_write_requirement(
    nodes: *const u64,
    nodes_length: usize,
    thresholds: *const u64,
    thresholds_length: usize,
    inner: *const u64,
    inner_length: usize,
    message: *mut u8,
    message_length: usize,
    answer: *mut [u64; 4],
) {
    *answer = writing::write_requirement(
        lent(nodes, nodes_length),
        lent(thresholds, thresholds_length),
        lent(inner, inner_length),
        lent_mut(message, message_length),
    );
}

#[no_mangle]
pub unsafe extern "C" fn svelgandur_degree(
    image: *const u8,
    image_length: usize,
    message: *const u8,
    message_length: usize,
    item: u64,
    map: *mut u16,
    map_length: usize,
    answer: *mut [u64; 4],
) {
    let (image, message) = (lent(image, image_length), lent(message, message_length));
    *answer = calls::degree(image, message, item, lent_mut(map, map_length));
}

#[no_mangle]
pub unsafe extern "C" fn svelgandur_margin(
    image: *const u8,
    image_length: usize,
    message: *const u8,
    message_length: usize,
    item: u64,
    p: u64,
    q: u64,
    answer: *mut [u64; 4],
) {
    let (image, message) = (lent(image, image_length), lent(message, message_length));
    *answer = calls::margin(image, message, item, p, q);
}

#[no_mangle]
pub unsafe extern "C" fn svelgandur_member(
    image: *const u8,
    image_length: usize,
    message: *const u8,
    message_length: usize,
    item: u64,
    map: *mut u16,
    map_length: usize,
    answer: *mut [u64; 4],
) {
    let (image, message) = (lent(image, image_length), lent(message, message_length));
    *answer = calls::member(image, message, item, lent_mut(map, map_length));
}

#[no_mangle]
pub unsafe extern "C" fn svelgandur_list(
    image: *const u8,
    image_length: usize,
    message: *const u8,
    message_length: usize,
    table: *mut u32,
    table_length: usize,
    answer: *mut [u64; 4],
) {
    let (image, message) = (lent(image, image_length), lent(message, message_length));
    *answer = list::list(image, message, lent_mut(table, table_length));
}

#[no_mangle]
pub unsafe extern "C" fn svelgandur_open(buffer: *mut u8, length: usize, answer: *mut [u64; 4]) {
    *answer = session::open(lent_mut(buffer, length));
}

#[no_mangle]
pub unsafe extern "C" fn svelgandur_edit_name(
    buffer: *mut u8,
    buffer_length: usize,
    log: *mut u64,
    log_length: usize,
    count: u64,
    adds: u64,
    item: u64,
    name: u64,
    answer: *mut [u64; 4],
) {
    let (buffer, log) = (lent_mut(buffer, buffer_length), lent_mut(log, log_length));
    *answer = session::edit_name(buffer, log, count, adds, item, name);
}

#[no_mangle]
pub unsafe extern "C" fn svelgandur_edit_link(
    buffer: *mut u8,
    buffer_length: usize,
    log: *mut u64,
    log_length: usize,
    count: u64,
    adds: u64,
    from: u64,
    role: u64,
    to: u64,
    answer: *mut [u64; 4],
) {
    let (buffer, log) = (lent_mut(buffer, buffer_length), lent_mut(log, log_length));
    *answer = session::edit_link(buffer, log, count, adds, [from, role, to]);
}

#[no_mangle]
pub unsafe extern "C" fn svelgandur_undo(
    buffer: *mut u8,
    buffer_length: usize,
    log: *const u64,
    log_length: usize,
    count: u64,
    answer: *mut [u64; 4],
) {
    let (buffer, log) = (lent_mut(buffer, buffer_length), lent(log, log_length));
    *answer = session::undo(buffer, log, count);
}

#[no_mangle]
pub unsafe extern "C" fn svelgandur_keep(
    buffer: *const u8,
    buffer_length: usize,
    log: *const u64,
    log_length: usize,
    count: u64,
    answer: *mut [u64; 4],
) {
    let (buffer, log) = (lent(buffer, buffer_length), lent(log, log_length));
    *answer = session::keep(buffer, log, count);
}
