//! The proved library's calls, as include/svelgandur.h declares them, each
//! with a function that lends it what it wants.

/// The four numbers of an answer: the kind, then three that go with it.
pub type Answer = [u64; 4];

/// The declarations of the header, to hold it to what is called here.
pub const DECLARATIONS: [&str; 13] = [
    "void svelgandur_read_register(\
    const uint8_t *image, size_t image_length, uint64_t session, uint64_t answer[4])",
    "void svelgandur_read_requirement(\
    const uint8_t *message, size_t message_length, uint64_t answer[4])",
    "void svelgandur_inner_part(\
    const uint8_t *message, size_t message_length, uint64_t k, uint64_t answer[4])",
    "void svelgandur_write_requirement(\
    const uint64_t *nodes, size_t nodes_length, \
    const uint64_t *thresholds, size_t thresholds_length, \
    const uint64_t *inner, size_t inner_length, \
    uint8_t *message, size_t message_length, uint64_t answer[4])",
    "void svelgandur_degree(\
    const uint8_t *image, size_t image_length, const uint8_t *message, size_t message_length, \
    uint64_t item, uint16_t *map, size_t map_length, uint64_t answer[4])",
    "void svelgandur_margin(\
    const uint8_t *image, size_t image_length, const uint8_t *message, size_t message_length, \
    uint64_t item, uint64_t p, uint64_t q, uint64_t answer[4])",
    "void svelgandur_member(\
    const uint8_t *image, size_t image_length, const uint8_t *message, size_t message_length, \
    uint64_t item, uint16_t *map, size_t map_length, uint64_t answer[4])",
    "void svelgandur_list(\
    const uint8_t *image, size_t image_length, const uint8_t *message, size_t message_length, \
    uint32_t *table, size_t table_length, uint64_t answer[4])",
    "void svelgandur_open(\
    uint8_t *buffer, size_t buffer_length, uint64_t answer[4])",
    "void svelgandur_edit_name(\
    uint8_t *buffer, size_t buffer_length, uint64_t *log, size_t log_length, uint64_t count, \
    uint64_t adds, uint64_t item, uint64_t name, uint64_t answer[4])",
    "void svelgandur_edit_link(\
    uint8_t *buffer, size_t buffer_length, uint64_t *log, size_t log_length, uint64_t count, \
    uint64_t adds, uint64_t from, uint64_t role, uint64_t to, uint64_t answer[4])",
    "void svelgandur_undo(\
    uint8_t *buffer, size_t buffer_length, const uint64_t *log, size_t log_length, \
    uint64_t count, uint64_t answer[4])",
    "void svelgandur_keep(\
    const uint8_t *buffer, size_t buffer_length, const uint64_t *log, size_t log_length, \
    uint64_t count, uint64_t answer[4])",
];

extern "C" {
    fn svelgandur_read_register(image: *const u8, length: usize, session: u64, answer: *mut u64);
    fn svelgandur_read_requirement(message: *const u8, length: usize, answer: *mut u64);
    fn svelgandur_inner_part(message: *const u8, length: usize, k: u64, answer: *mut u64);
    fn svelgandur_write_requirement(
        nodes: *const u64,
        nodes_length: usize,
        thresholds: *const u64,
        thresholds_length: usize,
        inner: *const u64,
        inner_length: usize,
        message: *mut u8,
        message_length: usize,
        answer: *mut u64,
    );
    fn svelgandur_degree(
        image: *const u8,
        image_length: usize,
        message: *const u8,
        message_length: usize,
        item: u64,
        map: *mut u16,
        map_length: usize,
        answer: *mut u64,
    );
    fn svelgandur_margin(
        image: *const u8,
        image_length: usize,
        message: *const u8,
        message_length: usize,
        item: u64,
        p: u64,
        q: u64,
        answer: *mut u64,
    );
    fn svelgandur_member(
        image: *const u8,
        image_length: usize,
        message: *const u8,
        message_length: usize,
        item: u64,
        map: *mut u16,
        map_length: usize,
        answer: *mut u64,
    );
    fn svelgandur_list(
        image: *const u8,
        image_length: usize,
        message: *const u8,
        message_length: usize,
        table: *mut u32,
        table_length: usize,
        answer: *mut u64,
    );
    fn svelgandur_open(buffer: *mut u8, length: usize, answer: *mut u64);
    fn svelgandur_edit_name(
        buffer: *mut u8,
        buffer_length: usize,
        log: *mut u64,
        log_length: usize,
        count: u64,
        adds: u64,
        item: u64,
        name: u64,
        answer: *mut u64,
    );
    fn svelgandur_edit_link(
        buffer: *mut u8,
        buffer_length: usize,
        log: *mut u64,
        log_length: usize,
        count: u64,
        adds: u64,
        from: u64,
        role: u64,
        to: u64,
        answer: *mut u64,
    );
    fn svelgandur_undo(
        buffer: *mut u8,
        buffer_length: usize,
        log: *const u64,
        log_length: usize,
        count: u64,
        answer: *mut u64,
    );
    fn svelgandur_keep(
        buffer: *const u8,
        buffer_length: usize,
        log: *const u64,
        log_length: usize,
        count: u64,
        answer: *mut u64,
    );
}

/// What the four numbers, and one on either side of them, hold before a call.
const UNWRITTEN: u64 = 0x5AFE_5AFE_5AFE_5AFE;

/// Lends a call its four numbers, and sees that it writes nothing beside them.
/// In each call below the pointers are to the lengths that are passed with
/// them.
fn answered(call: impl FnOnce(*mut u64)) -> Answer {
    let mut lent = [UNWRITTEN; 6];
    call(lent[1..5].as_mut_ptr());
    let [before, answer @ .., after] = lent;
    assert_eq!([before, after], [UNWRITTEN; 2], "written beside the answer");
    answer
}

pub fn read_register(image: &[u8], session: u64) -> Answer {
    answered(|answer| unsafe {
        svelgandur_read_register(image.as_ptr(), image.len(), session, answer)
    })
}

pub fn read_requirement(message: &[u8]) -> Answer {
    answered(|answer| unsafe {
        svelgandur_read_requirement(message.as_ptr(), message.len(), answer)
    })
}

pub fn inner_part(message: &[u8], k: u64) -> Answer {
    answered(|answer| unsafe { svelgandur_inner_part(message.as_ptr(), message.len(), k, answer) })
}

/// The lists are nodes, thresholds, inner nodes.
pub fn write_requirement(lists: [&[u64]; 3], message: &mut [u8]) -> Answer {
    let [nodes, thresholds, inner] = lists;
    answered(|answer| unsafe {
        svelgandur_write_requirement(
            nodes.as_ptr(),
            nodes.len(),
            thresholds.as_ptr(),
            thresholds.len(),
            inner.as_ptr(),
            inner.len(),
            message.as_mut_ptr(),
            message.len(),
            answer,
        )
    })
}

pub fn degree(image: &[u8], message: &[u8], item: u64, map: &mut [u16]) -> Answer {
    answered(|answer| unsafe {
        svelgandur_degree(
            image.as_ptr(),
            image.len(),
            message.as_ptr(),
            message.len(),
            item,
            map.as_mut_ptr(),
            map.len(),
            answer,
        )
    })
}

pub fn margin(image: &[u8], message: &[u8], item: u64, p: u64, q: u64) -> Answer {
    answered(|answer| unsafe {
        svelgandur_margin(
            image.as_ptr(),
            image.len(),
            message.as_ptr(),
            message.len(),
            item,
            p,
            q,
            answer,
        )
    })
}

pub fn member(image: &[u8], message: &[u8], item: u64, map: &mut [u16]) -> Answer {
    answered(|answer| unsafe {
        svelgandur_member(
            image.as_ptr(),
            image.len(),
            message.as_ptr(),
            message.len(),
            item,
            map.as_mut_ptr(),
            map.len(),
            answer,
        )
    })
}

pub fn list(image: &[u8], message: &[u8], table: &mut [u32]) -> Answer {
    answered(|answer| unsafe {
        svelgandur_list(
            image.as_ptr(),
            image.len(),
            message.as_ptr(),
            message.len(),
            table.as_mut_ptr(),
            table.len(),
            answer,
        )
    })
}

pub fn open(buffer: &mut [u8]) -> Answer {
    answered(|answer| unsafe { svelgandur_open(buffer.as_mut_ptr(), buffer.len(), answer) })
}

pub fn edit_name(
    buffer: &mut [u8],
    log: &mut [u64],
    count: u64,
    adds: u64,
    item: u64,
    name: u64,
) -> Answer {
    answered(|answer| unsafe {
        svelgandur_edit_name(
            buffer.as_mut_ptr(),
            buffer.len(),
            log.as_mut_ptr(),
            log.len(),
            count,
            adds,
            item,
            name,
            answer,
        )
    })
}

/// The link is from, role, to.
pub fn edit_link(
    buffer: &mut [u8],
    log: &mut [u64],
    count: u64,
    adds: u64,
    link: [u64; 3],
) -> Answer {
    let [from, role, to] = link;
    answered(|answer| unsafe {
        svelgandur_edit_link(
            buffer.as_mut_ptr(),
            buffer.len(),
            log.as_mut_ptr(),
            log.len(),
            count,
            adds,
            from,
            role,
            to,
            answer,
        )
    })
}

pub fn undo(buffer: &mut [u8], log: &[u64], count: u64) -> Answer {
    answered(|answer| unsafe {
        svelgandur_undo(
            buffer.as_mut_ptr(),
            buffer.len(),
            log.as_ptr(),
            log.len(),
            count,
            answer,
        )
    })
}

pub fn keep(buffer: &[u8], log: &[u64], count: u64) -> Answer {
    answered(|answer| unsafe {
        svelgandur_keep(
            buffer.as_ptr(),
            buffer.len(),
            log.as_ptr(),
            log.len(),
            count,
            answer,
        )
    })
}
