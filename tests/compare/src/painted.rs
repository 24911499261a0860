//! How much of the stack some work uses: it is done on a thread whose stack is
//! painted before, and of which the lowest byte that changed is looked for
//! afterwards. Below the stack stands a page that cannot be touched, so work
//! that needs more ends the program.

use std::ffi::c_void;
use std::hint::black_box;
use std::ptr;

use crate::fence::Pages;

const PAINT: u8 = 0xC5;

/// As large as any system's, and more.
#[repr(C, align(16))]
struct Attributes([u8; 256]);

extern "C" {
    fn pthread_attr_init(attributes: *mut Attributes) -> i32;
    fn pthread_attr_setstack(attributes: *mut Attributes, lowest: *mut u8, bytes: usize) -> i32;
    fn pthread_attr_destroy(attributes: *mut Attributes) -> i32;
    fn pthread_create(
        thread: *mut usize,
        attributes: *const Attributes,
        start: extern "C" fn(*mut c_void) -> *mut c_void,
        work: *mut c_void,
    ) -> i32;
    fn pthread_join(thread: usize, result: *mut *mut c_void) -> i32;
}

/// A stack for threads, one after the other.
pub struct Stack {
    pages: Pages,
}

impl Stack {
    /// So many bytes: what a thread needs for itself, before any work is done,
    /// stands among them.
    pub fn new(bytes: usize) -> Stack {
        Stack {
            pages: Pages::new(bytes),
        }
    }

    /// Does the work, and says how many bytes of the stack were used, what a
    /// thread needs for itself among them.
    pub fn used(&self, mut work: impl FnMut()) -> usize {
        let (lowest, bytes) = (self.pages.first, self.pages.bytes);
        // SAFETY: the pages are this stack's own, and no thread runs on them
        // before or after the one that is created and joined here.
        unsafe {
            ptr::write_bytes(lowest, PAINT, bytes);
            let mut dynamic: &mut dyn FnMut() = &mut work;
            on_thread(lowest, bytes, ptr::addr_of_mut!(dynamic).cast());
            let stack = std::slice::from_raw_parts(lowest, bytes);
            let unused = stack.iter().take_while(|byte| **byte == PAINT).count();
            bytes - unused
        }
    }

    /// Does the work with so many bytes of the stack left and no more.
    pub fn within(&self, bytes: usize, mut work: impl FnMut()) {
        let place = self.pages.first as usize + bytes;
        self.used(|| sink(place, &mut work));
    }
}

/// Goes down the stack to a place or just below it, and does the work there.
#[inline(never)]
fn sink(place: usize, work: &mut dyn FnMut()) {
    let frame = [0u8; 16];
    match black_box(&frame).as_ptr() as usize > place {
        true => sink(place, work),
        false => work(),
    }
    // So that the frame stays, and this is no loop.
    black_box(&frame);
}

/// `work` is a pointer to a `&mut dyn FnMut()`.
unsafe fn on_thread(lowest: *mut u8, bytes: usize, work: *mut c_void) {
    let mut attributes = Attributes([0; 256]);
    let mut thread = 0;
    assert_eq!(pthread_attr_init(&mut attributes), 0);
    assert_eq!(pthread_attr_setstack(&mut attributes, lowest, bytes), 0);
    assert_eq!(pthread_create(&mut thread, &attributes, start, work), 0);
    assert_eq!(pthread_join(thread, ptr::null_mut()), 0);
    pthread_attr_destroy(&mut attributes);
}

extern "C" fn start(work: *mut c_void) -> *mut c_void {
    // SAFETY: see `on_thread`; who made it waits for this thread.
    let work: &mut &mut dyn FnMut() = unsafe { &mut *work.cast() };
    work();
    ptr::null_mut()
}
