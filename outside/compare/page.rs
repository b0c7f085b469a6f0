//! Memory to lend to be read.

use std::ffi::{c_int, c_long, c_void};

extern "C" {
    fn mmap(
        address: *mut c_void,
        length: usize,
        protection: c_int,
        flags: c_int,
        file: c_int,
        offset: c_long,
    ) -> *mut c_void;
    fn mprotect(address: *mut c_void, length: usize, protection: c_int) -> c_int;
}

/// Memory that ends where no more may be read: what is put there ends at a forbidden page, so that a call that reads
/// beyond it dies.
pub struct Page {
    start: *mut u8,
}

impl Page {
    const ROOM: usize = 1 << 16;
    const FORBIDDEN: usize = 1 << 16;

    pub fn new() -> Page {
        const NONE: c_int = 0;
        const READ_WRITE: c_int = 3;
        const PRIVATE_ANONYMOUS: c_int = 0x22;
        // SAFETY: new memory is asked for, at an address that the system chooses, and both answers are looked at.
        unsafe {
            let start = mmap(std::ptr::null_mut(), Page::ROOM + Page::FORBIDDEN, READ_WRITE, PRIVATE_ANONYMOUS, -1, 0);
            assert!(start as isize != -1, "no memory to lend");
            assert!(mprotect(start.add(Page::ROOM), Page::FORBIDDEN, NONE) == 0, "no page to forbid");
            Page { start: start.cast() }
        }
    }

    /// Puts a copy at the end of the page, `gap` items before it, and hands out where it begins.
    pub fn put<T: Copy>(&mut self, items: &[T], gap: usize) -> *const T {
        let bytes = size_of_val(items) + gap * size_of::<T>();
        assert!(bytes <= Page::ROOM);
        // SAFETY: the copy is inside the room, which nothing else refers to; the room's end suits every alignment, and
        // so does its distance.
        unsafe {
            let at = self.start.add(Page::ROOM - bytes).cast::<T>();
            std::ptr::copy_nonoverlapping(items.as_ptr(), at, items.len());
            at
        }
    }

    /// Are the items that were put there last still the same?
    pub fn holds<T: Copy + PartialEq>(&self, items: &[T], gap: usize) -> bool {
        let bytes = size_of_val(items) + gap * size_of::<T>();
        // SAFETY: as in `put`; the items are plain numbers, and were written there.
        unsafe { std::slice::from_raw_parts(self.start.add(Page::ROOM - bytes).cast::<T>(), items.len()) == items }
    }
}
