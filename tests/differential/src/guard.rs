//! Memory between two pages that may not be touched: a byte read or written outside it ends the program.

use std::ffi::c_void;
use std::ops::Range;
use std::slice::{from_raw_parts, from_raw_parts_mut};

const PAGE: usize = 4096;
const PROT_NONE: i32 = 0;
const PROT_READ_WRITE: i32 = 3;
const MAP_PRIVATE_ANONYMOUS: i32 = 0x22;

extern "C" {
    fn mmap(
        at: *mut c_void,
        size: usize,
        rights: i32,
        flags: i32,
        file: i32,
        offset: i64,
    ) -> *mut c_void;
    fn mprotect(at: *mut c_void, size: usize, rights: i32) -> i32;
}

pub struct Guarded {
    start: *mut u8,
    size: usize,
}

impl Guarded {
    /// Room for `size` bytes, never given back.
    pub fn new(size: usize) -> Self {
        let size = size.next_multiple_of(PAGE);
        // A fresh mapping of our own, whose middle is then made usable.
        let start = unsafe {
            let all = mmap(
                std::ptr::null_mut(),
                size + 2 * PAGE,
                PROT_NONE,
                MAP_PRIVATE_ANONYMOUS,
                -1,
                0,
            );
            assert!(all as isize != -1, "no memory");
            let start = all.cast::<u8>().add(PAGE);
            assert_eq!(
                mprotect(start.cast(), size, PROT_READ_WRITE),
                0,
                "no memory"
            );
            start
        };
        Guarded { start, size }
    }

    /// Where `length` bytes lie flush with the end, or with the start.
    pub fn place(&self, length: usize, at_start: bool) -> Range<usize> {
        if at_start {
            0..length
        } else {
            self.size - length..self.size
        }
    }

    pub fn bytes(&self) -> &[u8] {
        // `size` bytes from `start` are ours, initialised to 0 by the mapping.
        unsafe { from_raw_parts(self.start, self.size) }
    }

    pub fn bytes_mut(&mut self) -> &mut [u8] {
        // As above, and `self` is borrowed whole.
        unsafe { from_raw_parts_mut(self.start, self.size) }
    }
}
