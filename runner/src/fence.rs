//! Buffers that end, or begin, where a page begins that nobody may touch: a read or a write past
//! that edge ends the process.

use std::slice;

unsafe extern "C" {
    fn fence_pages(n: usize) -> *mut u8;
}

const PAGE: usize = 4096;

pub struct Fence {
    start: *mut u8,
    length: usize,
}

impl Fence {
    /// Room for buffers of up to `most` bytes.
    pub fn new(most: usize) -> Fence {
        let pages = most.div_ceil(PAGE).max(1);
        // SAFETY: any number of pages may be asked for.
        let start = unsafe { fence_pages(pages) };
        assert!(!start.is_null(), "no memory for {pages} pages");
        Fence {
            start,
            length: pages * PAGE,
        }
    }

    /// `n` bytes against the page behind them, or against the one before them.
    pub fn lend(&mut self, n: usize, at_end: bool) -> &mut [u8] {
        assert!(n <= self.length);
        let at = if at_end { self.length - n } else { 0 };
        // SAFETY: `start` has `length` bytes that nobody else knows of, set to zero by the system
        // at first, and `self` is lent along with them.
        unsafe { slice::from_raw_parts_mut(self.start.add(at), n) }
    }

    pub fn hold(&mut self, bytes: &[u8], at_end: bool) -> &[u8] {
        let part = self.lend(bytes.len(), at_end);
        part.copy_from_slice(bytes);
        part
    }
}
