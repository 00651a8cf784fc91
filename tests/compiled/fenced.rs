//! Memory between pages that cannot be touched.

use std::ffi::{c_int, c_void};

extern "C" {
    fn mmap(
        at: *mut c_void,
        bytes: usize,
        may: c_int,
        kind: c_int,
        fd: c_int,
        from: i64,
    ) -> *mut c_void;
    fn mprotect(at: *mut c_void, bytes: usize, may: c_int) -> c_int;
}

const PAGE: usize = 4096;
const NOTHING: c_int = 0;
const READ: c_int = 1;
const READ_AND_WRITE: c_int = 3;
const PRIVATE_AND_ANONYMOUS: c_int = 2 | 32;

/// Whole pages, with one before and one behind them that cannot be touched. It is never given back.
pub struct Fenced {
    start: *mut u8,
    bytes: usize,
}

impl Fenced {
    pub fn new(least: usize) -> Fenced {
        let bytes = least.div_ceil(PAGE).max(1) * PAGE;
        // SAFETY: new pages, wherever the system puts them.
        let all = unsafe {
            mmap(std::ptr::null_mut(), bytes + 2 * PAGE, NOTHING, PRIVATE_AND_ANONYMOUS, -1, 0)
        };
        assert!(all as isize != -1, "no memory");
        let fenced = Fenced { start: all.cast::<u8>().wrapping_add(PAGE), bytes };
        fenced.permit(READ_AND_WRITE);
        fenced
    }

    fn permit(&self, may: c_int) {
        // SAFETY: the pages are this one's own.
        let status = unsafe { mprotect(self.start.cast(), self.bytes, may) };
        assert_eq!(status, 0, "the pages' permissions cannot be changed");
    }

    fn whole(&mut self) -> &mut [u8] {
        // SAFETY: the pages are this one's own, and zero at first.
        unsafe { std::slice::from_raw_parts_mut(self.start, self.bytes) }
    }

    /// Puts bytes against the front fence or the one behind, for reading alone, until the next time.
    pub fn hold(&mut self, bytes: &[u8], front: bool) -> &'static [u8] {
        self.permit(READ_AND_WRITE);
        let at = if front { 0 } else { self.bytes - bytes.len() };
        let place = &mut self.whole()[at..at + bytes.len()];
        place.copy_from_slice(bytes);
        let place = place.as_ptr();
        self.permit(READ);
        // SAFETY: the pages stay for as long as the process. Whoever calls this drops what was held before.
        unsafe { std::slice::from_raw_parts(place, bytes.len()) }
    }

    /// The same with words.
    pub fn hold_words(&mut self, words: &[u32], front: bool) -> &'static [u32] {
        let bytes: Vec<u8> = words.iter().flat_map(|word| word.to_ne_bytes()).collect();
        let held = self.hold(&bytes, front);
        // SAFETY: the pages start and end at a multiple of 4, and so do whole words at a fence.
        unsafe { std::slice::from_raw_parts(held.as_ptr().cast::<u32>(), words.len()) }
    }

    /// The last words, up to the fence.
    pub fn last_words(&mut self, count: usize) -> &mut [u32] {
        let all = self.bytes / 4;
        // SAFETY: the pages are this one's own and start at a multiple of 4.
        let words = unsafe { std::slice::from_raw_parts_mut(self.start.cast::<u32>(), all) };
        &mut words[all - count..]
    }
}
