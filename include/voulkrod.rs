//! Voulkrod for Rust: the four operations over slices. voulkrod.h says what each answers
//! and how much stack a call takes; what it asks of pointers, a slice gives.
//!
//! A program takes this file in by `#[path = ".."] mod voulkrod;` and is linked with
//! libexports.a by `-L` and the folder that holds it.

#[link(name = "exports", kind = "static")]
extern "C" {
    // A slice passes as a pointer and a length.
    fn voulkrod_check(sheet: *const u8, length: usize) -> u32;
    fn voulkrod_declare(
        sheet: *const u8,
        length: usize,
        words: *mut u32,
        words_length: usize,
    ) -> u64;
    fn voulkrod_wrapped(sheet: *const u8, length: usize, index: usize) -> u32;
    fn voulkrod_list(
        words: *const u32,
        words_length: usize,
        list: *mut u32,
        list_length: usize,
    ) -> u64;
}

pub fn check(sheet: &[u8]) -> u32 {
    // SAFETY: the pointer and the length are those of a slice, which the callee only reads.
    unsafe { voulkrod_check(sheet.as_ptr(), sheet.len()) }
}

pub fn declare(sheet: &[u8], words: &mut [u32]) -> u64 {
    // SAFETY: as above; the words are lent to the callee alone.
    unsafe { voulkrod_declare(sheet.as_ptr(), sheet.len(), words.as_mut_ptr(), words.len()) }
}

pub fn wrapped(sheet: &[u8], index: usize) -> u32 {
    // SAFETY: as for check.
    unsafe { voulkrod_wrapped(sheet.as_ptr(), sheet.len(), index) }
}

pub fn list(words: &[u32], list: &mut [u32]) -> u64 {
    // SAFETY: the words are those of a slice, which the callee only reads; the list is lent to it alone.
    unsafe { voulkrod_list(words.as_ptr(), words.len(), list.as_mut_ptr(), list.len()) }
}
