//! The library's functions as they are called. A slice is two arguments: where it starts, and how
//! many elements it has. What is lent for writing must not overlap with anything else lent.

extern "C" {
    /// Lifts a text: 0, or the number of the refusal. Writes `words` with 0 and with 11, when it is
    /// the count of words that the list wants, and `next` with 0 only.
    pub fn sighvona_lift(
        text: *const u8,
        text_len: usize,
        first: u32,
        func: *mut u32,
        func_len: usize,
        work: *mut u32,
        work_len: usize,
        out: *mut u32,
        out_len: usize,
        words: *mut usize,
        next: *mut u32,
    ) -> u32;

    /// Reads a text and lifts nothing: 0, or the number of the refusal, 8, 1 to 7 or 13.
    pub fn sighvona_read(
        text: *const u8,
        text_len: usize,
        func: *mut u32,
        func_len: usize,
        work: *mut u32,
        work_len: usize,
    ) -> u32;

    /// The library's version, major * 65,536 + minor * 256 + patch.
    pub fn sighvona_version() -> u32;
}
