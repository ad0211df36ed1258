//! Two posts' books side by side.

extern "C" {
    fn bsr_books(
        first: *const u8,
        first_length: usize,
        second: *const u8,
        second_length: usize,
    ) -> u64;
}

/// The refusal (0 for none), what is found (0 an offset, 1 no offset, 2 a difference), the offset
/// with 120 added, the pair or the book, and the index.
pub fn compare(first: &[u8], second: &[u8]) -> (u64, u64, u64, u64) {
    let answer = unsafe { bsr_books(first.as_ptr(), first.len(), second.as_ptr(), second.len()) };
    (
        answer & 0xff,
        answer >> 8 & 0xff,
        answer >> 16 & 0xffff,
        answer >> 32,
    )
}
