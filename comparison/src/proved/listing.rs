//! The bench listing and the panel listing.

extern "C" {
    fn bsr_listing(
        file: *const u8,
        file_length: usize,
        buffer: *mut u8,
        buffer_length: usize,
    ) -> u64;
    fn bsr_panel(file: *const u8, file_length: usize, buffer: *mut u8, buffer_length: usize)
        -> u64;
}

/// 1 + the listing's length; 0 for a buffer too short.
pub fn listing(file: &[u8], buffer: &mut [u8]) -> u64 {
    unsafe { bsr_listing(file.as_ptr(), file.len(), buffer.as_mut_ptr(), buffer.len()) }
}

/// 1 + the panel's length; 0 for a buffer too short.
pub fn panel(file: &[u8], buffer: &mut [u8]) -> u64 {
    unsafe { bsr_panel(file.as_ptr(), file.len(), buffer.as_mut_ptr(), buffer.len()) }
}
