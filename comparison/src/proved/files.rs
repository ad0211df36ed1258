//! Reader and writer of day files.

use super::outcome;

extern "C" {
    fn bsr_read(file: *const u8, file_length: usize) -> u32;
    fn bsr_settings(
        file: *const u8,
        file_length: usize,
        buffer: *mut u8,
        buffer_length: usize,
    ) -> u64;
    fn bsr_steps_length(file: *const u8, file_length: usize, count: u64) -> u64;
    fn bsr_write(
        settings: *const u8,
        settings_length: usize,
        steps: *const u8,
        steps_length: usize,
        buffer: *mut u8,
        buffer_length: usize,
    ) -> u64;
}

/// The refusal, and the count of steps (refusal 0) or the index.
pub fn read(file: &[u8]) -> (u32, u32) {
    let answer = unsafe { bsr_read(file.as_ptr(), file.len()) };
    (answer >> 16, answer & 0xffff)
}

/// The refusal, and the length of the settings (refusal 0), 8 or with their crossings 16, or the index.
pub fn settings(file: &[u8], buffer: &mut [u8]) -> (u64, u64) {
    let answer =
        unsafe { bsr_settings(file.as_ptr(), file.len(), buffer.as_mut_ptr(), buffer.len()) };
    outcome(answer)
}

/// The length of the part that holds so many steps.
pub fn steps_length(file: &[u8], count: u64) -> u64 {
    unsafe { bsr_steps_length(file.as_ptr(), file.len(), count) }
}

/// The refusal, and the length written (refusal 0) or the index.
pub fn write(settings: &[u8], steps: &[u8], buffer: &mut [u8]) -> (u64, u64) {
    let answer = unsafe {
        bsr_write(
            settings.as_ptr(),
            settings.len(),
            steps.as_ptr(),
            steps.len(),
            buffer.as_mut_ptr(),
            buffer.len(),
        )
    };
    outcome(answer)
}
