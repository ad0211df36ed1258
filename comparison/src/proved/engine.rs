//! The engine, over images of sections.

use super::outcome;

extern "C" {
    fn bsr_fresh(
        settings: *const u8,
        settings_length: usize,
        image: *mut u8,
        image_length: usize,
    ) -> u8;
    fn bsr_judge(image: *mut u8, image_length: usize, step: *const u8, step_length: usize) -> u16;
    fn bsr_lamp_entry(index: u8) -> u8;
    fn bsr_indications(image: *const u8, image_length: usize, track: u8, post: u8) -> u16;
    fn bsr_preview(
        image: *const u8,
        image_length: usize,
        step: *const u8,
        step_length: usize,
        lamps: *mut u8,
        lamps_length: usize,
    ) -> u16;
    fn bsr_run(
        image: *mut u8,
        image_length: usize,
        steps: *const u8,
        steps_length: usize,
        answers: *mut u8,
        answers_length: usize,
    ) -> u64;
    fn bsr_day(
        settings: *const u8,
        settings_length: usize,
        steps: *const u8,
        steps_length: usize,
        notes: *mut u8,
        notes_length: usize,
    ) -> u64;
    fn bsr_day_singly(
        settings: *const u8,
        settings_length: usize,
        steps: *const u8,
        steps_length: usize,
        notes: *mut u8,
        notes_length: usize,
    ) -> u64;
}

/// 0, or 6 for bytes that are no settings, or 5 for a buffer too short.
pub fn fresh(settings: &[u8], image: &mut [u8]) -> u8 {
    unsafe {
        bsr_fresh(
            settings.as_ptr(),
            settings.len(),
            image.as_mut_ptr(),
            image.len(),
        )
    }
}

/// The refusal (0 for none) and what is said.
pub fn judge(image: &mut [u8], step: &[u8]) -> (u16, u16) {
    let answer = unsafe { bsr_judge(image.as_mut_ptr(), image.len(), step.as_ptr(), step.len()) };
    unpacked(answer)
}

fn unpacked(answer: u16) -> (u16, u16) {
    (answer & 0xff, answer >> 8)
}

/// The entry of the lamp table.
pub fn lamp_entry(index: u8) -> u8 {
    unsafe { bsr_lamp_entry(index) }
}

/// CIRCULATION, TRONÇON and the start permission.
pub fn indications(image: &[u8], track: u8, post: u8) -> (u16, u16, u16) {
    let answer = unsafe { bsr_indications(image.as_ptr(), image.len(), track, post) };
    (answer & 7, answer >> 3 & 7, answer >> 6)
}

/// What judging the step would answer, or 5 for a buffer too short; the lamps are written at its
/// front. The image is lent as one that might be written, for the compiler trusts a borrow that
/// is only read, and a look at it afterwards would tell nothing.
pub fn preview(image: &mut [u8], step: &[u8], lamps: &mut [u8]) -> (u16, u16) {
    let answer = unsafe {
        bsr_preview(
            image.as_mut_ptr(),
            image.len(),
            step.as_ptr(),
            step.len(),
            lamps.as_mut_ptr(),
            lamps.len(),
        )
    };
    unpacked(answer)
}

/// Offers the steps one after another and writes their answers at the buffer's front: the
/// refusal of the call (0 for none), and the count of steps or the refusal's index.
pub fn run(image: &mut [u8], steps: &[u8], answers: &mut [u8]) -> (u64, u64) {
    let answer = unsafe {
        bsr_run(
            image.as_mut_ptr(),
            image.len(),
            steps.as_ptr(),
            steps.len(),
            answers.as_mut_ptr(),
            answers.len(),
        )
    };
    outcome(answer)
}

/// How the steps of a day are judged.
#[derive(Clone, Copy, Debug)]
pub enum Way {
    /// Each offered to `engine::judge`, which tests the ranges each time.
    Singly,
    /// As the listing judges them, the ranges tested once.
    InPlace,
}

/// Notes the steps, offered one after another from fresh: the refusal (0 for none), and the count of
/// steps or the refusal's index.
pub fn day(way: Way, settings: &[u8], steps: &[u8], notes: &mut [u8]) -> (u64, u64) {
    let noting = match way {
        Way::Singly => bsr_day_singly,
        Way::InPlace => bsr_day,
    };
    let answer = unsafe {
        noting(
            settings.as_ptr(),
            settings.len(),
            steps.as_ptr(),
            steps.len(),
            notes.as_mut_ptr(),
            notes.len(),
        )
    };
    outcome(answer)
}
