//! What is noted of the steps of a day: 0 or the refusal, what is said, the letters of tracks A and B.

use crate::files::settings_lent;
use reference::listing::direction_letter;
use reference::section::Section;
use reference::step::STEP_LENGTH;

pub const NOTE_LENGTH: usize = 4;
const MALFORMED: u64 = 4;
const BUFFER_TOO_SHORT: u64 = 5;
const OUT_OF_RANGE: u64 = 6;

pub fn room_for(steps: &[u8]) -> usize {
    NOTE_LENGTH * (steps.len() / STEP_LENGTH)
}

/// The notes by the second implementation, at the front of the buffer: the refusal (0 for none), and
/// the count of steps or the refusal's index.
pub fn second_notes(
    settings: &[u8],
    steps: &[u8],
    buffer: &mut [u8],
    judge: impl Fn(&mut Section, &[u8]) -> (u8, u8),
) -> (u64, u64) {
    let Some(settings) = settings_lent(settings) else {
        return (OUT_OF_RANGE, 0);
    };
    let count = (steps.len() / STEP_LENGTH) as u64;
    if steps.len() % STEP_LENGTH != 0 {
        return (MALFORMED, count);
    }
    let Some(notes) = buffer.get_mut(..room_for(steps)) else {
        return (BUFFER_TOO_SHORT, 0);
    };
    let mut section = Section::fresh(settings);
    for (step, note) in steps
        .chunks_exact(STEP_LENGTH)
        .zip(notes.chunks_exact_mut(NOTE_LENGTH))
    {
        let (refusal, said) = judge(&mut section, step);
        let [a, b] = &section.tracks;
        note.copy_from_slice(&[refusal, said, direction_letter(a), direction_letter(b)]);
    }
    (0, count)
}
