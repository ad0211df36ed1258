//! The steps that are offered.

use super::numbers;
use crate::files::sound_step;
use reference::generate::{sensible_step, Rng};
use reference::section::Section;
use reference::step::{encode, Step, STEP_LENGTH};

/// Mostly a sensible step; at times any well-formed one, one of the turn's post, a changed one,
/// one with a number beside the bounds, random bytes or a wrong length.
pub fn offer(rng: &mut Rng, section: &Section) -> Vec<u8> {
    let mut step = sensible_step(rng, section).to_vec();
    match rng.below(40) {
        0..=1 => step = sound_step(rng, section.settings.n.max(1)).to_vec(),
        2..=3 => change_byte(rng, &mut step),
        4 => step = rng.next_u64().to_le_bytes().to_vec(),
        5 => step = with_other_length(rng, step),
        6..=7 => step = step_of_turn(rng, section).to_vec(),
        8 => step = with_number_at_bounds(rng, section).to_vec(),
        _ => (),
    }
    step
}

/// What a reversal may wait for at its turn's post, with no look at what stands in the way.
pub fn step_of_turn(rng: &mut Rng, section: &Section) -> [u8; STEP_LENGTH] {
    let track = rng.flag();
    let post = section.tracks[usize::from(track)].turn;
    let step = match rng.below(6) {
        0 => Step::Set { post },
        1 => Step::Announce { post },
        2 => Step::Acknowledge { post },
        3 => Step::FaultOn { post, fault: 2 },
        _ => Step::Key { post },
    };
    encode(track, &step)
}

/// A well-formed step, but that its number may be too great; of a kind that has one.
fn with_number_at_bounds(rng: &mut Rng, section: &Section) -> [u8; STEP_LENGTH] {
    let mut step = sound_step(rng, section.settings.n.max(1));
    step[0] = rng.pick(&[5, 6, 7, 12, 14]);
    step[3] = 0;
    step[4..6].copy_from_slice(&numbers::at_bounds(rng).to_le_bytes());
    step
}

fn change_byte(rng: &mut Rng, step: &mut [u8]) {
    let place = rng.below(STEP_LENGTH as u64) as usize;
    step[place] = match rng.below(3) {
        0 => step[place].wrapping_add(1),
        1 => step[place] ^ 1 << rng.below(8),
        _ => rng.byte(),
    };
}

fn with_other_length(rng: &mut Rng, mut step: Vec<u8>) -> Vec<u8> {
    let length = rng.pick(&[0, 1, 4, 6, 7, 9, 12, 16]);
    step.resize(length, 0);
    step
}
