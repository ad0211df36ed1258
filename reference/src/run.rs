//! A run of steps in one call: their answers go into a lent buffer.

use crate::dayfile::MOST_STEPS;
use crate::engine;
use crate::section::Section;
use crate::step::{self, STEP_LENGTH};

/// Two bytes a step: 0 or the refusal, then what is said.
pub const ANSWER_LENGTH: usize = 2;

#[derive(Clone, Copy, Debug, PartialEq, Eq)]
pub enum Outcome {
    /// As many steps were judged and answered, each accepted or refused.
    Done(usize),
    /// The call is refused: section and buffer are as they were. The index is that of the first
    /// malformed step for 4, and 0 for 5 and 6.
    Refused { refusal: u8, index: usize },
}

/// Takes the steps one after another, as if they were offered singly, a refused one too. The
/// range of the section and the steps' bytes are tested once, before the first is taken: an
/// accepted step leaves a section in range in range, with the same settings.
pub fn run(section: &mut Section, steps: &[u8], answers: &mut [u8]) -> Outcome {
    if !section.in_range() {
        return refused(6);
    }
    if let Some(index) = step::first_malformed(steps, section.settings.n) {
        return Outcome::Refused { refusal: 4, index };
    }
    let (steps, _) = steps.as_chunks::<STEP_LENGTH>();
    let (answers, _) = answers.as_chunks_mut::<ANSWER_LENGTH>();
    if steps.len() > MOST_STEPS || answers.len() < steps.len() {
        return refused(5);
    }
    for (step, answer) in steps.iter().zip(answers) {
        let (refusal, said) = engine::judge_well_formed(section, step);
        *answer = [refusal, said];
    }
    Outcome::Done(steps.len())
}

fn refused(refusal: u8) -> Outcome {
    Outcome::Refused { refusal, index: 0 }
}
