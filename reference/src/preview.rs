//! A step tried first: its answer and every indication after it, without taking it.

use crate::engine::judge;
use crate::indications::indications;
use crate::section::Section;
use crate::settings::MOST_POSTS;
use std::array;

/// CIRCULATION, TRONÇON and the start permission of posts 0 to 15 of a track.
pub type Lamps = [(u8, u8, u8); MOST_POSTS];

#[derive(Clone, Copy, Debug, PartialEq, Eq)]
pub struct Preview {
    /// 0 for a step that would be accepted.
    pub refusal: u8,
    pub said: u8,
    /// Of tracks A and B after the step; after a refused one, of the section as it is.
    pub lamps: [Lamps; 2],
}

/// What taking the step on a copy of the section gives; all lamps 0 for a section out of
/// range, and those of the posts it hasn't.
pub fn preview(section: &Section, step_bytes: &[u8]) -> Preview {
    let answer = judge(section, step_bytes);
    Preview {
        refusal: answer.refusal,
        said: answer.said,
        lamps: [0, 1].map(|track| lamps(&answer.section, track)),
    }
}

/// `indications` gives 0 for a section out of range and for a post past the last.
fn lamps(section: &Section, track: u8) -> Lamps {
    array::from_fn(|post| indications(section, track, post as u8))
}
