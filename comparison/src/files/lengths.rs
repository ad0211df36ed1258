//! Files around the least and the greatest length of either mark.

use super::{right_numbers, settings_bytes, settings_under, sound_steps};
use super::{to_settings, trailer, MARKS};
use reference::dayfile::Mark;
use reference::generate::Rng;
use reference::step::STEP_LENGTH;

/// A file's length and what its trailer says: the mark, both distances and the count.
pub struct Shape {
    length: usize,
    mark: Mark,
    numbers: [u32; 3],
}

impl Shape {
    /// Behind steps and settings such as the mark has, cut off in front to the length.
    pub fn file(&self, rng: &mut Rng) -> Vec<u8> {
        let settings = settings_under(rng, self.mark);
        let count = self.length / STEP_LENGTH;
        let mut file = sound_steps(rng, settings.n, count, count);
        file.extend(settings_bytes(&settings));
        file.extend(trailer(self.mark.bytes(), self.numbers));
        file.split_off(file.len() - self.length)
    }
}

/// Of each length under each mark, with the numbers that the length seems to demand.
pub fn shapes_at_bounds() -> impl Iterator<Item = Shape> {
    lengths_and_marks().map(|(length, mark)| Shape {
        length,
        mark,
        numbers: right_numbers(mark, steps_in(length, mark)),
    })
}

/// Of each length under each mark, with numbers beside those.
pub fn shapes_beside() -> impl Iterator<Item = Shape> {
    lengths_and_marks().flat_map(|(length, mark)| {
        let all = numbers_beside(length as u32).into_iter();
        all.map(move |numbers| Shape {
            length,
            mark,
            numbers,
        })
    })
}

/// Around 24 and 32 bytes, and around 32,792 and 32,800.
fn lengths_and_marks() -> impl Iterator<Item = (usize, Mark)> {
    let lengths = (14..=42).chain(32_782..=32_818);
    lengths.flat_map(|length| MARKS.map(|mark| (length, mark)))
}

/// None in a file too short for its mark.
fn steps_in(length: usize, mark: Mark) -> u32 {
    (length as u32).saturating_sub(to_settings(mark)) / 8
}

/// The distances of either mark, each with counts that the length demands in numbers of 32 bits, and beside those.
fn numbers_beside(length: u32) -> Vec<[u32; 3]> {
    let mut all = Vec::new();
    for distance in MARKS.map(to_settings) {
        let count = length.wrapping_sub(distance) / 8;
        for stated in [count, count.wrapping_sub(1), count + 1, 0, u32::MAX] {
            let first = distance.wrapping_add(stated.wrapping_mul(8));
            all.extend([[distance, length, stated], [distance, first, stated]]);
        }
    }
    all
}
