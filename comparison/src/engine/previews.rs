//! A step tried first: its answer and what all posts would show, with the image only read.

use super::judging::Both;
use super::offers::offer;
use super::preview_cases::PreviewCases;
use crate::lent::{same_buffers, Lent};
use crate::proved;
use crate::report::{hex, same, same_as_taken, Failure, Outcome};
use reference::generate::Rng;
use reference::preview::preview;
use reference::section::Section;
use reference::settings::MOST_POSTS;

/// CIRCULATION, TRONÇON and the start permission.
const LAMPS_OF_POST: usize = 3;
const LAMPS_OF_TRACK: usize = LAMPS_OF_POST * MOST_POSTS;
/// Those of track A, then those of B.
const LAMPS_LENGTH: usize = 2 * LAMPS_OF_TRACK;
const BUFFER_TOO_SHORT: u16 = 5;
const NO_SECTION: u16 = 6;

/// What a preview gave.
pub struct Tried {
    /// The refusal (0 for none) and what is said.
    answer: (u16, u16),
    /// `None` for bytes that are no image, which leave the buffer as it was.
    lamps: Option<Lent>,
}

impl Tried {
    /// As when the step is taken.
    pub fn same_answer(&self, taken: (u16, u16), input: &dyn Fn() -> String) -> Outcome {
        same_as_taken("the answer to a preview", self.answer, taken, input)
    }

    /// As when the step is taken.
    pub fn same_indications(
        &self,
        track: u8,
        post: u8,
        taken: (u16, u16, u16),
        input: &dyn Fn() -> String,
    ) -> Outcome {
        let shown = self.shown(track, post);
        same_as_taken("the indications of a preview", shown, taken, input)
    }

    /// Takes the step on a copy of the image, and asks for every post.
    fn same_on_copy(&self, image: &Lent, step: &[u8]) -> Outcome {
        let input = || described(image, step);
        let mut copy = image.clone();
        let taken = proved::engine::judge(copy.part(), step);
        self.same_answer(taken, &input)?;
        for track in [0, 1] {
            for post in 0..MOST_POSTS as u8 {
                let taken = proved::engine::indications(copy.content(), track, post);
                let input = || format!("{}\ntrack: {track}\npost:  {post}", input());
                self.same_indications(track, post, taken, &input)?;
            }
        }
        Ok(())
    }

    /// CIRCULATION, TRONÇON and the start permission, which are 0 for a track or post that no section has, and for no image.
    fn shown(&self, track: u8, post: u8) -> (u16, u16, u16) {
        let (track, post) = (usize::from(track), usize::from(post));
        let Some(lamps) = &self.lamps else {
            return (0, 0, 0);
        };
        if track > 1 || post >= MOST_POSTS {
            return (0, 0, 0);
        }
        let start = track * LAMPS_OF_TRACK + post * LAMPS_OF_POST;
        let lamp = |place: usize| u16::from(lamps.content()[start + place]);
        (lamp(0), lamp(1), lamp(2))
    }
}

/// The previews of a comparison. They are drawn with a generator of their own, so that the
/// steps that are taken are the same ones without them.
pub struct Previews {
    rng: Rng,
    pub cases: PreviewCases,
}

impl Previews {
    pub fn beside(rng: &Rng) -> Previews {
        Previews {
            rng: Rng::new(rng.clone().next_u64()),
            cases: PreviewCases::default(),
        }
    }

    /// At times in a buffer too short first, at times with the step taken on a copy.
    pub fn compare(&mut self, both: &mut Both, step: &[u8]) -> Result<Tried, Failure> {
        if self.rng.chance(1, 4) {
            let room = self.room_too_short();
            self.compare_in(room, both, step)?;
        }
        let room = self.room();
        let tried = self.compare_in(room, both, step)?;
        if self.rng.chance(1, 32) {
            tried.same_on_copy(&both.image, step)?;
        }
        Ok(tried)
    }

    /// At times a step that is likely for the section given, and is not taken.
    pub fn compare_another(&mut self, both: &mut Both, likely: &Section) -> Outcome {
        if self.rng.chance(1, 8) {
            let step = offer(&mut self.rng, likely);
            self.compare(both, &step)?;
        }
        Ok(())
    }

    fn room(&mut self) -> usize {
        let longer = LAMPS_LENGTH + self.rng.below(200) as usize;
        self.rng.pick(&[LAMPS_LENGTH, LAMPS_LENGTH + 1, longer])
    }

    fn room_too_short(&mut self) -> usize {
        let shorter = self.rng.below(LAMPS_LENGTH as u64) as usize;
        self.rng.pick(&[0, LAMPS_LENGTH - 1, shorter])
    }

    fn compare_in(&mut self, room: usize, both: &mut Both, step: &[u8]) -> Result<Tried, Failure> {
        let before = both.image.clone();
        let mut buffer = Lent::patterned(room);
        let mut expected = buffer.clone();
        let input = || format!("{}\nbuffer: {room} bytes", described(&before, step));
        let answer = proved::engine::preview(both.image.part(), step, buffer.part());
        let second = second_preview(&both.section, step, expected.part());
        same("the answer to a preview", answer, second, &input)?;
        same_buffers("the lamps of a preview", &buffer, &expected, &input)?;
        same_buffers("the image after a preview", &both.image, &before, &input)?;
        let is_image = both.section.is_some();
        let fits = room >= LAMPS_LENGTH;
        self.cases.count(answer.0, is_image, fits);
        let lamps = is_image.then_some(buffer);
        Ok(Tried { answer, lamps })
    }
}

fn described(image: &Lent, step: &[u8]) -> String {
    format!("image: {}\nstep:  {}", hex(image.content()), hex(step))
}

/// The preview by the second implementation, at the front of the buffer. Bytes that are no image
/// leave it as it was; a buffer too short is answered after a state out of range.
fn second_preview(section: &Option<Section>, step: &[u8], buffer: &mut [u8]) -> (u16, u16) {
    let Some(section) = section else {
        return (NO_SECTION, 0);
    };
    let Some(front) = buffer.get_mut(..LAMPS_LENGTH) else {
        let refusal = match section.in_range() {
            true => BUFFER_TOO_SHORT,
            false => NO_SECTION,
        };
        return (refusal, 0);
    };
    let tried = preview(section, step);
    let posts = tried.lamps.iter().flatten();
    for (lamps, &(circulation, troncon, permission)) in
        front.chunks_exact_mut(LAMPS_OF_POST).zip(posts)
    {
        lamps.copy_from_slice(&[circulation, troncon, permission]);
    }
    (u16::from(tried.refusal), u16::from(tried.said))
}
