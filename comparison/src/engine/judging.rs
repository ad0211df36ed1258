//! One step tried and then judged by both engines, and what all posts show after it.

use crate::engine::cautions::Fate;
use crate::engine::parts::ByPart;
use crate::engine::previews::{Previews, Tried};
use crate::engine::tally::Tally;
use crate::image::{cell_name, image_of, posts_said};
use crate::lent::{same_buffers, Lent};
use crate::proved;
use crate::report::{hex, same, Failure, Outcome};
use reference::engine::judge_in_place;
use reference::generate::Rng;
use reference::indications::indications;
use reference::section::Section;

const NO_SECTION: u8 = 6;

/// The proved side's image and the second implementation's section, `None` where the image
/// stands for no section. A step moves both on.
pub struct Both {
    pub image: Lent,
    pub section: Option<Section>,
}

impl Both {
    /// The refusal, 0 for none.
    pub fn judge(
        &mut self,
        rng: &mut Rng,
        step: &[u8],
        previews: &mut Previews,
        tally: &mut Tally,
    ) -> Result<u8, Failure> {
        let tried = previews.compare(self, step)?;
        let before = self.image.clone();
        let section_before = self.section;
        let input = || format!("image: {}\nstep:  {}", hex(before.content()), hex(step));
        let proved = proved::engine::judge(self.image.part(), step);
        let (refusal, said) = self.second_answer(step);
        let second = (u16::from(refusal), u16::from(said));
        same("refusal and what is said", proved, second, &input)?;
        tried.same_answer(proved, &input)?;
        let expected = self.expected_image(&before, refusal);
        self.same_image(&expected, &input)?;
        self.compare_indications(rng, &tried, &input)?;
        self.count_lamps(tally, &input)?;
        tally.count(step, refusal, said);
        if let Some(section) = section_before {
            tally.count_by_part(ByPart::of(&section, step, refusal));
            if refusal == 0 {
                tally.count_fate(Fate::of(&section, step));
            }
        }
        Ok(refusal)
    }

    fn second_answer(&mut self, step: &[u8]) -> (u8, u8) {
        match &mut self.section {
            Some(section) => judge_in_place(section, step),
            None => (NO_SECTION, 0),
        }
    }

    /// A refused image is unchanged.
    fn expected_image(&self, before: &Lent, refusal: u8) -> Lent {
        match &self.section {
            Some(section) if refusal == 0 => Lent::holding(&image_of(section)),
            _ => before.clone(),
        }
    }

    fn same_image(&self, expected: &Lent, input: &dyn Fn() -> String) -> Outcome {
        if self.image == *expected {
            return Ok(());
        }
        let differs = |place: &usize| self.image.content()[*place] != expected.content()[*place];
        let cell = (0..expected.content().len()).find(differs).map(cell_name);
        let what = format!("the image after, {}", cell.as_deref().unwrap_or("guard"));
        same_buffers(&what, &self.image, expected, input)
    }

    /// Every post and one past, on either track and the one past them, and any other pair.
    fn compare_indications(
        &self,
        rng: &mut Rng,
        tried: &Tried,
        input: &dyn Fn() -> String,
    ) -> Outcome {
        let n = posts_said(self.image.content());
        for track in 0..=2 {
            for post in 0..=n {
                self.same_indications(track, post, tried, input)?;
            }
        }
        let (track, post) = (rng.byte(), rng.byte());
        self.same_indications(track, post, tried, input)
    }

    /// What the posts' lamps show of the parts, and that the lamp table has it.
    fn count_lamps(&self, tally: &mut Tally, input: &dyn Fn() -> String) -> Outcome {
        let Some(section) = self.section.filter(Section::in_range) else {
            return Ok(());
        };
        for track in [0, 1] {
            for post in 0..section.settings.n {
                let shown = indications(&section, track, post);
                let looked_up = tally.entries.look_up(&section, track, post);
                same("what the lamp table has", looked_up, shown, input)?;
                tally.count_by_part(ByPart::shown(&section, track, post, shown.1));
            }
        }
        Ok(())
    }

    fn same_indications(
        &self,
        track: u8,
        post: u8,
        tried: &Tried,
        input: &dyn Fn() -> String,
    ) -> Outcome {
        let proved = proved::engine::indications(self.image.content(), track, post);
        let (circulation, troncon, permission) = match &self.section {
            Some(section) => indications(section, track, post),
            None => (0, 0, 0),
        };
        let second = (
            u16::from(circulation),
            u16::from(troncon),
            u16::from(permission),
        );
        let input = || format!("{}\ntrack: {track}\npost:  {post}", input());
        same("indications after the step", proved, second, &input)?;
        tried.same_indications(track, post, proved, &input)
    }
}
