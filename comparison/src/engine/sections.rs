//! Single steps on sections in range, reachable or not, and out of range.

use super::judging::Both;
use super::offers::offer;
use super::previews::Previews;
use super::tally::Tally;
use crate::files::bounds::crossings_at_bounds;
use crate::image::{image_of, make_representable, put_layout, put_other_layout, section_of};
use crate::image::{spoil_zero, zero_places, IMAGE_LENGTH, LENGTH_OF_LAYOUT_1};
use crate::lent::Lent;
use crate::report::{Comparison, Outcome};
use reference::generate::{put_out_of_range, random_in_range_section, Rng};
use reference::section::Section;

const IN_RANGE: u32 = 150_000;
const OUT_OF_RANGE: u32 = 10_000;
const CHANGED: u32 = 20_000;
const OTHER_LENGTHS: u32 = 1_000;
const OTHER_LAYOUTS: u32 = 5_000;
const AT_BOUNDS: u32 = 20;

/// The faults' byte, and the number of a train, a last train and a caution form, at and beside their bounds.
const FAULTS: [u8; 7] = [0, 7, 8, 15, 16, 128, 255];
const NUMBERS: [u16; 9] = [0, 1, 9_999, 10_000, 59_998, 59_999, 60_000, 60_001, 65_535];

pub struct SectionComparison {
    rng: Rng,
    pub previews: Previews,
    pub tally: Tally,
}

impl Comparison for SectionComparison {
    fn new(rng: Rng) -> SectionComparison {
        SectionComparison {
            previews: Previews::beside(&rng),
            rng,
            tally: Tally::default(),
        }
    }

    fn all(&mut self) -> Outcome {
        for _ in 0..IN_RANGE {
            let section = section_in_range(&mut self.rng);
            self.compare_section(&section)?;
        }
        for _ in 0..OUT_OF_RANGE {
            let mut section = section_in_range(&mut self.rng);
            spoil(&mut self.rng, &mut section);
            self.compare_section(&section)?;
        }
        self.crossings_at_bounds()?;
        for _ in 0..AT_BOUNDS {
            self.posts_at_bounds()?;
            self.trains_at_bounds()?;
            self.zeros_set()?;
        }
        for _ in 0..CHANGED {
            self.changed_image()?;
        }
        for _ in 0..OTHER_LENGTHS {
            self.image_of_other_length()?;
        }
        for _ in 0..OTHER_LAYOUTS {
            self.image_of_other_layout()?;
        }
        Ok(())
    }
}

impl SectionComparison {
    fn section_of_posts(&mut self, n: u8) -> Section {
        loop {
            let section = section_in_range(&mut self.rng);
            if section.settings.n == n {
                return section;
            }
        }
    }

    fn crossings_at_bounds(&mut self) -> Outcome {
        for n in [2, 3, 16] {
            for crossings in crossings_at_bounds(n) {
                let mut section = self.section_of_posts(n);
                section.settings.crossings = crossings;
                self.compare_section(&section)?;
            }
        }
        Ok(())
    }

    /// At the end posts, the cell past them and the last one.
    fn posts_at_bounds(&mut self) -> Outcome {
        let section = section_in_range(&mut self.rng);
        let n = usize::from(section.settings.n);
        for track in [0, 1] {
            for post in [0, n - 1, n.min(15), 15] {
                for faults in FAULTS {
                    let mut spoiled = section;
                    spoiled.tracks[track].posts[post].faults = faults;
                    self.compare_section(&spoiled)?;
                }
                for number in NUMBERS {
                    let mut spoiled = section;
                    spoiled.tracks[track].posts[post].form_for = number;
                    self.compare_section(&spoiled)?;
                }
            }
        }
        Ok(())
    }

    /// In the block sections at the ends, in the cell past them and in the last one.
    fn trains_at_bounds(&mut self) -> Outcome {
        let section = section_in_range(&mut self.rng);
        let n = usize::from(section.settings.n);
        for track in [0, 1] {
            for block in [0, n - 2, (n - 1).min(14), 14] {
                for number in NUMBERS {
                    let mut with_train = section;
                    with_train.tracks[track].trains[block] = number;
                    self.compare_section(&with_train)?;
                    let mut with_last = section;
                    with_last.tracks[track].last[block] = number;
                    self.compare_section(&with_last)?;
                }
            }
        }
        Ok(())
    }

    fn compare_section(&mut self, section: &Section) -> Outcome {
        self.compare(&image_of(section), section)
    }

    /// Each byte that says nothing set to 1, and one of them to anything.
    fn zeros_set(&mut self) -> Outcome {
        let section = section_in_range(&mut self.rng);
        let sound = image_of(&section);
        for place in zero_places(&sound) {
            let mut image = sound;
            image[place] = 1;
            self.compare(&image, &section)?;
        }
        let mut image = sound;
        spoil_zero(&mut self.rng, &mut image);
        self.compare(&image, &section)
    }

    /// One byte changed anywhere, past the last post too; the section may stay in range.
    fn changed_image(&mut self) -> Outcome {
        let section = section_in_range(&mut self.rng);
        let mut image = image_of(&section);
        let place = self.rng.below(IMAGE_LENGTH as u64) as usize;
        image[place] = match self.rng.below(3) {
            0 => self.rng.byte(),
            1 => self.rng.pick(&[0, 1, 2, 3, 4, 7, 8, 15, 16, 127, 128, 255]),
            _ => image[place].wrapping_add(1),
        };
        self.compare(&image, &section)
    }

    /// At times with the number of layout 1.
    fn image_of_other_length(&mut self) -> Outcome {
        let section = section_in_range(&mut self.rng);
        let mut image = image_of(&section);
        if self.rng.chance(1, 4) {
            put_layout(1, &mut image);
        }
        let mut image = image.to_vec();
        let length = match self.rng.below(4) {
            0 => self.rng.below(IMAGE_LENGTH as u64) as usize,
            1 => IMAGE_LENGTH - 1,
            2 => LENGTH_OF_LAYOUT_1,
            _ => IMAGE_LENGTH + 1 + self.rng.below(20) as usize,
        };
        image.resize(length, 0);
        self.compare(&image, &section)
    }

    /// In range but for the layout's number.
    fn image_of_other_layout(&mut self) -> Outcome {
        let section = section_in_range(&mut self.rng);
        let mut image = image_of(&section);
        put_other_layout(&mut self.rng, &mut image);
        self.compare(&image, &section)
    }

    /// With a step that is likely for the section given.
    fn compare(&mut self, image: &[u8], likely: &Section) -> Outcome {
        let step = offer(&mut self.rng, likely);
        let mut both = Both {
            image: Lent::holding(image),
            section: section_of(image),
        };
        both.judge(&mut self.rng, &step, &mut self.previews, &mut self.tally)?;
        Ok(())
    }
}

/// In range, mostly unreachable.
pub fn section_in_range(rng: &mut Rng) -> Section {
    let mut section = random_in_range_section(rng);
    make_representable(&mut section);
    section
}

/// One field out of its range, or a signalled post that isn't there.
pub fn spoil(rng: &mut Rng, section: &mut Section) {
    let n = section.settings.n;
    if n < 16 && rng.chance(1, 16) {
        let above = n + rng.below(u64::from(16 - n)) as u8;
        section.settings.mask |= 1 << above;
    } else {
        put_out_of_range(rng, section);
    }
}
