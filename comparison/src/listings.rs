//! The bench listing and the panel listing of day files.

use crate::files::lengths::shapes_at_bounds;
use crate::files::refusals::{Case, Refusals};
use crate::lent::{same_buffers, Lent};
use crate::proved;
use crate::report::{hex, same, Comparison, Outcome};
use reference::dayfile::{self, MOST_STEPS};
use reference::generate::{damage, random_day, Rng};
use reference::listing;

pub struct ListingComparison {
    rng: Rng,
    pub seen: Refusals,
}

/// A listing as either side makes it.
struct Kind {
    name: &'static str,
    proved: fn(&[u8], &mut [u8]) -> u64,
    second: fn(&[u8]) -> Vec<u8>,
}

const KINDS: [Kind; 2] = [
    Kind {
        name: "listing",
        proved: proved::listing::listing,
        second: listing::listing,
    },
    Kind {
        name: "panel",
        proved: proved::listing::panel,
        second: listing::panel,
    },
];

impl Comparison for ListingComparison {
    fn new(rng: Rng) -> ListingComparison {
        ListingComparison {
            rng,
            seen: Refusals::default(),
        }
    }

    fn all(&mut self) -> Outcome {
        for (times, least, most) in [
            (50, 0, 0),
            (1_500, 1, 40),
            (100, 100, 400),
            (2, MOST_STEPS - 1, MOST_STEPS - 1),
            (4, MOST_STEPS, MOST_STEPS),
        ] {
            for _ in 0..times {
                let count = self.rng.between(least, most);
                self.day_and_damaged_day(count)?;
            }
        }
        self.lengths_at_bounds()
    }
}

impl ListingComparison {
    fn day_and_damaged_day(&mut self, count: usize) -> Outcome {
        let mut file = random_day(&mut self.rng, count);
        self.compare(&file)?;
        damage(&mut self.rng, &mut file);
        self.compare(&file)
    }

    /// Around the least and the greatest length of either mark.
    fn lengths_at_bounds(&mut self) -> Outcome {
        for shape in shapes_at_bounds() {
            let file = shape.file(&mut self.rng);
            self.compare(&file)?;
        }
        Ok(())
    }

    fn compare(&mut self, file: &[u8]) -> Outcome {
        for kind in &KINDS {
            let text = (kind.second)(file);
            let less = self.rng.below(text.len() as u64) as usize;
            let more = self.rng.below(100) as usize;
            for room in [text.len(), text.len() - 1, text.len() + more, less, 0] {
                kind.compare(file, &text, room)?;
            }
        }
        let refusal = dayfile::read(file).map_or_else(|refusal| refusal.number, |_| 0);
        let refusal = usize::from(refusal);
        self.seen.count(refusal, Case::of_file(file, refusal));
        Ok(())
    }
}

impl Kind {
    /// A buffer too short is answered 0 and untouched.
    fn compare(&self, file: &[u8], text: &[u8], room: usize) -> Outcome {
        let mut buffer = Lent::patterned(room);
        let mut expected = buffer.clone();
        let answer = expected.take_text(text);
        let input = || format!("file: {}\nbuffer: {room} bytes", hex(file));
        let proved = (self.proved)(file, buffer.part());
        same(
            &format!("the answer to {}", self.name),
            proved,
            answer,
            &input,
        )?;
        same_buffers(
            &format!("the buffer of {}", self.name),
            &buffer,
            &expected,
            &input,
        )
    }
}
