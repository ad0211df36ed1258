//! Days from the fresh section on.

use super::judging::Both;
use super::notes::{room_for, second_notes};
use super::offers::offer;
use super::previews::Previews;
use super::tally::Tally;
use crate::files::bounds::settings_bytes_at_bounds;
use crate::files::{settings_bytes, settings_lent, settings_of_other_lengths, sound_step};
use crate::image::{image_of, IMAGE_LENGTH, LENGTH_OF_LAYOUT_1};
use crate::lent::{same_buffers, Lent};
use crate::proved::{self, engine::Way};
use crate::report::{hex, same, Comparison, Failure, Outcome};
use reference::engine::judge_in_place;
use reference::generate::{furthering_step, random_settings, Rng};
use reference::section::{Section, MOST_SEALS};
use reference::settings::{Settings, NO_CROSSINGS};
use reference::step::{encode, Step, GREATEST_TRAIN, STEP_LENGTH};

const DAYS: u32 = 800;
const MOST_STEPS_OF_DAY: u64 = 500;
const BUFFER_TOO_SHORT: u8 = 5;
const OUT_OF_RANGE: u8 = 6;

pub struct DayComparison {
    rng: Rng,
    pub previews: Previews,
    pub tally: Tally,
    pub fresh_sections: u64,
    pub days_noted: u64,
}

struct Day {
    settings: Settings,
    both: Both,
    /// The steps offered, but for those of a wrong length.
    steps: Vec<u8>,
}

impl Comparison for DayComparison {
    fn new(rng: Rng) -> DayComparison {
        DayComparison {
            previews: Previews::beside(&rng),
            rng,
            tally: Tally::default(),
            fresh_sections: 0,
            days_noted: 0,
        }
    }

    fn all(&mut self) -> Outcome {
        self.fresh_at_bounds()?;
        for _ in 0..DAYS {
            self.random_day()?;
        }
        self.day_of_keys()?;
        self.day_of_a_late_caution()
    }
}

impl DayComparison {
    /// Settings in and out of range, and of other lengths.
    fn fresh_at_bounds(&mut self) -> Outcome {
        for settings in settings_bytes_at_bounds() {
            self.fresh_and_noted(&settings)?;
        }
        for settings in settings_of_other_lengths(&mut self.rng) {
            self.fresh_and_noted(&settings)?;
        }
        Ok(())
    }

    /// The fresh section in buffers of several lengths, and the notes of a day of one step, whole and incomplete.
    fn fresh_and_noted(&mut self, settings: &[u8]) -> Outcome {
        for room in [
            0,
            LENGTH_OF_LAYOUT_1,
            IMAGE_LENGTH - 1,
            IMAGE_LENGTH,
            IMAGE_LENGTH + 40,
        ] {
            self.fresh(settings, room)?;
        }
        let step = sound_step(&mut self.rng, 2);
        self.same_notes(settings, &step)?;
        self.same_notes(settings, &step[1..])
    }

    /// Noted as it is, and with an incomplete step at its end.
    fn random_day(&mut self) -> Outcome {
        let settings = random_settings(&mut self.rng);
        let mut day = self.begin(settings)?;
        for _ in 0..self.rng.below(MOST_STEPS_OF_DAY) {
            self.take_any_step(&mut day)?;
        }
        let settings = settings_bytes(&settings);
        self.same_notes(&settings, &day.steps)?;
        let rest = self.rng.between(1, STEP_LENGTH - 1);
        day.steps.extend(vec![0; rest]);
        self.same_notes(&settings, &day.steps)
    }

    /// Reversals there and back by the emergency button, until its seals are used up.
    fn day_of_keys(&mut self) -> Outcome {
        let track = self.rng.flag();
        let settings = Settings {
            n: 2,
            form: self.rng.flag(),
            mask: 3,
            line: 1,
            crossings: NO_CROSSINGS,
        };
        let mut day = self.begin(settings)?;
        for post in [0, 1] {
            self.take(&mut day, &encode(track, &Step::MeasuresOn { post }))?;
            self.take(&mut day, &encode(track, &Step::FaultOn { post, fault: 2 }))?;
        }
        for reversal in 0..=MOST_SEALS {
            let sending_end = track ^ (reversal & 1) as u8;
            for step in reversal_by_key(sending_end) {
                self.take(&mut day, &encode(track, &step))?;
            }
        }
        self.same_notes(&settings_bytes(&settings), &day.steps)
    }

    /// A caution form handed out by the middle one of three posts after its own set: the train that it is for comes with the new direction, in which
    /// no crossing lies ahead of that post.
    fn day_of_a_late_caution(&mut self) -> Outcome {
        let track = self.rng.flag();
        let settings = Settings {
            n: 3,
            form: self.rng.flag(),
            mask: 7,
            line: 1,
            crossings: [1 - track, 255, 255, 255, 255, 255, 255, 255],
        };
        let train = 1 + self.rng.below(u64::from(GREATEST_TRAIN)) as u16;
        let mut day = self.begin(settings)?;
        for step in late_caution(2 * track, train) {
            self.take(&mut day, &encode(track, &step))?;
        }
        self.same_notes(&settings_bytes(&settings), &day.steps)
    }

    /// The proved notes of the whole day, both ways, against the steps judged one by one, in a buffer as long, longer and too short.
    fn same_notes(&mut self, settings: &[u8], steps: &[u8]) -> Outcome {
        let exact = room_for(steps);
        for room in [exact, exact + 9, exact.saturating_sub(1)] {
            let lent = Lent::patterned(room);
            let mut expected = lent.clone();
            let second = second_notes(settings, steps, expected.part(), judge_in_place);
            for way in [Way::Singly, Way::InPlace] {
                let mut notes = lent.clone();
                let input = || {
                    let (settings, steps) = (hex(settings), hex(steps));
                    format!("settings: {settings}, {way:?}, room {room}\nsteps: {steps}")
                };
                let proved = proved::engine::day(way, settings, steps, notes.part());
                same("the answer to a day's steps", proved, second, &input)?;
                same_buffers("the notes of a day", &notes, &expected, &input)?;
            }
        }
        self.days_noted += 1;
        Ok(())
    }

    /// The fresh section in a buffer, compared.
    fn fresh(&mut self, settings: &[u8], room: usize) -> Result<Lent, Failure> {
        let mut image = Lent::patterned(room);
        let mut expected = image.clone();
        let input = || format!("settings: {}\nbuffer: {room} bytes", hex(settings));
        let proved = proved::engine::fresh(settings, image.part());
        let second = second_fresh(settings, expected.part());
        same("the answer to fresh", proved, second, &input)?;
        same_buffers("the fresh section's image", &image, &expected, &input)?;
        self.fresh_sections += 1;
        Ok(image)
    }

    fn begin(&mut self, settings: Settings) -> Result<Day, Failure> {
        let image = self.fresh(&settings_bytes(&settings), IMAGE_LENGTH)?;
        Ok(Day {
            settings,
            both: Both {
                image,
                section: Some(Section::fresh(settings)),
            },
            steps: Vec::new(),
        })
    }

    /// At times after the preview of another one, which has to leave the image and so the day's answers as they are.
    fn take_any_step(&mut self, day: &mut Day) -> Outcome {
        let section = day.both.section.unwrap_or(Section::fresh(day.settings));
        self.previews.compare_another(&mut day.both, &section)?;
        let step = match self.rng.chance(1, 3) {
            true => {
                let track = self.rng.flag();
                furthering_step(&mut self.rng, &section, track).to_vec()
            }
            false => offer(&mut self.rng, &section),
        };
        self.take(day, &step)
    }

    fn take(&mut self, day: &mut Day, step: &[u8]) -> Outcome {
        day.both
            .judge(&mut self.rng, step, &mut self.previews, &mut self.tally)?;
        if step.len() == STEP_LENGTH {
            day.steps.extend(step);
        }
        Ok(())
    }
}

fn second_fresh(settings: &[u8], buffer: &mut [u8]) -> u8 {
    let Some(settings) = settings_lent(settings) else {
        return OUT_OF_RANGE;
    };
    match buffer.get_mut(..IMAGE_LENGTH) {
        Some(front) => {
            front.copy_from_slice(&image_of(&Section::fresh(settings)));
            0
        }
        None => BUFFER_TOO_SHORT,
    }
}

/// For three posts.
fn late_caution(sending_end: u8, train: u16) -> [Step; 15] {
    let receiving_end = 2 - sending_end;
    [
        Step::MeasuresOn { post: 0 },
        Step::MeasuresOn { post: 1 },
        Step::MeasuresOn { post: 2 },
        Step::Order { post: sending_end },
        Step::Set { post: sending_end },
        Step::Announce { post: sending_end },
        Step::Acknowledge { post: 1 },
        Step::Set { post: 1 },
        Step::Form { post: 1, train },
        Step::Announce { post: 1 },
        Step::Acknowledge {
            post: receiving_end,
        },
        Step::Set {
            post: receiving_end,
        },
        Step::Start {
            post: receiving_end,
            train,
        },
        Step::Pass { post: 1, train },
        Step::Leave {
            post: sending_end,
            train,
        },
    ]
}

/// For two posts.
fn reversal_by_key(sending_end: u8) -> [Step; 5] {
    let receiving_end = 1 - sending_end;
    [
        Step::Order { post: sending_end },
        Step::Key { post: sending_end },
        Step::Announce { post: sending_end },
        Step::Acknowledge {
            post: receiving_end,
        },
        Step::Key {
            post: receiving_end,
        },
    ]
}
