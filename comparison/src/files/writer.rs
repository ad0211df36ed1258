//! Settings, steps and buffers offered to both writers.

use super::bounds::{settings_bytes_at_bounds, steps_at_bounds};
use super::refusals::{Case, Refusals};
use super::{any_steps, day_around, random_bytes, sound_step, sound_steps, MARKS};
use super::{settings_bytes, settings_lent, settings_of_other_lengths, settings_under};
use crate::lent::{same_buffers, Lent};
use crate::proved;
use crate::report::{hex, same, Comparison, Outcome};
use reference::dayfile::{self, MOST_STEPS, TRAILER_LENGTH};
use reference::generate::{random_settings, Rng};
use reference::step::STEP_LENGTH;

const SETTINGS_REFUSED: u64 = 3;

pub struct WriterComparison {
    rng: Rng,
    pub seen: Refusals,
}

impl Comparison for WriterComparison {
    fn new(rng: Rng) -> WriterComparison {
        WriterComparison {
            rng,
            seen: Refusals::default(),
        }
    }

    fn all(&mut self) -> Outcome {
        self.settings_at_bounds()?;
        self.steps_at_bounds()?;
        self.buffers_of_every_length()?;
        self.incomplete_steps()?;
        self.random_calls()?;
        self.long_files()
    }
}

impl WriterComparison {
    /// With the answer, the whole buffer is compared, refused calls included.
    fn compare(&mut self, settings: &[u8], steps: &[u8], room: usize) -> Outcome {
        let mut proved_buffer = Lent::patterned(room);
        let mut second_buffer = proved_buffer.clone();
        let proved = proved::files::write(settings, steps, proved_buffer.part());
        let second = second_writing(settings, steps, second_buffer.part());
        let input = || {
            let (settings, steps) = (hex(settings), hex(steps));
            format!("settings: {settings}\nsteps: {steps}\nbuffer: {room} bytes")
        };
        same("the writer's answer", proved, second, &input)?;
        same_buffers(
            "the writer's buffer",
            &proved_buffer,
            &second_buffer,
            &input,
        )?;
        let case = case_of(second, settings, second_buffer.content());
        self.seen.count(second.0 as usize, case);
        Ok(())
    }

    /// With room for the file, more or less.
    fn compare_in_some_room(&mut self, settings: &[u8], steps: &[u8]) -> Outcome {
        let length = file_length(settings, steps);
        let room = match self.rng.below(10) {
            0 => length - 1,
            1 => self.rng.below(length as u64) as usize,
            2 => length + 1,
            3 => length + self.rng.below(40) as usize,
            4 => length - 8,
            _ => length,
        };
        self.compare(settings, steps, room)
    }

    /// With steps that may be malformed and buffers that may be short, so that 3 comes before 4 and 5.
    fn settings_at_bounds(&mut self) -> Outcome {
        for settings in settings_bytes_at_bounds() {
            let steps = any_steps(&mut self.rng, settings[0].max(1));
            self.compare_in_some_room(&settings, &steps)?;
        }
        for _ in 0..100 {
            for settings in settings_of_other_lengths(&mut self.rng) {
                let steps = any_steps(&mut self.rng, 2);
                self.compare_in_some_room(&settings, &steps)?;
            }
        }
        Ok(())
    }

    /// With sound steps before and behind, and buffers that may be short, so that 4 comes before 5.
    fn steps_at_bounds(&mut self) -> Outcome {
        for (n, step) in steps_at_bounds() {
            let (settings, steps) = day_around(&mut self.rng, n, step);
            self.compare_in_some_room(&settings_bytes(&settings), &steps)?;
        }
        Ok(())
    }

    /// From 0 to nine bytes past the file, under either mark.
    fn buffers_of_every_length(&mut self) -> Outcome {
        for count in 0..=6 {
            for round in 0..60 {
                let settings = settings_under(&mut self.rng, MARKS[round % 2]);
                let steps = sound_steps(&mut self.rng, settings.n, count, count);
                let settings = settings_bytes(&settings);
                for room in 0..=file_length(&settings, &steps) + 9 {
                    self.compare(&settings, &steps, room)?;
                }
            }
        }
        Ok(())
    }

    /// The rest is the beginning of a sound step, or anything.
    fn incomplete_steps(&mut self) -> Outcome {
        for whole in 0..=4 {
            for rest in 1..STEP_LENGTH {
                for round in 0..100 {
                    let settings = random_settings(&mut self.rng);
                    let mut steps = sound_steps(&mut self.rng, settings.n, whole, whole);
                    let last = match round % 2 {
                        0 => sound_step(&mut self.rng, settings.n),
                        _ => self.rng.next_u64().to_le_bytes(),
                    };
                    steps.extend(&last[..rest]);
                    let settings = settings_bytes(&settings);
                    let fits_whole = file_length(&settings, &steps[..whole * STEP_LENGTH]);
                    for room in [0, fits_whole, 100] {
                        self.compare(&settings, &steps, room)?;
                    }
                }
            }
        }
        Ok(())
    }

    fn random_calls(&mut self) -> Outcome {
        for _ in 0..20_000 {
            let settings = random_settings(&mut self.rng);
            let steps = any_steps(&mut self.rng, settings.n);
            let settings = settings_bytes(&settings);
            self.compare_in_some_room(&settings, &steps)?;
            let steps = random_bytes(&mut self.rng, 40);
            self.compare_in_some_room(&settings, &steps)?;
        }
        Ok(())
    }

    /// Around 4,096 steps, under either mark.
    fn long_files(&mut self) -> Outcome {
        for mark in MARKS {
            for count in [MOST_STEPS - 1, MOST_STEPS, MOST_STEPS + 1, MOST_STEPS + 20] {
                let settings = settings_under(&mut self.rng, mark);
                let steps = sound_steps(&mut self.rng, settings.n, count + 1, count + 1);
                self.long_files_of(&settings_bytes(&settings), &steps, count)?;
            }
        }
        Ok(())
    }

    /// Whole and incomplete, sound and malformed on either side of the limit.
    fn long_files_of(&mut self, settings: &[u8], steps: &[u8], count: usize) -> Outcome {
        for rest in [0, 1, 7] {
            let given = &steps[..count * STEP_LENGTH + rest];
            self.long_file(settings, given)?;
            for index in [0, MOST_STEPS - 2, MOST_STEPS, count - 1] {
                let mut spoiled = given.to_vec();
                if let Some(kind) = spoiled.get_mut(index * STEP_LENGTH) {
                    *kind = 0;
                }
                self.long_file(settings, &spoiled)?;
            }
        }
        Ok(())
    }

    fn long_file(&mut self, settings: &[u8], steps: &[u8]) -> Outcome {
        let length = file_length(settings, steps);
        let rooms = [
            0,
            length - 9,
            length - 8,
            length - 1,
            length,
            length + 1,
            length + 9,
            40_000,
        ];
        for room in rooms {
            self.compare(settings, steps, room)?;
        }
        Ok(())
    }
}

fn file_length(settings: &[u8], steps: &[u8]) -> usize {
    steps.len() + settings.len() + TRAILER_LENGTH
}

/// Of an answer: the file at the front of the buffer, or the settings that are refused.
fn case_of(answer: (u64, u64), settings: &[u8], buffer: &[u8]) -> Option<Case> {
    match answer {
        (0, length) => Case::of_file(&buffer[..length as usize], 0),
        (SETTINGS_REFUSED, _) => Case::of_refused_settings(settings),
        _ => None,
    }
}

/// Bytes that are no settings are refused as settings out of range.
fn second_writing(settings: &[u8], steps: &[u8], buffer: &mut [u8]) -> (u64, u64) {
    let Some(settings) = settings_lent(settings) else {
        return (SETTINGS_REFUSED, 0);
    };
    match dayfile::write(&settings, steps, buffer) {
        Ok(length) => (0, length as u64),
        Err(refusal) => (u64::from(refusal.number), u64::from(refusal.index)),
    }
}
