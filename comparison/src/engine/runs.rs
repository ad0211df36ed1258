//! Runs of steps in one call.

use super::cautions::Fate;
use super::run_calls::Ran;
use super::run_cases::RunCases;
use super::run_inputs::{exact_room, image_out_of_range, longer_room, no_image, rooms};
use super::run_inputs::{start, steps_from, Input, DAMAGES};
use super::tally::Tally;
use crate::image::{image_of, section_of, zero_places};
use crate::report::{Comparison, Outcome};
use reference::dayfile::MOST_STEPS;
use reference::engine::judge_in_place;
use reference::generate::Rng;
use reference::step::STEP_LENGTH;

const DONE: u32 = 12_000;
const MOST_STEPS_DONE: usize = 120;
const OF_ALL_KINDS: u32 = 200;
const MOST_STEPS_OF_ALL_KINDS: usize = 20;
const AROUND_MOST_STEPS: u32 = 8;

pub struct RunComparison {
    rng: Rng,
    /// The steps of the runs that were done.
    pub tally: Tally,
    pub cases: RunCases,
}

impl Comparison for RunComparison {
    fn new(rng: Rng) -> RunComparison {
        RunComparison {
            rng,
            tally: Tally::default(),
            cases: RunCases::default(),
        }
    }

    fn all(&mut self) -> Outcome {
        for _ in 0..DONE {
            self.done()?;
        }
        for _ in 0..OF_ALL_KINDS {
            self.of_all_kinds()?;
            self.zeros_set()?;
        }
        for _ in 0..AROUND_MOST_STEPS {
            self.around_most_steps()?;
        }
        Ok(())
    }
}

impl RunComparison {
    /// Well-formed steps and room enough.
    fn done(&mut self) -> Outcome {
        let section = start(&mut self.rng);
        let count = self.rng.between(0, MOST_STEPS_DONE);
        let steps = steps_from(&mut self.rng, &section, count);
        let room = match self.rng.chance(1, 2) {
            true => exact_room(&steps),
            false => longer_room(&mut self.rng, &steps),
        };
        let image = image_of(&section).to_vec();
        self.compare(&Input { image, steps, room })
    }

    /// Each byte that says nothing set to 1.
    fn zeros_set(&mut self) -> Outcome {
        let section = start(&mut self.rng);
        let steps = steps_from(&mut self.rng, &section, MOST_STEPS_OF_ALL_KINDS);
        let sound = image_of(&section);
        for place in zero_places(&sound) {
            let mut image = sound.to_vec();
            image[place] = 1;
            self.compare(&Input {
                image,
                steps: steps.clone(),
                room: exact_room(&steps),
            })?;
        }
        Ok(())
    }

    /// In range, out of range and no image, with sound steps and with every damage to them, in every room.
    fn of_all_kinds(&mut self) -> Outcome {
        let section = start(&mut self.rng);
        let count = self.rng.between(0, MOST_STEPS_OF_ALL_KINDS);
        let steps = steps_from(&mut self.rng, &section, count);
        let images = [
            image_of(&section).to_vec(),
            image_out_of_range(&mut self.rng, &section),
            no_image(&mut self.rng, &section),
        ];
        for image in images {
            self.with_every_damage(&image, &steps, section.settings.n)?;
        }
        Ok(())
    }

    /// As many steps as a call may have, one less, and one and two more.
    fn around_most_steps(&mut self) -> Outcome {
        let section = start(&mut self.rng);
        let most = MOST_STEPS + 2;
        let steps = steps_from(&mut self.rng, &section, most);
        let image = image_of(&section);
        for count in MOST_STEPS - 1..=most {
            let steps = &steps[..count * STEP_LENGTH];
            self.with_every_damage(&image, steps, section.settings.n)?;
        }
        Ok(())
    }

    fn with_every_damage(&mut self, image: &[u8], steps: &[u8], n: u8) -> Outcome {
        for damage in DAMAGES {
            let steps = damage.done_to(&mut self.rng, steps, n);
            for room in rooms(&mut self.rng, &steps) {
                self.compare(&Input {
                    image: image.to_vec(),
                    steps: steps.clone(),
                    room,
                })?;
            }
        }
        Ok(())
    }

    fn compare(&mut self, input: &Input) -> Outcome {
        let ran = Ran::in_one_call(input)?;
        self.cases.count(input, &ran);
        if ran.is_done() {
            ran.same_singly(input)?;
            let cut = self.rng.between(0, ran.answers().len());
            ran.same_in_two_calls(input, cut)?;
            self.cases.count_two_calls(&ran, cut);
            self.count_steps(input, &ran);
        }
        Ok(())
    }

    /// Each step of a run that is done, with its answer.
    fn count_steps(&mut self, input: &Input, ran: &Ran) {
        let Some(mut section) = section_of(&input.image) else {
            return;
        };
        let steps = input.steps.chunks_exact(STEP_LENGTH);
        for (step, &[refusal, said]) in steps.zip(ran.answers()) {
            self.tally.count(step, refusal, said);
            if refusal == 0 {
                self.tally.count_fate(Fate::of(&section, step));
            }
            judge_in_place(&mut section, step);
        }
    }
}
