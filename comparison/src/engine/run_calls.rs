//! A run in one call, compared with the second implementation, with its steps offered singly and with the same steps in two calls.

use super::run_inputs::Input;
use crate::image::{image_of, section_of};
use crate::lent::{same_buffers_of_sides, Lent};
use crate::proved;
use crate::report::{same, same_sides, Failure, Outcome};
use reference::run::{self, run, ANSWER_LENGTH};
use reference::step::STEP_LENGTH;

const NO_SECTION: u8 = 6;

/// What is lent to a call.
#[derive(Clone)]
struct Loan {
    image: Lent,
    buffer: Lent,
}

impl Loan {
    fn of(input: &Input) -> Loan {
        Loan {
            image: Lent::holding(&input.image),
            buffer: Lent::patterned(input.room),
        }
    }

    /// The proved implementation, with the buffer from the answer of that index on.
    fn proved_run(&mut self, steps: &[u8], index: usize) -> (u64, u64) {
        let behind = &mut self.buffer.part()[index * ANSWER_LENGTH..];
        proved::engine::run(self.image.part(), steps, behind)
    }

    /// The second implementation. The image is written where the run is done, and where the section
    /// was changed though the call is refused.
    fn second_run(&mut self, steps: &[u8]) -> (u64, u64) {
        let Some(before) = section_of(self.image.content()) else {
            return (u64::from(NO_SECTION), 0);
        };
        let mut section = before;
        let outcome = run(&mut section, steps, self.buffer.part());
        if section != before || matches!(outcome, run::Outcome::Done(_)) {
            self.image.part().copy_from_slice(&image_of(&section));
        }
        match outcome {
            run::Outcome::Done(count) => (0, count as u64),
            run::Outcome::Refused { refusal, index } => (u64::from(refusal), index as u64),
        }
    }

    /// Offers the steps singly to the proved implementation and notes the answers.
    fn take_singly(&mut self, steps: &[[u8; STEP_LENGTH]]) {
        let (answers, _) = self.buffer.part().as_chunks_mut::<ANSWER_LENGTH>();
        for (step, answer) in steps.iter().zip(answers) {
            let (refusal, said) = proved::engine::judge(self.image.part(), step);
            *answer = [refusal as u8, said as u8];
        }
    }
}

/// What the proved implementation gave and left.
pub struct Ran {
    /// Of the call, 0 for none.
    pub refusal: u64,
    /// The count of steps, or the refusal's index.
    pub figure: u64,
    left: Loan,
}

impl Ran {
    /// By both implementations. A refused call leaves image and buffer.
    pub fn in_one_call(input: &Input) -> Result<Ran, Failure> {
        let described = || input.described();
        let before = Loan::of(input);
        let mut left = before.clone();
        let mut left_by_second = before.clone();
        let answer = left.proved_run(&input.steps, 0);
        let second = left_by_second.second_run(&input.steps);
        same("the answer to a run", answer, second, &described)?;
        let (refusal, figure) = answer;
        let ran = Ran {
            refusal,
            figure,
            left,
        };
        ran.left_as("second", &left_by_second, &described)?;
        if !ran.is_done() {
            ran.left_as("before", &before, &described)?;
        }
        Ok(ran)
    }

    /// As when every step is offered singly to the proved implementation.
    pub fn same_singly(&self, input: &Input) -> Outcome {
        let described = || input.described();
        let (steps, _) = input.steps.as_chunks();
        let sides = [("proved", self.figure), ("handed over", steps.len() as u64)];
        same_sides("the count of a run's steps", sides, &described)?;
        let mut singly = Loan::of(input);
        singly.take_singly(steps);
        self.left_as("singly", &singly, &described)
    }

    /// As when the proved implementation is given the steps in two calls. The second call has the
    /// rest of the buffer.
    pub fn same_in_two_calls(&self, input: &Input, cut: usize) -> Outcome {
        let described = || format!("{}\ncut after {cut} steps", input.described());
        let (first, rest) = input.steps.split_at(cut * STEP_LENGTH);
        let mut both = Loan::of(input);
        let answers = [both.proved_run(first, 0), both.proved_run(rest, cut)];
        let counts = [cut as u64, self.figure - cut as u64];
        let expected = counts.map(|count| (0, count));
        let sides = [("proved", answers), ("expected", expected)];
        same_sides("the answers to two calls", sides, &described)?;
        self.left_as("in two calls", &both, &described)
    }

    fn left_as(&self, side: &str, other: &Loan, input: &dyn Fn() -> String) -> Outcome {
        let buffers = [("proved", &self.left.buffer), (side, &other.buffer)];
        same_buffers_of_sides("the answers of a run", buffers, input)?;
        let images = [("proved", &self.left.image), (side, &other.image)];
        same_buffers_of_sides("the image after a run", images, input)
    }

    pub fn is_done(&self) -> bool {
        self.refusal == 0
    }

    /// Of a run that is done.
    pub fn answers(&self) -> &[[u8; ANSWER_LENGTH]] {
        let (answers, _) = self.left.buffer.content().as_chunks();
        &answers[..self.figure as usize]
    }
}
