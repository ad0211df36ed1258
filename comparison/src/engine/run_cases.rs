//! How often runs were answered how.

use super::run_calls::Ran;
use super::run_inputs::Input;
use crate::image::section_of;
use crate::report::{fail_if_any, Outcome};
use reference::dayfile::MOST_STEPS;
use reference::step::{first_malformed, STEP_LENGTH};

/// A step that is malformed for so many posts is malformed for any number.
const POSTS_OF_ANY: u8 = u8::MAX;

#[derive(Clone, Copy)]
pub enum Case {
    NoSteps,
    AllAccepted,
    SomeRefused,
    MostSteps,
    InTwoCalls,
    FirstMalformed,
    MalformedWithin,
    LastMalformed,
    Incomplete,
    IncompleteAfterMost,
    MalformedAndShort,
    MalformedAmongTooMany,
    MalformedPastMost,
    TooShort,
    OneByteShort,
    TooManySteps,
    OneStepTooMany,
    OutOfRange,
    OutOfRangeAndMalformed,
    OutOfRangeAndTooShort,
    NoImage,
    NoImageAndMalformed,
    NoImageAndTooShort,
}

pub const CASES: [Case; 23] = [
    Case::NoSteps,
    Case::AllAccepted,
    Case::SomeRefused,
    Case::MostSteps,
    Case::InTwoCalls,
    Case::FirstMalformed,
    Case::MalformedWithin,
    Case::LastMalformed,
    Case::Incomplete,
    Case::IncompleteAfterMost,
    Case::MalformedAndShort,
    Case::MalformedAmongTooMany,
    Case::MalformedPastMost,
    Case::TooShort,
    Case::OneByteShort,
    Case::TooManySteps,
    Case::OneStepTooMany,
    Case::OutOfRange,
    Case::OutOfRangeAndMalformed,
    Case::OutOfRangeAndTooShort,
    Case::NoImage,
    Case::NoImageAndMalformed,
    Case::NoImageAndTooShort,
];

impl Case {
    fn name(self) -> &'static str {
        match self {
            Case::NoSteps => "done, no steps",
            Case::AllAccepted => "done, every step accepted",
            Case::SomeRefused => "done, some steps refused",
            Case::MostSteps => "done, 4,096 steps",
            Case::InTwoCalls => "done, in two calls too",
            Case::FirstMalformed => "4 at 0",
            Case::MalformedWithin => "4 in the midst",
            Case::LastMalformed => "4 at the last step",
            Case::Incomplete => "4 by an incomplete step",
            Case::IncompleteAfterMost => "4 by an incomplete step after 4,096",
            Case::MalformedAndShort => "4, the buffer too short",
            Case::MalformedAmongTooMany => "4, too many steps",
            Case::MalformedPastMost => "4 past 4,096 steps",
            Case::TooShort => "5 by the buffer",
            Case::OneByteShort => "5 by one byte",
            Case::TooManySteps => "5 by too many steps",
            Case::OneStepTooMany => "5 by 4,097 steps",
            Case::OutOfRange => "6 by a section",
            Case::OutOfRangeAndMalformed => "6 by a section, a step malformed",
            Case::OutOfRangeAndTooShort => "6 by a section, the buffer too short",
            Case::NoImage => "6 by no image",
            Case::NoImageAndMalformed => "6 by no image, a step malformed",
            Case::NoImageAndTooShort => "6 by no image, the buffer too short",
        }
    }
}

#[derive(Default)]
pub struct RunCases {
    seen: [u64; CASES.len()],
    total: u64,
}

impl RunCases {
    pub fn count(&mut self, input: &Input, ran: &Ran) {
        self.total += 1;
        match ran.refusal {
            0 => self.count_done(ran),
            4 => self.count_malformed(input, ran),
            5 => self.count_too_short_or_many(input),
            _ => self.count_no_section(input),
        }
    }

    /// Neither call without steps.
    pub fn count_two_calls(&mut self, ran: &Ran, cut: usize) {
        self.count_if(Case::InTwoCalls, cut > 0 && cut < ran.answers().len());
    }

    fn count_if(&mut self, case: Case, came_up: bool) {
        self.seen[case as usize] += u64::from(came_up);
    }

    fn count_done(&mut self, ran: &Ran) {
        let answers = ran.answers();
        let refused = answers.iter().any(|answer| answer[0] != 0);
        self.count_if(Case::NoSteps, answers.is_empty());
        self.count_if(Case::AllAccepted, !answers.is_empty() && !refused);
        self.count_if(Case::SomeRefused, refused);
        self.count_if(Case::MostSteps, answers.len() == MOST_STEPS);
    }

    fn count_malformed(&mut self, input: &Input, ran: &Ran) {
        let whole = input.whole_steps();
        let index = ran.figure as usize;
        let is_last = input.steps.len() == (index + 1) * STEP_LENGTH;
        let incomplete = index == whole;
        self.count_if(Case::FirstMalformed, index == 0 && !is_last && !incomplete);
        self.count_if(Case::MalformedWithin, index > 0 && index + 1 < whole);
        self.count_if(Case::LastMalformed, index > 0 && is_last);
        self.count_if(Case::Incomplete, incomplete);
        self.count_if(Case::IncompleteAfterMost, incomplete && whole == MOST_STEPS);
        self.count_if(Case::MalformedAndShort, too_short(input));
        self.count_if(Case::MalformedAmongTooMany, whole > MOST_STEPS);
        self.count_if(Case::MalformedPastMost, index >= MOST_STEPS && !incomplete);
    }

    fn count_too_short_or_many(&mut self, input: &Input) {
        let whole = input.whole_steps();
        let many = whole > MOST_STEPS;
        let short = too_short(input);
        let by_one_byte = input.room + 1 == input.exact_room();
        self.count_if(Case::TooShort, short && !many);
        self.count_if(Case::OneByteShort, by_one_byte && !many);
        self.count_if(Case::TooManySteps, many && !short);
        self.count_if(Case::OneStepTooMany, whole == MOST_STEPS + 1 && !short);
    }

    fn count_no_section(&mut self, input: &Input) {
        let (alone, malformed, short) = match section_of(&input.image) {
            Some(_) => (
                Case::OutOfRange,
                Case::OutOfRangeAndMalformed,
                Case::OutOfRangeAndTooShort,
            ),
            None => (
                Case::NoImage,
                Case::NoImageAndMalformed,
                Case::NoImageAndTooShort,
            ),
        };
        let any_malformed = first_malformed(&input.steps, POSTS_OF_ANY).is_some();
        let any_short = too_short(input);
        self.count_if(alone, !any_malformed && !any_short);
        self.count_if(malformed, any_malformed && !any_short);
        self.count_if(short, any_short && !any_malformed);
    }

    pub fn total(&self) -> u64 {
        self.total
    }

    pub fn print(&self) {
        print!("runs:");
        for (case, times) in CASES.iter().zip(self.seen) {
            print!("  {}: {times}", case.name());
        }
        println!();
    }

    /// Every case came up.
    pub fn have_all(&self) -> Outcome {
        let missing = CASES.iter().zip(self.seen).filter(|&(_, times)| times == 0);
        let named = missing.map(|(case, _)| format!("a run, {}", case.name()));
        fail_if_any("NEVER SEEN, runs", &named.collect::<Vec<_>>())
    }
}

fn too_short(input: &Input) -> bool {
    input.room < input.exact_room()
}
