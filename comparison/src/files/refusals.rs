//! How often each answer to a file or call was given, and how often by what marks and crossings say.

use super::MARKS;
use crate::report::{fail_if_any, Outcome};
use reference::dayfile::{Mark, MOST_STEPS, SETTINGS_LENGTH, TRAILER_LENGTH};
use reference::settings::{Settings, MOST_CROSSINGS};
use reference::step::STEP_LENGTH;

/// Where a mark or the crossings decide.
#[derive(Clone, Copy)]
pub enum Case {
    /// Read or written under "BSR1".
    Bsr1,
    /// Read or written under "BSR2".
    Bsr2,
    /// 2, longer than any file of "BSR1".
    TooLongForBsr1,
    /// 2, shorter than any file of "BSR2".
    TooShortForBsr2,
    /// 3, and not by the eight bytes of settings.
    WrongCrossings,
}

pub const CASES: [Case; 5] = [
    Case::Bsr1,
    Case::Bsr2,
    Case::TooLongForBsr1,
    Case::TooShortForBsr2,
    Case::WrongCrossings,
];

impl Case {
    /// Of a file that a reader answers so, or a writer wrote.
    pub fn of_file(file: &[u8], refusal: usize) -> Option<Case> {
        let start = file.len().checked_sub(TRAILER_LENGTH)?;
        let has_mark = |mark: &Mark| file[start..].starts_with(&mark.bytes());
        let mark = MARKS.into_iter().find(has_mark)?;
        let longest = MOST_STEPS * STEP_LENGTH + mark.tail_length();
        match (refusal, mark) {
            (0, Mark::Bsr1) => Some(Case::Bsr1),
            (0, Mark::Bsr2) => Some(Case::Bsr2),
            (2, Mark::Bsr1) if file.len() > longest => Some(Case::TooLongForBsr1),
            (2, Mark::Bsr2) if file.len() < mark.tail_length() => Some(Case::TooShortForBsr2),
            (3, Mark::Bsr2) => {
                Case::of_refused_settings(&file[file.len() - mark.tail_length()..start])
            }
            _ => None,
        }
    }

    pub fn of_refused_settings(bytes: &[u8]) -> Option<Case> {
        let (settings, crossings) = bytes.split_first_chunk::<SETTINGS_LENGTH>()?;
        let wrong =
            crossings.len() == MOST_CROSSINGS && Settings::decode(*settings, None).is_some();
        wrong.then_some(Case::WrongCrossings)
    }

    fn name(self) -> &'static str {
        match self {
            Case::Bsr1 => "BSR1",
            Case::Bsr2 => "BSR2",
            Case::TooLongForBsr1 => "2 by a length above BSR1",
            Case::TooShortForBsr2 => "2 by a length below BSR2",
            Case::WrongCrossings => "3 by crossing bytes",
        }
    }
}

/// How often each answer, 0 to 5, was given, and each case came up.
#[derive(Default)]
pub struct Refusals {
    seen: [u64; 6],
    cases: [u64; CASES.len()],
}

impl Refusals {
    pub fn count(&mut self, refusal: usize, case: Option<Case>) {
        self.seen[refusal] += 1;
        if let Some(case) = case {
            self.cases[case as usize] += 1;
        }
    }

    pub fn total(&self) -> u64 {
        self.seen.iter().sum()
    }

    pub fn print(&self, of: &str) {
        print!("{of}:");
        for (refusal, times) in self.seen.iter().enumerate() {
            print!("  {refusal}: {times}");
        }
        println!();
        print!("  of these");
        for (case, times) in CASES.iter().zip(self.cases) {
            print!("  {}: {times}", case.name());
        }
        println!();
    }

    /// Every expected answer was given, and no other.
    pub fn are_just(&self, expected: &[usize], of: &str) -> Outcome {
        let (seen, unseen): (Vec<usize>, Vec<usize>) =
            (0..self.seen.len()).partition(|&refusal| self.seen[refusal] > 0);
        let missing = unseen.iter().filter(|refusal| expected.contains(refusal));
        let strange = seen.iter().filter(|refusal| !expected.contains(refusal));
        let named = |refusal: &usize| format!("{of}, {refusal}");
        fail_if_any("NEVER SEEN", &missing.map(named).collect::<Vec<_>>())?;
        fail_if_any("NOT EXPECTED", &strange.map(named).collect::<Vec<_>>())
    }

    /// Every one of these cases came up.
    pub fn have(&self, cases: &[Case], of: &str) -> Outcome {
        let missing = cases.iter().filter(|&&case| self.cases[case as usize] == 0);
        let named = |case: &Case| format!("{of}, {}", case.name());
        fail_if_any("NEVER SEEN", &missing.map(named).collect::<Vec<_>>())
    }
}
