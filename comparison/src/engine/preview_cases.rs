//! How often previews were answered how.

use crate::report::{fail_if_any, Outcome};

#[derive(Clone, Copy)]
pub enum Case {
    Accepted,
    RefusedByTable,
    Malformed,
    TooShort,
    OutOfRange,
    OutOfRangeAndTooShort,
    /// 6 for bytes that are no section's image.
    NoImage,
    NoImageAndTooShort,
}

pub const CASES: [Case; 8] = [
    Case::Accepted,
    Case::RefusedByTable,
    Case::Malformed,
    Case::TooShort,
    Case::OutOfRange,
    Case::OutOfRangeAndTooShort,
    Case::NoImage,
    Case::NoImageAndTooShort,
];

/// A day from fresh is never answered 6.
pub const CASES_OF_DAYS: [Case; 4] = [
    Case::Accepted,
    Case::RefusedByTable,
    Case::Malformed,
    Case::TooShort,
];

impl Case {
    fn of(refusal: u16, is_image: bool, fits: bool) -> Case {
        match (refusal, is_image, fits) {
            (0, ..) => Case::Accepted,
            (4, ..) => Case::Malformed,
            (5, ..) => Case::TooShort,
            (6, true, true) => Case::OutOfRange,
            (6, true, false) => Case::OutOfRangeAndTooShort,
            (6, false, true) => Case::NoImage,
            (6, false, false) => Case::NoImageAndTooShort,
            _ => Case::RefusedByTable,
        }
    }

    fn name(self) -> &'static str {
        match self {
            Case::Accepted => "accepted",
            Case::RefusedByTable => "refused by the table",
            Case::Malformed => "4",
            Case::TooShort => "5",
            Case::OutOfRange => "6 by a section",
            Case::OutOfRangeAndTooShort => "6 by a section, the buffer too short",
            Case::NoImage => "6 by no image",
            Case::NoImageAndTooShort => "6 by no image, the buffer too short",
        }
    }
}

#[derive(Default)]
pub struct PreviewCases {
    seen: [u64; CASES.len()],
}

impl PreviewCases {
    pub fn count(&mut self, refusal: u16, is_image: bool, fits: bool) {
        self.seen[Case::of(refusal, is_image, fits) as usize] += 1;
    }

    pub fn total(&self) -> u64 {
        self.seen.iter().sum()
    }

    pub fn print(&self, part: &str) {
        print!("{part}, previews:");
        for (case, times) in CASES.iter().zip(self.seen) {
            print!("  {}: {times}", case.name());
        }
        println!();
    }

    /// Every one of these cases came up.
    pub fn have(&self, cases: &[Case], part: &str) -> Outcome {
        let missing = cases.iter().filter(|&&case| self.seen[case as usize] == 0);
        let named = |case: &Case| format!("a preview, {}", case.name());
        let what = format!("NEVER SEEN, {part}");
        fail_if_any(&what, &missing.map(named).collect::<Vec<_>>())
    }
}
