//! The day file: steps, then settings, then crossings under the mark that has them, then a
//! trailer that points back.

use crate::settings::{Crossings, Settings, MOST_CROSSINGS};
use crate::step::{self, STEP_LENGTH};

pub const SETTINGS_LENGTH: usize = 8;
pub const TRAILER_LENGTH: usize = 16;
pub const MOST_STEPS: usize = 4_096;
pub const LEAST_LENGTH: usize = Mark::Bsr1.tail_length();
pub const GREATEST_LENGTH: usize = MOST_STEPS * STEP_LENGTH + Mark::Bsr2.tail_length();

const MARK_LENGTH: usize = 4;

#[derive(Clone, Copy, Debug, PartialEq, Eq, PartialOrd, Ord)]
pub enum Mark {
    /// A section without crossings.
    Bsr1,
    Bsr2,
}

impl Mark {
    pub fn of(settings: &Settings) -> Mark {
        if settings.has_crossings() {
            Mark::Bsr2
        } else {
            Mark::Bsr1
        }
    }

    pub fn bytes(self) -> [u8; MARK_LENGTH] {
        match self {
            Mark::Bsr1 => *b"BSR1",
            Mark::Bsr2 => *b"BSR2",
        }
    }

    pub const fn crossings_length(self) -> usize {
        match self {
            Mark::Bsr1 => 0,
            Mark::Bsr2 => MOST_CROSSINGS,
        }
    }

    /// Settings, crossings and trailer.
    pub const fn tail_length(self) -> usize {
        SETTINGS_LENGTH + self.crossings_length() + TRAILER_LENGTH
    }

    /// The only trailer that a file of `count` steps may have; count at most `MOST_STEPS`.
    pub fn trailer(self, count: usize) -> [u8; TRAILER_LENGTH] {
        let to_settings = self.tail_length() as u32;
        let to_first_step = to_settings + (STEP_LENGTH * count) as u32;
        let mut bytes = [0; TRAILER_LENGTH];
        bytes[..MARK_LENGTH].copy_from_slice(&self.bytes());
        bytes[4..8].copy_from_slice(&to_settings.to_le_bytes());
        bytes[8..12].copy_from_slice(&to_first_step.to_le_bytes());
        bytes[12..].copy_from_slice(&(count as u32).to_le_bytes());
        bytes
    }
}

#[derive(Clone, Copy, Debug, PartialEq, Eq)]
pub struct Day<'a> {
    pub settings: Settings,
    pub count: usize,
    /// That part of the file which holds the steps.
    pub steps: &'a [u8],
}

#[derive(Clone, Copy, Debug, PartialEq, Eq)]
pub struct Refusal {
    pub number: u8,
    pub index: u32,
}

impl Refusal {
    fn whole_file(number: u8) -> Refusal {
        Refusal { number, index: 0 }
    }
}

pub fn read(file: &[u8]) -> Result<Day<'_>, Refusal> {
    if !length_fits(file.len()) {
        return Err(Refusal::whole_file(1));
    }
    let (mark, count) = mark_and_count(file).ok_or(Refusal::whole_file(2))?;
    let (steps, tail) = file.split_at(count * STEP_LENGTH);
    let settings =
        settings_of(&tail[..tail.len() - TRAILER_LENGTH], mark).ok_or(Refusal::whole_file(3))?;
    check_steps(steps, settings.n)?;
    Ok(Day {
        settings,
        count,
        steps,
    })
}

/// The length of the file written at the start of the buffer.
pub fn write(settings: &Settings, steps: &[u8], buffer: &mut [u8]) -> Result<usize, Refusal> {
    if !settings.well_formed() {
        return Err(Refusal::whole_file(3));
    }
    check_steps(steps, settings.n)?;
    let mark = Mark::of(settings);
    let count = steps.len() / STEP_LENGTH;
    let length = steps.len() + mark.tail_length();
    if count > MOST_STEPS || buffer.len() < length {
        return Err(Refusal::whole_file(5));
    }
    let (steps_part, rest) = buffer[..length].split_at_mut(steps.len());
    let (settings_part, rest) = rest.split_at_mut(SETTINGS_LENGTH);
    let (crossings_part, trailer_part) = rest.split_at_mut(mark.crossings_length());
    steps_part.copy_from_slice(steps);
    settings_part.copy_from_slice(&settings.encode());
    crossings_part.copy_from_slice(&settings.crossings[..mark.crossings_length()]);
    trailer_part.copy_from_slice(&mark.trailer(count));
    Ok(length)
}

/// The file in a buffer of just its length.
pub fn file_of(settings: &Settings, steps: &[u8]) -> Result<Vec<u8>, Refusal> {
    let mut file = vec![0; steps.len() + Mark::of(settings).tail_length()];
    let length = write(settings, steps, &mut file)?;
    assert_eq!(length, file.len());
    Ok(file)
}

fn length_fits(length: usize) -> bool {
    (LEAST_LENGTH..=GREATEST_LENGTH).contains(&length) && length.is_multiple_of(STEP_LENGTH)
}

/// What the trailer says, if it is that of a file of this length.
fn mark_and_count(file: &[u8]) -> Option<(Mark, usize)> {
    [Mark::Bsr1, Mark::Bsr2].into_iter().find_map(|mark| {
        let count = steps_in(file.len(), mark)?;
        file.ends_with(&mark.trailer(count))
            .then_some((mark, count))
    })
}

/// As many steps has a file of this length under the mark; none if they don't suit each other.
fn steps_in(length: usize, mark: Mark) -> Option<usize> {
    let count = length.checked_sub(mark.tail_length())? / STEP_LENGTH;
    (count <= MOST_STEPS).then_some(count)
}

/// From the bytes between steps and trailer.
fn settings_of(bytes: &[u8], mark: Mark) -> Option<Settings> {
    let (settings, rest) = bytes.split_first_chunk()?;
    let crossings = match mark {
        Mark::Bsr1 => None,
        Mark::Bsr2 => Some(Crossings::try_from(rest).ok()?),
    };
    Settings::decode(*settings, crossings)
}

/// An incomplete step at the end is malformed too.
fn check_steps(steps: &[u8], n: u8) -> Result<(), Refusal> {
    match step::first_malformed(steps, n) {
        Some(index) => Err(Refusal {
            number: 4,
            index: index as u32,
        }),
        None => Ok(()),
    }
}
