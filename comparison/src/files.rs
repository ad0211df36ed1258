//! Reader and writer of day files.

pub mod bounds;
pub mod lengths;
pub mod reader;
pub mod refusals;
pub mod writer;

use reference::dayfile::{Mark, SETTINGS_LENGTH};
use reference::generate::{random_settings, Rng};
use reference::settings::{Crossings, Settings, MOST_CROSSINGS, NO_CROSSINGS, WITHOUT_ZONES};
use reference::step::{GREATEST_TRAIN, STEP_LENGTH};

pub const MARKS: [Mark; 2] = [Mark::Bsr1, Mark::Bsr2];
/// Of settings with their crossings.
const LONGEST_SETTINGS: usize = SETTINGS_LENGTH + MOST_CROSSINGS;

/// The bytes that a day file has for settings: eight, and eight of crossings where some are listed.
pub fn settings_bytes(settings: &Settings) -> Vec<u8> {
    let mut bytes = settings.encode().to_vec();
    if settings.has_crossings() {
        bytes.extend(settings.crossings);
    }
    bytes
}

/// The settings that lent bytes say; `None` for another length and for bytes that a reader refuses.
pub fn settings_lent(bytes: &[u8]) -> Option<Settings> {
    let (settings, rest) = bytes.split_first_chunk()?;
    let crossings = match rest {
        [] => None,
        _ => Some(Crossings::try_from(rest).ok()?),
    };
    Settings::decode(*settings, crossings)
}

/// Settings cut off or with bytes added, which are no settings.
pub fn settings_of_other_lengths(rng: &mut Rng) -> Vec<Vec<u8>> {
    let lengths = (0..=LONGEST_SETTINGS + SETTINGS_LENGTH)
        .filter(|length| ![SETTINGS_LENGTH, LONGEST_SETTINGS].contains(length));
    lengths
        .map(|length| {
            let settings = random_settings(rng);
            let mut bytes = [settings.encode(), settings.crossings].concat();
            bytes.resize(length, rng.pick(&[0, 255]));
            bytes
        })
        .collect()
}

/// Well-formed settings, such as a file with this mark has.
fn settings_under(rng: &mut Rng, mark: Mark) -> Settings {
    let settings = random_settings(rng);
    Settings {
        crossings: crossings_under(rng, mark, settings.n),
        ..settings
    }
}

/// From one to eight in a file that lists some.
fn crossings_under(rng: &mut Rng, mark: Mark, n: u8) -> Crossings {
    let used = match mark {
        Mark::Bsr1 => 0,
        Mark::Bsr2 => rng.between(1, MOST_CROSSINGS),
    };
    let mut crossings = NO_CROSSINGS;
    crossings[..used].fill_with(|| rng.post(n - 1) + WITHOUT_ZONES * rng.flag());
    // By block section, then by the highest bit.
    crossings[..used].sort_by_key(|crossing| crossing.rotate_left(1));
    crossings
}

/// Steps, settings in eight bytes or with their crossings, and the trailer for their length, whatever they hold.
fn day_file(steps: &[u8], settings: &[u8]) -> Vec<u8> {
    let mark = match settings.len() {
        SETTINGS_LENGTH => Mark::Bsr1,
        _ => Mark::Bsr2,
    };
    let count = (steps.len() / STEP_LENGTH) as u32;
    let numbers = right_numbers(mark, count);
    [steps, settings, &trailer(mark.bytes(), numbers)].concat()
}

/// Both distances and the count.
fn right_numbers(mark: Mark, count: u32) -> [u32; 3] {
    let to_settings = to_settings(mark);
    [to_settings, to_settings + 8 * count, count]
}

/// The distance from the file's end.
fn to_settings(mark: Mark) -> u32 {
    match mark {
        Mark::Bsr1 => 24,
        Mark::Bsr2 => 32,
    }
}

fn trailer(mark: [u8; 4], numbers: [u32; 3]) -> [u8; 16] {
    let mut bytes = [0; 16];
    bytes[..4].copy_from_slice(&mark);
    for (cell, number) in bytes[4..].chunks_exact_mut(4).zip(numbers) {
        cell.copy_from_slice(&number.to_le_bytes());
    }
    bytes
}

/// From `least` to `most` well-formed steps.
fn sound_steps(rng: &mut Rng, n: u8, least: usize, most: usize) -> Vec<u8> {
    let count = rng.between(least, most);
    (0..count).flat_map(|_| sound_step(rng, n)).collect()
}

/// Well-formed settings for n posts, with and without crossings, and the step with up to two
/// sound ones before it and one behind.
fn day_around(rng: &mut Rng, n: u8, step: [u8; STEP_LENGTH]) -> (Settings, Vec<u8>) {
    let mark = rng.pick(&MARKS);
    let settings = Settings {
        n,
        mask: 1 | 1 << (n - 1),
        crossings: crossings_under(rng, mark, n),
        ..random_settings(rng)
    };
    let mut steps = sound_steps(rng, n, 0, 2);
    steps.extend(step);
    steps.extend(sound_steps(rng, n, 0, 1));
    (settings, steps)
}

/// A well-formed step of any kind.
pub fn sound_step(rng: &mut Rng, n: u8) -> [u8; STEP_LENGTH] {
    let kind = 1 + rng.below(14) as u8;
    let fault = match kind {
        10 | 11 => rng.fault(),
        _ => 0,
    };
    let number = match kind {
        5..=7 | 14 => 1 + rng.below(u64::from(GREATEST_TRAIN)) as u16,
        12 => rng.below(u64::from(GREATEST_TRAIN) + 1) as u16,
        _ => 0,
    };
    let [low, high] = number.to_le_bytes();
    let post = rng.post(n);
    [kind, rng.flag(), post, fault, low, high, 0, 0]
}

/// Steps any of which may be malformed, and incomplete at the end.
fn any_steps(rng: &mut Rng, n: u8) -> Vec<u8> {
    let mut steps = sound_steps(rng, n, 0, 4);
    match rng.below(4) {
        0 => replace_any_byte(rng, &mut steps),
        1 => steps.extend(random_bytes(rng, 9)),
        _ => (),
    }
    steps
}

fn replace_any_byte(rng: &mut Rng, bytes: &mut [u8]) {
    if !bytes.is_empty() {
        let place = rng.below(bytes.len() as u64) as usize;
        bytes[place] = rng.byte();
    }
}

/// Fewer than `bound` random bytes.
fn random_bytes(rng: &mut Rng, bound: u64) -> Vec<u8> {
    let length = rng.below(bound);
    (0..length).map(|_| rng.byte()).collect()
}
