//! Files offered to both readers.

use super::bounds::{settings_bytes_at_bounds, steps_at_bounds};
use super::lengths::{shapes_at_bounds, shapes_beside};
use super::refusals::{Case, Refusals};
use super::{any_steps, day_around, day_file, random_bytes, right_numbers};
use super::{settings_bytes, settings_under, sound_steps, trailer, MARKS};
use crate::lent::{same_buffers, Lent};
use crate::proved;
use crate::report::{hex, same, Comparison, Outcome};
use reference::dayfile::{self, Mark, MOST_STEPS, TRAILER_LENGTH};
use reference::generate::{damage, random_day, random_settings, Rng};
use reference::step::STEP_LENGTH;

/// Counts of steps whose part of the file is asked for, whatever the file holds.
const COUNTS_ASKED: [u64; 14] = [
    0,
    1,
    2,
    3,
    4,
    5,
    6,
    4_096,
    4_097,
    4_099,
    4_100,
    4_101,
    1 << 61,
    u64::MAX,
];

const BUFFER_TOO_SHORT: u64 = 5;

/// Lengths of buffers for the settings.
const ROOMS: [usize; 9] = [16, 16, 17, 30, 15, 9, 8, 7, 0];

/// Of settings and trailer, with crossings.
const LONGEST_TAIL: usize = Mark::Bsr2.tail_length();

/// What a reader answers and hands back.
#[derive(Debug, PartialEq)]
struct Reading {
    refusal: u32,
    count_or_index: u32,
    steps_length: u64,
}

pub struct ReaderComparison {
    rng: Rng,
    pub seen: Refusals,
}

impl Comparison for ReaderComparison {
    fn new(rng: Rng) -> ReaderComparison {
        ReaderComparison {
            rng,
            seen: Refusals::default(),
        }
    }

    fn all(&mut self) -> Outcome {
        self.sound_files()?;
        self.settings_at_bounds()?;
        self.steps_at_bounds()?;
        self.flipped_bits()?;
        self.wrong_trailers()?;
        self.other_lengths()?;
        self.lengths_at_bounds()?;
        self.random_files()?;
        self.damaged_days()?;
        self.long_files()
    }
}

impl ReaderComparison {
    fn compare(&mut self, file: &[u8]) -> Outcome {
        let proved = proved_reading(file);
        let second = second_reading(file);
        let refusal = second.refusal as usize;
        let input = || format!("file: {}", hex(file));
        same("the reader's answer", proved, second, &input)?;
        self.seen.count(refusal, Case::of_file(file, refusal));
        same_settings(file, self.rng.pick(&ROOMS), &input)?;
        let count = self.rng.pick(&COUNTS_ASKED);
        same(
            "the length of the steps' part",
            proved::files::steps_length(file, count),
            length_of_part(file, count),
            &|| format!("{}\nsteps asked for: {count}", input()),
        )
    }

    /// Under either mark.
    fn sound_file(&mut self, least: usize, most: usize) -> Vec<u8> {
        let mark = self.rng.pick(&MARKS);
        self.sound_file_under(mark, least, most)
    }

    fn sound_file_under(&mut self, mark: Mark, least: usize, most: usize) -> Vec<u8> {
        let settings = settings_under(&mut self.rng, mark);
        let steps = sound_steps(&mut self.rng, settings.n, least, most);
        day_file(&steps, &settings_bytes(&settings))
    }

    fn sound_files(&mut self) -> Outcome {
        for (times, least, most) in [
            (500, 0, 0),
            (5_000, 1, 1),
            (10_000, 2, 6),
            (300, 30, 300),
            (10, MOST_STEPS - 1, MOST_STEPS - 1),
            (10, MOST_STEPS, MOST_STEPS),
            (10, MOST_STEPS + 1, MOST_STEPS + 3),
        ] {
            for _ in 0..times {
                let file = self.sound_file(least, most);
                self.compare(&file)?;
            }
        }
        Ok(())
    }

    /// With steps that may be malformed, so that 3 comes before 4.
    fn settings_at_bounds(&mut self) -> Outcome {
        for settings in settings_bytes_at_bounds() {
            let steps = match self.rng.chance(1, 2) {
                true => Vec::new(),
                false => any_whole_steps(&mut self.rng, settings[0].max(1)),
            };
            self.compare(&day_file(&steps, &settings))?;
        }
        Ok(())
    }

    /// With sound steps before and behind.
    fn steps_at_bounds(&mut self) -> Outcome {
        for (n, step) in steps_at_bounds() {
            let (settings, steps) = day_around(&mut self.rng, n, step);
            self.compare(&day_file(&steps, &settings_bytes(&settings)))?;
        }
        Ok(())
    }

    /// Every bit of steps, settings, crossings and trailer.
    fn flipped_bits(&mut self) -> Outcome {
        for (times, least, most) in [(20, 0, 0), (40, 1, 4), (3, 31, 33), (3, 255, 257)] {
            for _ in 0..times {
                let file = self.sound_file(least, most);
                self.flip_each_bit(file, 4 * STEP_LENGTH + LONGEST_TAIL)?;
            }
        }
        Ok(())
    }

    /// Each bit of the last `reach` bytes.
    fn flip_each_bit(&mut self, mut file: Vec<u8>, reach: usize) -> Outcome {
        for place in file.len().saturating_sub(reach)..file.len() {
            for bit in 0..8 {
                file[place] ^= 1 << bit;
                self.compare(&file)?;
                file[place] ^= 1 << bit;
            }
        }
        Ok(())
    }

    /// Marks and numbers beside the right ones, alone and together, over files of either mark.
    fn wrong_trailers(&mut self) -> Outcome {
        for count in 0..4 {
            for right in MARKS {
                for mark in [*b"BSR1", *b"BSR2", *b"BSR3", *b"BSR0", *b"1RSB", *b"bsr2"] {
                    for numbers in numbers_beside(right_numbers(right, count)) {
                        let count = count as usize;
                        let mut file = self.sound_file_under(right, count, count);
                        let start = file.len() - TRAILER_LENGTH;
                        file[start..].copy_from_slice(&trailer(mark, numbers));
                        self.compare(&file)?;
                    }
                }
            }
        }
        Ok(())
    }

    /// Bytes cut off or added, in front and behind.
    fn other_lengths(&mut self) -> Outcome {
        for _ in 0..40 {
            let file = self.sound_file(0, 4);
            for cut in 0..=file.len() {
                self.compare(&file[cut..])?;
                self.compare(&file[..file.len() - cut])?;
            }
            for more in 1..=17 {
                let added: Vec<u8> = (0..more)
                    .map(|_| self.rng.byte() * self.rng.flag())
                    .collect();
                self.compare(&[&added, &file[..]].concat())?;
                self.compare(&[&file[..], &added].concat())?;
            }
        }
        Ok(())
    }

    /// Around the least and the greatest length of either mark.
    fn lengths_at_bounds(&mut self) -> Outcome {
        for shape in shapes_at_bounds().chain(shapes_beside()) {
            let file = shape.file(&mut self.rng);
            self.compare(&file)?;
        }
        Ok(())
    }

    /// Random bytes throughout; before a right trailer; before right settings and trailer; and between them.
    fn random_files(&mut self) -> Outcome {
        for _ in 0..10_000 {
            let bytes = random_bytes(&mut self.rng, 100);
            self.compare(&bytes)?;
            let steps = random_whole_steps(&mut self.rng);
            let eight = self.rng.next_u64().to_le_bytes();
            self.compare(&day_file(&steps, &eight))?;
            let settings = random_settings(&mut self.rng);
            self.compare(&day_file(&steps, &settings_bytes(&settings)))?;
            let steps = any_whole_steps(&mut self.rng, settings.n);
            self.compare(&day_file(&steps, &settings_bytes(&settings)))?;
            let random_crossings = [settings.encode(), eight].concat();
            self.compare(&day_file(&steps, &random_crossings))?;
        }
        Ok(())
    }

    fn damaged_days(&mut self) -> Outcome {
        for _ in 0..5_000 {
            let count = self.rng.below(12) as usize;
            let mut file = random_day(&mut self.rng, count);
            self.compare(&file)?;
            damage(&mut self.rng, &mut file);
            self.compare(&file)?;
        }
        Ok(())
    }

    fn long_files(&mut self) -> Outcome {
        for mark in MARKS {
            for count in [MOST_STEPS - 1, MOST_STEPS, MOST_STEPS + 1] {
                let file = self.sound_file_under(mark, count, count);
                self.flip_each_bit(file.clone(), LONGEST_TAIL)?;
                self.spoiled_long_files(&file, count)?;
                self.long_file_lengths(&file)?;
            }
        }
        Ok(())
    }

    /// One malformed step, then a second one behind it.
    fn spoiled_long_files(&mut self, file: &[u8], count: usize) -> Outcome {
        let middle = self.rng.below(count as u64) as usize;
        for index in [0, 1, middle, count - 2, count - 1] {
            let mut spoiled = file.to_vec();
            spoiled[index * STEP_LENGTH] = 15;
            self.compare(&spoiled)?;
            spoiled[(count - 1) * STEP_LENGTH + 7] = 1;
            self.compare(&spoiled)?;
        }
        Ok(())
    }

    fn long_file_lengths(&mut self, file: &[u8]) -> Outcome {
        for change in 1..=17 {
            self.compare(&file[change..])?;
            self.compare(&file[..file.len() - change])?;
            self.compare(&[&vec![0; change], file].concat())?;
            self.compare(&[file, &vec![0; change]].concat())?;
        }
        Ok(())
    }
}

fn proved_reading(file: &[u8]) -> Reading {
    let (refusal, count_or_index) = proved::files::read(file);
    let count = if refusal == 0 { count_or_index } else { 0 };
    Reading {
        refusal,
        count_or_index,
        steps_length: proved::files::steps_length(file, u64::from(count)),
    }
}

fn second_reading(file: &[u8]) -> Reading {
    match dayfile::read(file) {
        Ok(day) => Reading {
            refusal: 0,
            count_or_index: day.count as u32,
            steps_length: day.steps.len() as u64,
        },
        Err(refusal) => Reading {
            refusal: u32::from(refusal.number),
            count_or_index: refusal.index,
            steps_length: 0,
        },
    }
}

/// In a buffer of so many bytes.
fn same_settings(file: &[u8], room: usize, input: &dyn Fn() -> String) -> Outcome {
    let mut buffer = Lent::patterned(room);
    let mut expected = buffer.clone();
    let proved = proved::files::settings(file, buffer.part());
    let second = second_settings(file, expected.part());
    let input = || format!("{}\nbuffer: {room} bytes", input());
    same("the answer to settings", proved, second, &input)?;
    same_buffers("the buffer of settings", &buffer, &expected, &input)
}

/// The settings' bytes, with the crossings where some are listed, at the front of the buffer: the
/// refusal (0 for none), and their length or the refusal's index.
fn second_settings(file: &[u8], buffer: &mut [u8]) -> (u64, u64) {
    let settings = match dayfile::read(file) {
        Ok(day) => settings_bytes(&day.settings),
        Err(refusal) => return (u64::from(refusal.number), u64::from(refusal.index)),
    };
    match buffer.get_mut(..settings.len()) {
        Some(front) => {
            front.copy_from_slice(&settings);
            (0, settings.len() as u64)
        }
        None => (BUFFER_TOO_SHORT, 0),
    }
}

/// The empty part where the file is shorter.
fn length_of_part(file: &[u8], count: u64) -> u64 {
    match count.checked_mul(STEP_LENGTH as u64) {
        Some(length) if length <= file.len() as u64 => length,
        _ => 0,
    }
}

/// All combinations.
fn numbers_beside([to_settings, to_first_step, count]: [u32; 3]) -> Vec<[u32; 3]> {
    let mut all = Vec::new();
    for distance in beside(to_settings) {
        for first in beside(to_first_step) {
            all.extend(beside(count).map(|stated| [distance, first, stated]));
        }
    }
    all
}

fn beside(right: u32) -> [u32; 7] {
    [
        right,
        right.wrapping_sub(8),
        right.wrapping_sub(1),
        right.wrapping_add(1),
        right.wrapping_add(8),
        right ^ 1 << 16,
        right ^ 1 << 31,
    ]
}

fn any_whole_steps(rng: &mut Rng, n: u8) -> Vec<u8> {
    let mut steps = any_steps(rng, n);
    steps.truncate(steps.len() / STEP_LENGTH * STEP_LENGTH);
    steps
}

fn random_whole_steps(rng: &mut Rng) -> Vec<u8> {
    let count = rng.below(5);
    (0..count)
        .flat_map(|_| rng.next_u64().to_le_bytes())
        .collect()
}
