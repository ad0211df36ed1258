//! What runs are given: images, lists of steps and buffers.

use super::offers::step_of_turn;
use super::sections::{section_in_range, spoil};
use crate::files::sound_step;
use crate::image::{image_of, put_other_layout, section_of, spoil_zero};
use crate::image::{IMAGE_LENGTH, LENGTH_OF_LAYOUT_1};
use crate::report::hex;
use reference::engine::judge_in_range;
use reference::generate::{furthering_step, random_settings, sensible_step, Rng};
use reference::run::ANSWER_LENGTH;
use reference::section::Section;
use reference::step::{decode, STEP_LENGTH};

const MOST_STEPS_BEFORE: u64 = 150;

/// What a call is given.
pub struct Input {
    pub image: Vec<u8>,
    pub steps: Vec<u8>,
    /// The length of the buffer for the answers.
    pub room: usize,
}

impl Input {
    /// An incomplete step at the end is none of them.
    pub fn whole_steps(&self) -> usize {
        self.steps.len() / STEP_LENGTH
    }

    pub fn exact_room(&self) -> usize {
        exact_room(&self.steps)
    }

    pub fn described(&self) -> String {
        let (image, steps) = (hex(&self.image), hex(&self.steps));
        format!(
            "image: {image}\nsteps: {steps}\nbuffer: {} bytes",
            self.room
        )
    }
}

pub fn exact_room(steps: &[u8]) -> usize {
    ANSWER_LENGTH * (steps.len() / STEP_LENGTH)
}

/// In range, either reached from fresh or any.
pub fn start(rng: &mut Rng) -> Section {
    match rng.chance(1, 2) {
        true => reached(rng),
        false => section_in_range(rng),
    }
}

fn reached(rng: &mut Rng) -> Section {
    let mut section = Section::fresh(random_settings(rng));
    let count = rng.below(MOST_STEPS_BEFORE) as usize;
    walk(rng, &mut section, count);
    section
}

/// So many well-formed steps from the section on, most of them likely where they come.
pub fn steps_from(rng: &mut Rng, section: &Section, count: usize) -> Vec<u8> {
    let mut section = *section;
    walk(rng, &mut section, count)
}

/// Such steps. The section is moved on.
fn walk(rng: &mut Rng, section: &mut Section, count: usize) -> Vec<u8> {
    let mut steps = Vec::with_capacity(count * STEP_LENGTH);
    for _ in 0..count {
        let step = likely_step(rng, section);
        judge_in_range(section, &step);
        steps.extend(step);
    }
    steps
}

fn likely_step(rng: &mut Rng, section: &Section) -> [u8; STEP_LENGTH] {
    match rng.below(16) {
        0 => sound_step(rng, section.settings.n),
        1 => step_of_turn(rng, section),
        2..=6 => {
            let track = rng.flag();
            furthering_step(rng, section, track)
        }
        _ => sensible_step(rng, section),
    }
}

/// The image of the section, put out of range.
pub fn image_out_of_range(rng: &mut Rng, section: &Section) -> Vec<u8> {
    loop {
        let mut spoiled = *section;
        spoil(rng, &mut spoiled);
        let image = image_of(&spoiled);
        if section_of(&image).is_some() {
            return image.to_vec();
        }
    }
}

/// Bytes that are no section's image: of another layout or length, with a byte that stands for no value, or with one that
/// says nothing and is not zero.
pub fn no_image(rng: &mut Rng, section: &Section) -> Vec<u8> {
    let mut image = image_of(section);
    match rng.below(4) {
        0 => put_other_layout(rng, &mut image),
        1 => return with_other_length(rng, &image),
        2 => spoil_zero(rng, &mut image),
        _ => put_no_value(rng, &mut image),
    }
    image.to_vec()
}

fn with_other_length(rng: &mut Rng, image: &[u8]) -> Vec<u8> {
    let length = rng.pick(&[0, 1, LENGTH_OF_LAYOUT_1, IMAGE_LENGTH - 1, IMAGE_LENGTH + 1]);
    let mut image = image.to_vec();
    image.resize(length, 0);
    image
}

fn put_no_value(rng: &mut Rng, image: &mut [u8; IMAGE_LENGTH]) {
    let sound = *image;
    while section_of(image).is_some() {
        *image = sound;
        let place = rng.below(IMAGE_LENGTH as u64) as usize;
        image[place] = rng.byte();
    }
}

/// What is wrong with a list of steps.
#[derive(Clone, Copy)]
pub enum Damage {
    None,
    FirstMalformed,
    OneMalformed,
    TwoMalformed,
    LastMalformed,
    LastIncomplete,
}

pub const DAMAGES: [Damage; 6] = [
    Damage::None,
    Damage::FirstMalformed,
    Damage::OneMalformed,
    Damage::TwoMalformed,
    Damage::LastMalformed,
    Damage::LastIncomplete,
];

impl Damage {
    /// The steps of a section of n posts, damaged so; a list of no steps has none to be malformed.
    pub fn done_to(self, rng: &mut Rng, steps: &[u8], n: u8) -> Vec<u8> {
        let mut steps = steps.to_vec();
        match self {
            Damage::None => (),
            Damage::FirstMalformed => spoil_step(rng, steps.first_chunk_mut(), n),
            Damage::OneMalformed => spoil_any_step(rng, &mut steps, n),
            Damage::TwoMalformed => {
                spoil_any_step(rng, &mut steps, n);
                spoil_any_step(rng, &mut steps, n);
            }
            Damage::LastMalformed => spoil_step(rng, steps.last_chunk_mut(), n),
            Damage::LastIncomplete => {
                let length = rng.between(1, STEP_LENGTH - 1);
                steps.extend(&sound_step(rng, n)[..length]);
            }
        }
        steps
    }
}

fn spoil_any_step(rng: &mut Rng, steps: &mut [u8], n: u8) {
    let (whole, _) = steps.as_chunks_mut();
    if !whole.is_empty() {
        let place = rng.below(whole.len() as u64) as usize;
        spoil_step(rng, Some(&mut whole[place]), n);
    }
}

/// One byte changed, so that the step is malformed.
fn spoil_step(rng: &mut Rng, step: Option<&mut [u8; STEP_LENGTH]>, n: u8) {
    let Some(step) = step else { return };
    let sound = *step;
    while decode(step, n).is_some() {
        *step = sound;
        let place = rng.below(STEP_LENGTH as u64) as usize;
        step[place] = rng.byte();
    }
}

/// Exactly as long as the answers, longer, one byte short, too short and empty.
pub fn rooms(rng: &mut Rng, steps: &[u8]) -> [usize; 5] {
    let exact = exact_room(steps);
    let shorter = rng.below(exact as u64 + 1) as usize;
    [
        exact,
        longer_room(rng, steps),
        exact.saturating_sub(1),
        shorter.saturating_sub(1),
        0,
    ]
}

pub fn longer_room(rng: &mut Rng, steps: &[u8]) -> usize {
    exact_room(steps) + rng.between(1, 40)
}
