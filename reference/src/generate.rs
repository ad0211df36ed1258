//! Seeded random settings, sections, steps and days, for tests and comparisons.

use crate::books;
use crate::dayfile::{self, Mark, GREATEST_LENGTH, MOST_STEPS, SETTINGS_LENGTH, TRAILER_LENGTH};
use crate::engine;
use crate::section::{
    Post, Section, Track, ACKNOWLEDGE, ANNOUNCE, FAULT_1, FAULT_2, FAULT_3, FAULT_4, MOST_SEALS,
    NO_REVERSAL, SET,
};
use crate::settings::{Crossings, Settings, MOST_CROSSINGS, NO_CROSSINGS, UNUSED, WITHOUT_ZONES};
use crate::step::{self, Step, GREATEST_FAULT, GREATEST_TRAIN, STEP_LENGTH};
use crate::way::{Way, CVT, VNS};

/// The greatest number before request 5.
pub const GREATEST_OF_FOUR_FIGURES: u16 = 9_999;

/// Numbers beside the bounds of four and of five figures.
const NUMBERS_AT_THE_BOUNDS: [u16; 3] = [
    GREATEST_OF_FOUR_FIGURES,
    GREATEST_OF_FOUR_FIGURES + 1,
    GREATEST_TRAIN,
];

/// Numbers that no train has.
const TOO_GREAT: [u16; 2] = [GREATEST_TRAIN + 1, u16::MAX];

/// A xorshift generator (64 bits, with a multiplied output).
#[derive(Clone, Debug)]
pub struct Rng {
    state: u64,
    /// No train of a greater number is drawn.
    greatest_train: u16,
}

impl Rng {
    pub fn new(seed: u64) -> Rng {
        // The state must not be zero; the spread keeps near seeds apart.
        let spread = seed.wrapping_add(1).wrapping_mul(0x9e37_79b9_7f4a_7c15);
        Rng {
            state: spread | 1,
            greatest_train: GREATEST_TRAIN,
        }
    }

    /// Draws trains of four figures at most, and all else as before request 5.
    pub fn of_four_figures(seed: u64) -> Rng {
        Rng {
            greatest_train: GREATEST_OF_FOUR_FIGURES,
            ..Rng::new(seed)
        }
    }

    pub fn next_u64(&mut self) -> u64 {
        self.state ^= self.state >> 12;
        self.state ^= self.state << 25;
        self.state ^= self.state >> 27;
        self.state.wrapping_mul(0x2545_f491_4f6c_dd1d)
    }

    /// From 0 to below `bound`, which is not 0.
    pub fn below(&mut self, bound: u64) -> u64 {
        (self.next_u64() >> 16) % bound
    }

    pub fn chance(&mut self, times: u64, out_of: u64) -> bool {
        self.below(out_of) < times
    }

    pub fn byte(&mut self) -> u8 {
        self.below(256) as u8
    }

    pub fn word(&mut self) -> u16 {
        self.below(65_536) as u16
    }

    /// One or zero.
    pub fn flag(&mut self) -> u8 {
        self.below(2) as u8
    }

    /// A post of a section of n posts.
    pub fn post(&mut self, n: u8) -> u8 {
        self.below(u64::from(n)) as u8
    }

    /// The number of a fault, 1 to 4.
    pub fn fault(&mut self) -> u8 {
        1 + self.below(u64::from(GREATEST_FAULT)) as u8
    }

    /// The number of a train, 1 to the greatest.
    fn train(&mut self) -> u16 {
        1 + self.below(u64::from(self.greatest_train)) as u16
    }

    fn train_at_a_bound(&mut self) -> u16 {
        match self.greatest_train {
            GREATEST_OF_FOUR_FIGURES => GREATEST_OF_FOUR_FIGURES,
            _ => self.pick(&NUMBERS_AT_THE_BOUNDS),
        }
    }

    /// From `least` to `most`, both included.
    pub fn between(&mut self, least: usize, most: usize) -> usize {
        least + self.below((most - least + 1) as u64) as usize
    }

    pub fn pick<T: Copy>(&mut self, from: &[T]) -> T {
        from[self.below(from.len() as u64) as usize]
    }
}

pub fn random_settings(rng: &mut Rng) -> Settings {
    let n = match rng.below(3) {
        0 => 2 + rng.below(3) as u8,
        1 => 2 + rng.below(7) as u8,
        _ => 2 + rng.below(15) as u8,
    };
    Settings {
        n,
        form: rng.flag(),
        mask: random_mask(rng, n),
        line: random_line(rng),
        crossings: random_crossings(rng, n),
    }
}

fn random_mask(rng: &mut Rng, n: u8) -> u16 {
    let ends = 1 | 1u16 << (n - 1);
    let posts = ((1u32 << n) - 1) as u16;
    let between = match rng.below(5) {
        0 => 0,
        1 => posts,
        2 => rng.word() & rng.word(),
        _ => rng.word(),
    };
    ends | between & posts
}

fn random_line(rng: &mut Rng) -> u16 {
    match rng.below(8) {
        0 => 1,
        1 => 999,
        _ => 1 + rng.below(999) as u16,
    }
}

/// None, few or many, from all block sections or two of them.
fn random_crossings(rng: &mut Rng, n: u8) -> Crossings {
    let used = match rng.below(3) {
        0 => return NO_CROSSINGS,
        1 => 1 + rng.below(3) as usize,
        _ => 1 + rng.below(MOST_CROSSINGS as u64) as usize,
    };
    let favourites = [random_crossing(rng, n), random_crossing(rng, n)];
    let crowded = rng.chance(1, 3);
    let mut crossings = NO_CROSSINGS;
    for byte in &mut crossings[..used] {
        *byte = match crowded {
            true => rng.pick(&favourites),
            false => random_crossing(rng, n),
        };
    }
    crossings[..used].sort_by_key(|byte| (byte & !WITHOUT_ZONES, byte & WITHOUT_ZONES));
    crossings
}

fn random_crossing(rng: &mut Rng, n: u8) -> u8 {
    rng.below(u64::from(n) - 1) as u8 + WITHOUT_ZONES * rng.flag()
}

// Steps.

/// A well-formed step that each check of the table has a fair chance to meet. A section
/// out of range gets eight random bytes.
pub fn sensible_step(rng: &mut Rng, section: &Section) -> [u8; STEP_LENGTH] {
    if !section.in_range() {
        return rng.next_u64().to_le_bytes();
    }
    let track = rng.flag();
    let step = likely_step(rng, section, usize::from(track));
    let bytes = step::encode(track, &step);
    if rng.chance(1, 12) {
        nudged(rng, bytes, section.settings.n)
    } else {
        bytes
    }
}

/// A step that furthers the reversal under way on the track, or a train movement, or hands
/// out the form that such a movement lacks.
/// The section must be in range.
pub fn furthering_step(rng: &mut Rng, section: &Section, track: u8) -> [u8; STEP_LENGTH] {
    let kept = usize::from(track);
    let step = match section.tracks[kept].reversal_under_way() && rng.chance(2, 3) {
        true => turn_step(rng, section, kept),
        false => movement_or_its_form(rng, section, kept),
    };
    step::encode(track, &step)
}

fn likely_step(rng: &mut Rng, section: &Section, track: usize) -> Step {
    if section.tracks[track].reversal_under_way() && rng.chance(1, 2) {
        return turn_step(rng, section, track);
    }
    let sending_end = section.way(track).sending_end();
    match rng.below(100) {
        0..=9 => Step::Order { post: sending_end },
        10..=25 => Step::Start {
            post: sending_end,
            train: starting_number(rng, section, track),
        },
        26..=53 => movement_or_its_form(rng, section, track),
        54..=76 => local_step(rng, section, track),
        77..=82 => release_step(rng, section, track),
        83..=84 => Step::Key {
            post: turn_or_any(rng, section, track),
        },
        85..=92 => Step::Form {
            post: turn_or_any(rng, section, track),
            train: likely_number(rng, section, track),
        },
        _ => random_step(rng, section.settings.n),
    }
}

/// The act of the turn, or mostly what first has to be done for it.
fn turn_step(rng: &mut Rng, section: &Section, track: usize) -> Step {
    let kept = &section.tracks[track];
    let post = kept.turn;
    match kept.act {
        ANNOUNCE => Step::Announce { post },
        ACKNOWLEDGE => Step::Acknowledge { post },
        _ => set_step(rng, section, track, post),
    }
}

fn set_step(rng: &mut Rng, section: &Section, track: usize, post: u8) -> Step {
    let kept = &section.tracks[track];
    let record = kept.posts[usize::from(post)];
    if kept.direction == VNS && record.measures == 0 && rng.chance(3, 4) {
        Step::MeasuresOn { post }
    } else if record.faults & FAULT_1 != 0 && record.mark == 0 && rng.chance(3, 4) {
        match rng.below(3) {
            0 => Step::FaultOff { post, fault: 1 },
            _ => release_step(rng, section, track),
        }
    } else if record.faults & FAULT_2 != 0 && rng.chance(3, 4) {
        match rng.below(4) {
            0 => Step::FaultOff { post, fault: 2 },
            _ => Step::Key { post },
        }
    } else if rng.chance(1, 12) {
        Step::Key { post }
    } else {
        Step::Set { post }
    }
}

/// A pass or leave, or mostly the form that the pass lacks.
fn movement_or_its_form(rng: &mut Rng, section: &Section, track: usize) -> Step {
    match movement(rng, section, track) {
        Step::Pass { post, train } if lacks_form(section, track, post, train) => {
            match rng.below(4) {
                0 => Step::Pass { post, train },
                _ => Step::Form { post, train },
            }
        }
        step => step,
    }
}

fn lacks_form(section: &Section, track: usize, post: u8, train: u16) -> bool {
    let settings = &section.settings;
    let kept = &section.tracks[track];
    let record = &kept.posts[usize::from(post)];
    section.way(track).ahead(post).is_some_and(|ahead| {
        let under_fault_4 = record.faults & FAULT_4 != 0 && settings.crossing_in(ahead);
        let without_zones = kept.direction == CVT && settings.crossing_without_zones_in(ahead);
        record.form_for != train && (under_fault_4 || without_zones)
    })
}

/// A pass or leave of a train that is there, if there is one.
fn movement(rng: &mut Rng, section: &Section, track: usize) -> Step {
    let way = section.way(track);
    let trains = section.trains(track);
    let held: Vec<usize> = (0..trains.len()).filter(|&i| trains[i] != 0).collect();
    let (post, train) = if held.is_empty() {
        let post = rng.post(section.settings.n);
        (post, likely_number(rng, section, track))
    } else {
        let block_section = rng.pick(&held);
        let post = block_section as u8 + u8::from(way.upward);
        (post, trains[block_section])
    };
    if post == way.receiving_end() {
        Step::Leave { post, train }
    } else {
        Step::Pass { post, train }
    }
}

fn local_step(rng: &mut Rng, section: &Section, track: usize) -> Step {
    let post = turn_or_any(rng, section, track);
    let record = section.tracks[track].posts[usize::from(post)];
    let fault = rng.fault();
    match rng.below(20) {
        0..=8 => Step::MeasuresOn { post },
        9..=11 => Step::MeasuresOff { post },
        12..=14 => Step::FaultOn { post, fault },
        _ => Step::FaultOff {
            post,
            fault: standing_fault(rng, record.faults).unwrap_or(fault),
        },
    }
}

fn standing_fault(rng: &mut Rng, faults: u8) -> Option<u8> {
    let standing: Vec<u8> = (1..=GREATEST_FAULT)
        .filter(|fault| faults >> (fault - 1) & 1 == 1)
        .collect();
    (!standing.is_empty()).then(|| rng.pick(&standing))
}

/// With the last train's number, or one beside it.
fn release_step(rng: &mut Rng, section: &Section, track: usize) -> Step {
    let way = section.way(track);
    let kept = &section.tracks[track];
    let post = match kept.reversal_under_way() {
        true => kept.turn,
        false => way.sending_end(),
    };
    let last = way.ahead(post).map_or(0, |ahead| kept.last[ahead]);
    let train = match rng.below(6) {
        0 => (last + 1).min(rng.greatest_train),
        1 => last.saturating_sub(1),
        _ => last,
    };
    Step::Release { post, train }
}

fn turn_or_any(rng: &mut Rng, section: &Section, track: usize) -> u8 {
    let kept = &section.tracks[track];
    match rng.below(4) {
        0 if kept.reversal_under_way() => kept.turn,
        1 => section.way(track).sending_end(),
        _ => rng.post(section.settings.n),
    }
}

/// From a small stock, so that numbers come again; at times one that is on the track.
fn likely_number(rng: &mut Rng, section: &Section, track: usize) -> u16 {
    let on_track = rng.pick(section.trains(track));
    match rng.below(20) {
        0..=2 if on_track != 0 => on_track,
        0..=12 => 1 + rng.below(20) as u16,
        13 => rng.train_at_a_bound(),
        _ => rng.train(),
    }
}

/// Often that of the form at the sending end.
fn starting_number(rng: &mut Rng, section: &Section, track: usize) -> u16 {
    let sending_end = section.way(track).sending_end();
    match section.tracks[track].posts[usize::from(sending_end)].form_for {
        form_for if form_for != 0 && rng.chance(2, 3) => form_for,
        _ => likely_number(rng, section, track),
    }
}

fn random_step(rng: &mut Rng, n: u8) -> Step {
    let post = rng.post(n);
    let train = 1 + rng.below(30) as u16;
    let fault = rng.fault();
    match rng.below(14) {
        0 => Step::Order { post },
        1 => Step::Set { post },
        2 => Step::Announce { post },
        3 => Step::Acknowledge { post },
        4 => Step::Start { post, train },
        5 => Step::Pass { post, train },
        6 => Step::Leave { post, train },
        7 => Step::MeasuresOn { post },
        8 => Step::MeasuresOff { post },
        9 => Step::FaultOn { post, fault },
        10 => Step::FaultOff { post, fault },
        11 => Step::Release {
            post,
            train: train - 1,
        },
        12 => Step::Key { post },
        _ => Step::Form { post, train },
    }
}

/// One field changed a little, if the step stays well-formed.
fn nudged(rng: &mut Rng, bytes: [u8; STEP_LENGTH], n: u8) -> [u8; STEP_LENGTH] {
    let mut changed = bytes;
    let train = u16::from_le_bytes([bytes[4], bytes[5]]);
    match rng.below(6) {
        0 => changed[1] ^= 1,
        1 => changed[2] = bytes[2].wrapping_add(1),
        2 => changed[2] = bytes[2].wrapping_sub(1),
        3 => changed[3] = rng.fault(),
        4 => changed[4..6].copy_from_slice(&train.wrapping_add(1).to_le_bytes()),
        _ => changed[4..6].copy_from_slice(&train.wrapping_sub(1).to_le_bytes()),
    }
    let number = u16::from_le_bytes([changed[4], changed[5]]);
    match step::decode(&changed, n) {
        Some(_) if number <= rng.greatest_train => changed,
        _ => bytes,
    }
}

// Sections.

/// In range, mostly unreachable, with anything in the cells past the last post.
pub fn random_in_range_section(rng: &mut Rng) -> Section {
    let settings = random_settings(rng);
    let tracks = [
        random_track(rng, &settings, 0),
        random_track(rng, &settings, 1),
    ];
    Section { settings, tracks }
}

fn random_track(rng: &mut Rng, settings: &Settings, track: usize) -> Track {
    let n = usize::from(settings.n);
    let mut kept = Track {
        direction: rng.flag(),
        ..Track::default()
    };
    let density = rng.pick(&[0, 1, 3, 6, 10]);
    let fault_density = rng.pick(&[0, 1, 3, 5]);
    for (i, post) in kept.posts.iter_mut().enumerate() {
        *post = if i < n {
            random_post(rng, fault_density)
        } else {
            garbage_post(rng)
        };
    }
    for i in 0..kept.trains.len() {
        let mut number = |density| match i < n - 1 {
            true => random_train(rng, density),
            false => rng.word(),
        };
        kept.trains[i] = number(density);
        kept.last[i] = number(7);
    }
    for i in 0..n {
        let beside = i.saturating_sub(1)..(n - 1).min(i + 1);
        kept.posts[i].form_for = random_form(rng, &kept.trains[beside]);
    }
    choose_turn(rng, &mut kept, settings.n, track);
    kept
}

fn random_post(rng: &mut Rng, fault_density: u64) -> Post {
    let mut faults = 0;
    for bit in [FAULT_1, FAULT_2, FAULT_3, FAULT_4] {
        if rng.chance(fault_density, 10) {
            faults |= bit;
        }
    }
    Post {
        device: rng.flag(),
        permission: rng.flag(),
        measures: u8::from(rng.chance(2, 3)),
        faults,
        mark: rng.flag(),
        seals: random_seals(rng),
        form_for: 0,
    }
}

/// None, or for any train, or for one in the block sections beside the post.
fn random_form(rng: &mut Rng, beside: &[u16]) -> u16 {
    match rng.below(3) {
        0 => 0,
        1 => random_train(rng, 10),
        _ => rng.pick(beside),
    }
}

fn random_seals(rng: &mut Rng) -> u16 {
    match rng.below(4) {
        0 => MOST_SEALS,
        1 => MOST_SEALS - 1,
        2 => 0,
        _ => rng.below(1_000) as u16,
    }
}

fn garbage_post(rng: &mut Rng) -> Post {
    Post {
        device: rng.byte(),
        permission: rng.byte(),
        measures: rng.byte(),
        faults: rng.byte(),
        mark: rng.byte(),
        seals: rng.word(),
        form_for: rng.word(),
    }
}

fn random_train(rng: &mut Rng, density: u64) -> u16 {
    if !rng.chance(density, 10) {
        return 0;
    }
    match rng.below(8) {
        0 => 1,
        1 => rng.train_at_a_bound(),
        2 => rng.train(),
        _ => 1 + rng.below(20) as u16,
    }
}

fn choose_turn(rng: &mut Rng, track: &mut Track, n: u8, number: usize) {
    let way = Way::of(number, track.direction, n);
    track.act = rng.pick(&[NO_REVERSAL, NO_REVERSAL, SET, SET, ANNOUNCE, ACKNOWLEDGE]);
    let post = rng.post(n);
    track.turn = match track.act {
        NO_REVERSAL => 0,
        ANNOUNCE if post == way.receiving_end() => way.sending_end(),
        ACKNOWLEDGE if post == way.sending_end() => way.receiving_end(),
        _ => post,
    };
}

/// Puts one tested field of an in-range section out of its range.
pub fn put_out_of_range(rng: &mut Rng, section: &mut Section) {
    let n = section.settings.n;
    let number = usize::from(rng.flag());
    let post = usize::from(rng.post(n));
    let block_section = rng.below(u64::from(n) - 1) as usize;
    let way = section.way(number);
    let track = &mut section.tracks[number];
    match rng.below(20) {
        0 => section.settings.n = rng.pick(&[0, 1, 17, 18, 255]),
        1 => section.settings.form = 2 + rng.below(254) as u8,
        2 => section.settings.mask &= !(1 << rng.pick(&[0, n - 1])),
        3 => section.settings.line = rng.pick(&[0, 1_000, 65_535]),
        4 => track.direction = rng.pick(&[2, 3, 255]),
        5 => track.act = rng.pick(&[4, 5, 255]),
        6 => (track.act, track.turn) = (1 + rng.below(3) as u8, rng.pick(&[n, n + 1, 255])),
        7 => (track.act, track.turn) = (ANNOUNCE, way.receiving_end()),
        8 => (track.act, track.turn) = (ACKNOWLEDGE, way.sending_end()),
        9 => track.posts[post].device = rng.pick(&[2, 255]),
        10 => track.posts[post].permission = rng.pick(&[2, 255]),
        11 => track.posts[post].measures = rng.pick(&[2, 255]),
        12 => track.posts[post].faults |= 16 << rng.below(4),
        13 => track.posts[post].mark = rng.pick(&[2, 255]),
        14 => track.posts[post].seals = rng.pick(&[1_000, 1_023, 65_535]),
        15 => track.trains[block_section] = rng.pick(&TOO_GREAT),
        16 => track.last[block_section] = rng.pick(&TOO_GREAT),
        17 => track.posts[post].form_for = rng.pick(&TOO_GREAT),
        _ => section.settings.crossings = wrong_crossings(rng, n),
    }
}

/// Crossing bytes of which at least one is wrong for n posts.
fn wrong_crossings(rng: &mut Rng, n: u8) -> Crossings {
    let mut crossings = random_crossings(rng, n);
    let top = n - 2;
    match rng.below(5) {
        0 => (crossings[0], crossings[1]) = (UNUSED, random_crossing(rng, n)),
        1 => (crossings[6], crossings[7]) = (UNUSED, random_crossing(rng, n)),
        2 => (crossings[0], crossings[1]) = (top + WITHOUT_ZONES, top),
        3 if top > 0 => (crossings[0], crossings[1]) = (top, rng.pick(&[0, WITHOUT_ZONES])),
        _ => crossings[0] = rng.pick(&[n - 1, n - 1 + WITHOUT_ZONES, 127, 254]),
    }
    crossings
}

// Days.

/// A well-formed day file of `count` steps (at most 4,096), walked from the fresh section.
pub fn random_day(rng: &mut Rng, count: usize) -> Vec<u8> {
    let settings = random_settings(rng);
    let mut section = Section::fresh(settings);
    let mut steps = Vec::with_capacity(count * STEP_LENGTH);
    for _ in 0..count.min(MOST_STEPS) {
        let step = sensible_step(rng, &section);
        engine::judge_in_place(&mut section, &step);
        steps.extend_from_slice(&step);
    }
    dayfile::file_of(&settings, &steps).expect("the steps are well-formed")
}

/// Spoils a file; now and then it stays readable.
pub fn damage(rng: &mut Rng, file: &mut Vec<u8>) {
    let longest_tail = Mark::Bsr2.tail_length();
    match rng.below(15) {
        0 => file.truncate(rng.below(file.len() as u64 + 1) as usize),
        1 => file.truncate(file.len().saturating_sub(STEP_LENGTH)),
        2 => file.extend((0..rng.below(20)).map(|i| i as u8)),
        3 => file.splice(0..0, [0; STEP_LENGTH]).for_each(drop),
        4 => file.resize(GREATEST_LENGTH + rng.pick(&[0, 1, 8]), 0),
        5 => replace_byte(rng, file, TRAILER_LENGTH),
        6 => replace_byte(rng, file, longest_tail),
        7 => flip_bit(rng, file, longest_tail),
        8 => exchange_mark(file),
        9 => put_trailer_of_length(rng, file),
        10 => put_crossings(rng, file),
        11 => replace_crossing(rng, file),
        12 => replace_number(rng, file),
        _ => replace_byte(rng, file, usize::MAX),
    }
}

/// The other mark over the same distances and count.
fn exchange_mark(file: &mut [u8]) {
    if let Some(place) = file.len().checked_sub(TRAILER_LENGTH) {
        file[place + 3] ^= b'1' ^ b'2';
    }
}

/// The trailer that the length demands under either mark, whatever the bytes before it were.
fn put_trailer_of_length(rng: &mut Rng, file: &mut [u8]) {
    let mark = rng.pick(&[Mark::Bsr1, Mark::Bsr2]);
    if let Some(steps_length) = file.len().checked_sub(mark.tail_length()) {
        let trailer = mark.trailer(steps_length / STEP_LENGTH);
        let place = file.len() - TRAILER_LENGTH;
        file[place..].copy_from_slice(&trailer);
    }
}

/// Crossing bytes, mostly wrong ones or all unused, and the trailer of "BSR2" behind the
/// settings of a file of either mark.
fn put_crossings(rng: &mut Rng, file: &mut Vec<u8>) {
    let Ok(day) = dayfile::read(file) else { return };
    let count = day.count;
    let n = day.settings.n;
    let crossings = match rng.below(4) {
        0 => NO_CROSSINGS,
        1 => random_crossings(rng, n),
        _ => wrong_crossings(rng, n),
    };
    file.truncate(count * STEP_LENGTH + SETTINGS_LENGTH);
    file.extend_from_slice(&crossings);
    file.extend_from_slice(&Mark::Bsr2.trailer(count));
}

/// One byte where a file of mark "BSR2" has its crossings.
fn replace_crossing(rng: &mut Rng, file: &mut [u8]) {
    let value = match rng.below(4) {
        0 => UNUSED,
        _ => rng.below(17) as u8 + WITHOUT_ZONES * rng.flag(),
    };
    let from_end = TRAILER_LENGTH + rng.between(1, MOST_CROSSINGS);
    if let Some(place) = file.len().checked_sub(from_end) {
        file[place] = value;
    }
}

/// The number of a step becomes one beside a bound, or too great; mostly of a step that has one.
fn replace_number(rng: &mut Rng, file: &mut [u8]) {
    let Ok(day) = dayfile::read(file) else { return };
    let steps = day.steps.chunks_exact(STEP_LENGTH).enumerate();
    let numbered: Vec<usize> = steps
        .filter(|(_, step)| rng.chance(1, 30) || step[4] | step[5] != 0)
        .map(|(index, _)| index)
        .collect();
    if !numbered.is_empty() {
        let place = STEP_LENGTH * rng.pick(&numbered) + 4;
        let number = match rng.flag() {
            0 => rng.train_at_a_bound(),
            _ => rng.pick(&TOO_GREAT),
        };
        file[place..place + 2].copy_from_slice(&number.to_le_bytes());
    }
}

/// In the last `within` bytes.
fn replace_byte(rng: &mut Rng, file: &mut [u8], within: usize) {
    let value = rng.byte();
    if let Some(cell) = cell_near_end(rng, file, within) {
        *cell = value;
    }
}

fn flip_bit(rng: &mut Rng, file: &mut [u8], within: usize) {
    let bit = 1 << rng.below(8);
    if let Some(cell) = cell_near_end(rng, file, within) {
        *cell ^= bit;
    }
}

fn cell_near_end<'a>(rng: &mut Rng, file: &'a mut [u8], within: usize) -> Option<&'a mut u8> {
    let reach = within.min(file.len());
    if reach == 0 {
        return None;
    }
    let from_end = 1 + rng.below(reach as u64) as usize;
    let place = file.len() - from_end;
    Some(&mut file[place])
}

// Books.

/// Two posts' books of a day. Mostly they match but for what `damage_books` does; delays and clocks
/// are at times just inside or outside what is allowed.
pub fn random_books(rng: &mut Rng) -> [Vec<u8>; 2] {
    let offset = match rng.below(4) {
        0 => rng.pick(&[-121, -120, -61, -60, 0, 60, 61, 119, 120, 121]),
        1 => rng.between(0, 600) as i64 - 300,
        _ => rng.between(0, 240) as i64 - 120,
    };
    let longest_delay = rng.pick(&[0, 1, 30, 60, 60, 60, 61, 70]);
    let mut records = [Vec::new(), Vec::new()];
    let mut second = rng.below(2_000) as i64;
    for _ in 0..rng.pick(&[0, 1, 2, 5, 20, 60]) {
        second += rng.pick(&[0, 1, 30, 60, 61, 500]);
        let announcement = 1 + rng.below(4) as u8;
        let track = rng.flag();
        let delay = rng.between(0, longest_delay) as i64;
        let sender = usize::from(rng.flag());
        records[sender].push((second, [announcement, 0, track]));
        records[1 - sender].push((second + delay, [announcement, 1, track]));
    }
    let [first, second] = records;
    [book_of(first, 0), book_of(second, -offset)]
}

/// In the order of their times, on a clock that is so much ahead; as far as the day goes.
fn book_of(mut records: Vec<(i64, [u8; 3])>, ahead: i64) -> Vec<u8> {
    records.sort_by_key(|&(second, _)| second);
    let last = i64::from(books::LAST_SECOND);
    let bytes = records
        .into_iter()
        .map(|(second, [announcement, way, track])| {
            let time = (second + ahead).clamp(0, last) as u32;
            let [a, b, c, d] = time.to_le_bytes();
            [announcement, way, track, 0, a, b, c, d]
        });
    bytes.collect::<Vec<_>>().concat()
}

/// Changes one of them in one place.
pub fn damage_books(rng: &mut Rng, books: &mut [Vec<u8>; 2]) {
    let book = &mut books[usize::from(rng.flag())];
    let records = book.len() / books::RECORD_LENGTH;
    if records == 0 {
        book.extend_from_slice(&[1, rng.flag(), 0, 0, 5, 0, 0, 0]);
        return;
    }
    let place = books::RECORD_LENGTH * rng.below(records as u64) as usize;
    match rng.below(9) {
        0 => book[place] = 1 + rng.below(4) as u8,
        1 => book[place + 1] ^= 1,
        2 => book[place + 2] ^= 1,
        3 => book
            .drain(place..place + books::RECORD_LENGTH)
            .for_each(drop),
        4 => book.truncate(book.len() - rng.between(1, 7)),
        5 => book[place] = rng.pick(&[0, 5, 255]),
        6 => book[place + rng.between(1, 3)] = 2 + rng.below(254) as u8,
        7 => book[place + 4..place + 8]
            .copy_from_slice(&rng.pick(&[0, 86_399, 86_400, u32::MAX]).to_le_bytes()),
        _ => book[place + 4] = rng.byte(),
    }
}
