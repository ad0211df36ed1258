//! Sentences of request 5 of document 02, "Five-figure trains".

use reference::dayfile::{self, Refusal};
use reference::engine::{judge, judge_in_place};
use reference::generate::{self, Rng};
use reference::listing::{listing, panel};
use reference::run::{run, Outcome};
use reference::section::Section;
use reference::settings::{Settings, NO_CROSSINGS, TELEPHONE};
use reference::step::{decode, encode, form, leave, pass, release, start, Step};
use std::collections::BTreeSet;

const A: u8 = 0;
const B: u8 = 1;

/// Both sides of both bounds.
const TAKEN: [u16; 6] = [1, 9_999, 10_000, 32_768, 59_998, 59_999];
const TOO_GREAT: [u16; 3] = [60_000, 60_001, 65_535];

const KINDS_WITH_NUMBER: [u8; 5] = [5, 6, 7, 12, 14];

/// Crossings in both block sections.
fn three_posts() -> Settings {
    let mut crossings = NO_CROSSINGS;
    crossings[..2].copy_from_slice(&[0, 1]);
    Settings {
        n: 3,
        form: TELEPHONE,
        mask: 7,
        line: 1,
        crossings,
    }
}

fn accept(section: &mut Section, track: u8, step: Step) {
    let answer = judge(section, &encode(track, &step));
    assert_eq!(answer.refusal, 0, "{step:?}");
    *section = answer.section;
}

fn refusal(section: &Section, track: u8, step: Step) -> u8 {
    let answer = judge(section, &encode(track, &step));
    assert_eq!(answer.section, *section, "{step:?}");
    answer.refusal
}

fn step_bytes(kind: u8, number: u16) -> [u8; 8] {
    let fault = u8::from(kind == 10 || kind == 11);
    let [low, high] = number.to_le_bytes();
    [kind, 1, 2, fault, low, high, 0, 0]
}

/// 1 to 59,999 in kinds 5 to 7 and 14, 0 to 59,999 in kind 12, else 0: every number there is.
#[test]
fn every_number_in_every_kind() {
    for kind in 1..=14 {
        for number in 0..=u16::MAX {
            let fits = match kind {
                5 | 6 | 7 | 14 => number != 0 && number < 60_000,
                12 => number < 60_000,
                _ => number == 0,
            };
            let decoded = decode(&step_bytes(kind, number), 3);
            assert_eq!(decoded.is_some(), fits, "{kind} {number}");
        }
    }
}

#[test]
fn engine_takes_59999_and_refuses_60000_with_4() {
    let fresh = Section::fresh(three_posts());
    for kind in KINDS_WITH_NUMBER {
        for number in TAKEN {
            assert_ne!(judge(&fresh, &step_bytes(kind, number)).refusal, 4);
        }
        for number in TOO_GREAT {
            let answer = judge(&fresh, &step_bytes(kind, number));
            assert_eq!((answer.refusal, answer.section), (4, fresh));
        }
    }
}

#[test]
fn reader_writer_and_run_refuse_60000_with_its_index() {
    let settings = three_posts();
    for kind in KINDS_WITH_NUMBER {
        for number in TAKEN {
            let steps = [step_bytes(8, 0), step_bytes(kind, number)].concat();
            let file = dayfile::file_of(&settings, &steps).unwrap();
            assert_eq!(dayfile::read(&file).unwrap().steps, steps);
            let mut section = Section::fresh(settings);
            assert_eq!(run(&mut section, &steps, &mut [0; 4]), Outcome::Done(2));
        }
        for number in TOO_GREAT {
            let good = [step_bytes(8, 0), step_bytes(kind, 59_999)].concat();
            let steps = [step_bytes(8, 0), step_bytes(kind, number)].concat();
            let refused = Err(Refusal {
                number: 4,
                index: 1,
            });
            assert_eq!(dayfile::file_of(&settings, &steps).map(|_| ()), refused);
            let mut file = dayfile::file_of(&settings, &good).unwrap();
            file[..16].copy_from_slice(&steps);
            assert_eq!(dayfile::read(&file).map(|_| ()), refused);
            let outcome = run(&mut Section::fresh(settings), &steps, &mut [0; 4]);
            let refused = Outcome::Refused {
                refusal: 4,
                index: 1,
            };
            assert_eq!(outcome, refused);
        }
    }
}

/// Train, last train and form of every cell of a state; those past the last post are not tested.
#[test]
fn states() {
    let fresh = Section::fresh(three_posts());
    let step = encode(A, &Step::MeasuresOn { post: 0 });
    type Put = fn(&mut Section, usize, usize, u16);
    let cells: [(Put, usize, usize); 3] = [
        (
            |section, track, i, number| section.tracks[track].trains[i] = number,
            2,
            15,
        ),
        (
            |section, track, i, number| section.tracks[track].last[i] = number,
            2,
            15,
        ),
        (
            |section, track, i, number| section.tracks[track].posts[i].form_for = number,
            3,
            16,
        ),
    ];
    for (put, there, all) in cells {
        for track in [0, 1] {
            for i in 0..all {
                for number in TAKEN.into_iter().chain(TOO_GREAT) {
                    let mut section = fresh;
                    put(&mut section, track, i, number);
                    let in_range = number < 60_000 || i >= there;
                    assert_eq!(section.in_range(), in_range, "{track} {i} {number}");
                    let expected = if in_range { 0 } else { 6 };
                    assert_eq!(judge(&section, &step).refusal, expected);
                }
            }
        }
    }
}

/// The cells keep the whole number.
#[test]
fn trains_run_with_their_whole_number() {
    for train in TAKEN {
        let mut section = Section::fresh(three_posts());
        for (track, posts, sections) in [(A, [0, 1, 2], [0, 1]), (B, [2, 1, 0], [1, 0])] {
            accept(&mut section, track, start(posts[0], train));
            let kept = section.tracks[usize::from(track)];
            assert_eq!(
                (kept.trains[sections[0]], kept.last[sections[0]]),
                (train, train)
            );
            assert_eq!(refusal(&section, track, start(posts[0], train)), 17);
            accept(&mut section, track, pass(posts[1], train));
            let kept = section.tracks[usize::from(track)];
            assert_eq!(
                (kept.trains[sections[0]], kept.trains[sections[1]]),
                (0, train)
            );
            for bit in 0..16 {
                let other = train ^ 1 << bit;
                if (1..60_000).contains(&other) {
                    assert_eq!(refusal(&section, track, leave(posts[2], other)), 17);
                }
            }
            accept(&mut section, track, leave(posts[2], train));
            let kept = section.tracks[usize::from(track)];
            assert_eq!(kept.trains[..2], [0, 0]);
            assert_eq!(kept.last[..2], [train, train]);
        }
    }
}

#[test]
fn release_names_the_whole_number() {
    for train in TAKEN {
        let mut section = Section::fresh(three_posts());
        accept(&mut section, B, start(2, train));
        accept(&mut section, B, pass(1, train));
        accept(&mut section, B, Step::FaultOn { post: 2, fault: 1 });
        for bit in 0..16 {
            let other = train ^ 1 << bit;
            let expected = if other < 60_000 { 17 } else { 4 };
            assert_eq!(refusal(&section, B, release(2, other)), expected);
        }
        assert_eq!(refusal(&section, B, release(2, 0)), 17);
        accept(&mut section, B, release(2, train));
    }
}

#[test]
fn form_is_for_the_whole_number() {
    for train in TAKEN {
        let mut section = Section::fresh(three_posts());
        accept(&mut section, A, Step::FaultOn { post: 0, fault: 4 });
        for bit in 0..16 {
            let other = train ^ 1 << bit;
            if (1..60_000).contains(&other) {
                accept(&mut section, A, form(0, other));
                assert_eq!(section.tracks[0].posts[0].form_for, other);
                assert_eq!(refusal(&section, A, start(0, train)), 22);
            }
        }
        accept(&mut section, A, form(0, train));
        accept(&mut section, A, start(0, train));
        assert_eq!(section.tracks[0].posts[0].form_for, 0);
    }
}

/// No rule looks at a number but to find whether two are the same, or 0: with every train under
/// another number the answers, the lamps and the rest of the state are the same.
#[test]
fn other_numbers_change_nothing_else() {
    let mut rng = Rng::new(51);
    let (mut low, mut high) = (0, 0);
    for _ in 0..300 {
        let file = generate::random_day(&mut rng, 120);
        let day = dayfile::read(&file).unwrap();
        let mut steps = day.steps.to_vec();
        for step in steps.chunks_mut(8) {
            let number = u16::from_le_bytes([step[4], step[5]]);
            low += usize::from((1..10_000).contains(&number));
            high += usize::from(number >= 10_000);
            step[4..6].copy_from_slice(&mirrored(number).to_le_bytes());
        }
        let other = dayfile::file_of(&day.settings, &steps).unwrap();
        assert_eq!(listing(&other), listing(&file));
        assert_eq!(panel(&other), panel(&file));
        let end = end_of(day.settings, &steps);
        assert_eq!(mirrored_section(&end), end_of(day.settings, day.steps));
    }
    assert!(low > 0 && high > 0, "numbers {low} and {high}");
}

/// 1 to 59,999 in the opposite order.
fn mirrored(number: u16) -> u16 {
    match number {
        0 => 0,
        _ => 60_000 - number,
    }
}

fn mirrored_section(section: &Section) -> Section {
    let mut other = *section;
    for track in &mut other.tracks {
        track.trains = track.trains.map(mirrored);
        track.last = track.last.map(mirrored);
        for post in &mut track.posts {
            post.form_for = mirrored(post.form_for);
        }
    }
    other
}

fn end_of(settings: Settings, steps: &[u8]) -> Section {
    let mut section = Section::fresh(settings);
    for step in steps.chunks(8) {
        judge_in_place(&mut section, step);
    }
    section
}

/// The drawn days have the numbers at the bounds in accepted steps of every kind, drawn states in
/// every cell, and those of four figures have no greater one.
#[test]
fn generators_reach_the_bounds() {
    let mut rng = Rng::new(52);
    let mut accepted = BTreeSet::new();
    for _ in 0..300 {
        let file = generate::random_day(&mut rng, 300);
        let day = dayfile::read(&file).unwrap();
        let mut section = Section::fresh(day.settings);
        for step in day.steps.chunks(8) {
            if judge_in_place(&mut section, step).0 == 0 {
                accepted.insert((step[0], u16::from_le_bytes([step[4], step[5]])));
            }
        }
    }
    let (mut trains, mut last, mut forms) = (BTreeSet::new(), BTreeSet::new(), BTreeSet::new());
    for _ in 0..2_000 {
        let section = generate::random_in_range_section(&mut rng);
        let n = usize::from(section.settings.n);
        for track in section.tracks {
            trains.extend(&track.trains[..n - 1]);
            last.extend(&track.last[..n - 1]);
            forms.extend(track.posts[..n].iter().map(|post| post.form_for));
        }
    }
    for number in [9_999, 10_000, 59_999] {
        for kind in KINDS_WITH_NUMBER {
            assert!(accepted.contains(&(kind, number)), "{kind} {number}");
        }
        for drawn in [&trains, &last, &forms] {
            assert!(drawn.contains(&number), "{number}");
        }
    }
    let mut rng = Rng::of_four_figures(53);
    for _ in 0..100 {
        let file = generate::random_day(&mut rng, 300);
        let day = dayfile::read(&file).unwrap();
        for step in day.steps.chunks(8) {
            assert!(u16::from_le_bytes([step[4], step[5]]) <= 9_999);
        }
    }
}
