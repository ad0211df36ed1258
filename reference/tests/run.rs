//! Sentences of request 4 of document 02, "A run of steps in one call".

use reference::dayfile::{self, MOST_STEPS};
use reference::engine::{judge_in_place, SAID_CVT, SAID_CVTZ, SAID_VNS, SAID_VNSZ};
use reference::generate::{self, Rng};
use reference::run::{run, Outcome};
use reference::section::Section;
use reference::settings::{Settings, NO_CROSSINGS, TELEPHONE};
use reference::step::{encode, leave, start, Step};
use std::collections::BTreeSet;

const A: u8 = 0;

/// Not an answer's byte, so that it tells what was written.
const UNTOUCHED: u8 = 0xa5;

fn two_posts() -> Settings {
    Settings {
        n: 2,
        form: TELEPHONE,
        mask: 3,
        line: 1,
        crossings: NO_CROSSINGS,
    }
}

fn on_a(steps: &[Step]) -> Vec<u8> {
    steps.iter().flat_map(|step| encode(A, step)).collect()
}

/// Well-formed, accepted and refused in turn: measures on again and again.
fn many(count: usize) -> Vec<u8> {
    let pair = on_a(&[Step::MeasuresOn { post: 0 }, Step::MeasuresOff { post: 1 }]);
    pair.repeat(count.div_ceil(2))[..count * 8].to_vec()
}

/// The answers' bytes of offering the steps singly, and the section after them.
fn singly(section: &Section, steps: &[u8]) -> (Vec<u8>, Section) {
    let mut after = *section;
    let mut answers = Vec::new();
    for step in steps.chunks(8) {
        let (refusal, said) = judge_in_place(&mut after, step);
        answers.extend([refusal, said]);
    }
    (answers, after)
}

/// The answers' bytes and the section after a call that has to be done, with `spare` bytes of
/// buffer past the answers, which have to stay.
fn done(section: &Section, steps: &[u8], spare: usize) -> (Vec<u8>, Section) {
    let count = steps.len() / 8;
    let mut after = *section;
    let mut buffer = vec![UNTOUCHED; 2 * count + spare];
    assert_eq!(run(&mut after, steps, &mut buffer), Outcome::Done(count));
    let past = buffer.split_off(2 * count);
    assert_eq!(past, vec![UNTOUCHED; spare]);
    (buffer, after)
}

/// Refusal and index of a call that has to be refused and to leave section and buffer alone.
fn refused(section: &Section, steps: &[u8], buffer_length: usize) -> (u8, usize) {
    let mut after = *section;
    let mut buffer: Vec<u8> = (0..buffer_length).map(|i| i as u8).collect();
    let before = buffer.clone();
    let Outcome::Refused { refusal, index } = run(&mut after, steps, &mut buffer) else {
        panic!("done");
    };
    assert_eq!((after, buffer), (*section, before));
    (refusal, index)
}

/// Any well-formed steps for the section: mostly such as the walk from it calls for.
fn drawn_steps(rng: &mut Rng, section: &Section, count: usize) -> Vec<u8> {
    let mut walked = *section;
    let mut steps = Vec::new();
    for _ in 0..count {
        let step = generate::sensible_step(rng, &walked);
        judge_in_place(&mut walked, &step);
        steps.extend(step);
    }
    steps
}

// Result, answers and state.

/// By hand: two reversals of A, with refused steps between, and trains.
#[test]
fn answers_are_the_refusal_and_what_is_said() {
    let steps = on_a(&[
        Step::MeasuresOn { post: 0 },
        Step::MeasuresOn { post: 0 },
        Step::MeasuresOn { post: 1 },
        Step::Order { post: 1 },
        Step::Order { post: 0 },
        start(0, 5),
        Step::Set { post: 0 },
        Step::Announce { post: 0 },
        Step::Acknowledge { post: 1 },
        Step::Set { post: 1 },
        start(1, 5),
        leave(0, 5),
        Step::Order { post: 1 },
        Step::Set { post: 1 },
        Step::Announce { post: 1 },
        Step::Acknowledge { post: 0 },
        Step::Set { post: 0 },
    ]);
    let expected = [
        [0, 0],
        [21, 0],
        [0, 0],
        [12, 0],
        [0, 0],
        [11, 0],
        [0, 0],
        [0, SAID_CVT],
        [0, SAID_CVTZ],
        [0, 0],
        [0, 0],
        [0, 0],
        [0, 0],
        [0, 0],
        [0, SAID_VNS],
        [0, SAID_VNSZ],
        [0, 0],
    ];
    assert_eq!([SAID_CVT, SAID_CVTZ, SAID_VNS, SAID_VNSZ], [1, 2, 3, 4]);
    let fresh = Section::fresh(two_posts());
    let (answers, after) = done(&fresh, &steps, 0);
    assert_eq!(answers, expected.as_flattened());
    let mut by_hand = fresh;
    by_hand.tracks[0].posts[0].measures = 1;
    by_hand.tracks[0].posts[1].measures = 1;
    by_hand.tracks[0].last[0] = 5;
    assert_eq!(after, by_hand);
}

/// Over states that are mostly unreachable, and over cells past the last post with anything in
/// them.
#[test]
fn run_from_any_state_equals_single_steps() {
    let mut rng = Rng::new(41);
    let mut met = BTreeSet::new();
    for _ in 0..4_000 {
        let section = generate::random_in_range_section(&mut rng);
        let count = rng.between(0, 20);
        let steps = drawn_steps(&mut rng, &section, count);
        let spare = rng.between(0, 5);
        let (answers, after) = done(&section, &steps, spare);
        assert_eq!((answers.clone(), after), singly(&section, &steps));
        met.extend(answers.chunks(2).map(|answer| (answer[0], answer[1])));
    }
    let refusals: Vec<u8> = met
        .iter()
        .filter(|answer| answer.1 == 0)
        .map(|a| a.0)
        .collect();
    assert_eq!(
        refusals,
        [0, 11, 12, 13, 14, 15, 16, 17, 18, 19, 20, 21, 22]
    );
    let words: Vec<u8> = met
        .iter()
        .filter(|answer| answer.0 == 0)
        .map(|a| a.1)
        .collect();
    assert_eq!(words, [0, 1, 2, 3, 4]);
}

/// Whole days, up to the longest.
#[test]
fn run_of_a_day_equals_single_steps() {
    let mut rng = Rng::new(42);
    let mut refused = 0;
    for count in [0, 1, 2, 100, 1_000, 4_095, 4_096] {
        for _ in 0..5 {
            let file = generate::random_day(&mut rng, count);
            let day = dayfile::read(&file).unwrap();
            let fresh = Section::fresh(day.settings);
            let (answers, after) = done(&fresh, day.steps, 3);
            assert_eq!((answers.clone(), after), singly(&fresh, day.steps));
            refused += answers.chunks(2).filter(|answer| answer[0] != 0).count();
        }
    }
    assert!(refused > 0, "no step was refused");
}

/// A step that is refused in its place changes no other answer and not the section.
#[test]
fn refused_step_does_not_end_the_run() {
    let mut rng = Rng::new(43);
    for _ in 0..1_000 {
        let section = generate::random_in_range_section(&mut rng);
        let steps = drawn_steps(&mut rng, &section, 12);
        let (answers, after) = done(&section, &steps, 0);
        let place = rng.between(0, 12);
        let between = singly(&section, &steps[..place * 8]).1;
        let hopeless = encode(A, &leave(between.way(0).sending_end(), 1));
        let with = [&steps[..place * 8], &hopeless, &steps[place * 8..]].concat();
        let (mut answers_with, after_with) = done(&section, &with, 0);
        let own: Vec<u8> = answers_with.drain(2 * place..2 * place + 2).collect();
        assert_eq!(own, [12, 0]);
        assert_eq!((answers_with, after_with), (answers, after));
    }
}

#[test]
fn run_of_refused_steps_only_alters_only_the_answers() {
    let fresh = Section::fresh(two_posts());
    let steps = on_a(&[
        Step::Set { post: 0 },
        Step::Order { post: 1 },
        leave(1, 9),
        Step::MeasuresOff { post: 0 },
    ]);
    let (answers, after) = done(&fresh, &steps, 9);
    assert_eq!(answers, [15, 0, 12, 0, 17, 0, 21, 0]);
    assert_eq!(after, fresh);
}

#[test]
fn two_calls_equal_one() {
    let mut rng = Rng::new(44);
    for _ in 0..1_000 {
        let section = generate::random_in_range_section(&mut rng);
        let steps = drawn_steps(&mut rng, &section, 30);
        let (answers, after) = done(&section, &steps, 0);
        let (first, second) = steps.split_at(8 * rng.between(0, 30));
        let (first_answers, between) = done(&section, first, 0);
        let (second_answers, end) = done(&between, second, 0);
        assert_eq!([first_answers, second_answers].concat(), answers);
        assert_eq!(end, after);
    }
}

// The buffer and the count.

#[test]
fn no_steps_and_no_buffer() {
    let fresh = Section::fresh(two_posts());
    assert_eq!(done(&fresh, &[], 0), (vec![], fresh));
    assert_eq!(done(&fresh, &[], 7), (vec![], fresh));
}

#[test]
fn short_buffer_is_5() {
    let fresh = Section::fresh(two_posts());
    for count in [1, 2, 3, 100, 4_096] {
        let steps = many(count);
        for length in [0, 1, count, 2 * count - 2, 2 * count - 1] {
            assert_eq!(refused(&fresh, &steps, length), (5, 0), "{count} {length}");
        }
        for spare in [0, 1, 2, 1_000] {
            assert_eq!(done(&fresh, &steps, spare), singly(&fresh, &steps));
        }
    }
}

#[test]
fn more_than_4096_steps_are_5() {
    assert_eq!(MOST_STEPS, 4_096);
    let fresh = Section::fresh(two_posts());
    assert_eq!(done(&fresh, &many(4_096), 0), singly(&fresh, &many(4_096)));
    for count in [4_097, 4_098, 8_192] {
        for length in [0, 2 * 4_096, 2 * count - 1, 2 * count, 2 * count + 1] {
            assert_eq!(refused(&fresh, &many(count), length), (5, 0), "{count}");
        }
    }
}

// Malformed steps.

#[test]
fn first_malformed_step_is_4_with_its_index() {
    let fresh = Section::fresh(two_posts());
    let good = many(8);
    let malformed: [[u8; 8]; 7] = [
        [0, 0, 0, 0, 0, 0, 0, 0],
        [15, 0, 0, 0, 1, 0, 0, 0],
        [1, 2, 0, 0, 0, 0, 0, 0],
        [1, 0, 2, 0, 0, 0, 0, 0],
        [10, 0, 0, 5, 0, 0, 0, 0],
        [5, 0, 0, 0, 0, 0, 0, 0],
        [1, 0, 0, 0, 0, 0, 0, 1],
    ];
    for bad in malformed {
        for first in 0..8 {
            let mut steps = good.clone();
            steps[8 * first..8 * first + 8].copy_from_slice(&bad);
            assert_eq!(refused(&fresh, &steps, 16), (4, first), "{bad:?}");
            // A later one does not count.
            steps[56..].copy_from_slice(&bad);
            assert_eq!(refused(&fresh, &steps, 16), (4, first), "{bad:?}");
        }
    }
}

/// Also past the 4,096 steps.
#[test]
fn incomplete_last_step_is_4_with_its_index() {
    let fresh = Section::fresh(two_posts());
    for count in [0, 1, 5, 4_095, 4_096, 4_097] {
        for bytes in 1..8 {
            let steps = &many(count + 1)[..8 * count + bytes];
            assert_eq!(refused(&fresh, steps, 2 * count + 2), (4, count));
        }
    }
    let mut steps = many(5);
    steps.truncate(39);
    steps[8] = 0;
    assert_eq!(refused(&fresh, &steps, 10), (4, 1));
}

/// A step is well-formed or not by the section's own posts.
#[test]
fn malformed_by_the_posts_of_the_section() {
    for n in 2..=16u8 {
        let settings = Settings {
            n,
            mask: 1 | 1 << (n - 1),
            ..two_posts()
        };
        let fresh = Section::fresh(settings);
        let last = on_a(&[
            Step::MeasuresOn { post: 0 },
            Step::MeasuresOn { post: n - 1 },
        ]);
        assert_eq!(done(&fresh, &last, 0).0, [0, 0, 0, 0]);
        let past = on_a(&[Step::MeasuresOn { post: 0 }, Step::MeasuresOn { post: n }]);
        assert_eq!(refused(&fresh, &past, 4), (4, 1));
    }
}

// The order of the refusals.

#[test]
fn order_of_the_refusals_is_6_4_5() {
    let mut rng = Rng::new(45);
    let fresh = Section::fresh(two_posts());
    let mut bad_step = many(3);
    bad_step[16] = 0;
    let mut bad_far_step = many(4_098);
    bad_far_step[8 * 4_097] = 15;
    let incomplete = &many(3)[..23];
    let too_many = many(4_097);
    for steps in [&bad_step[..], incomplete] {
        for length in [0, 5, 6] {
            assert_eq!(refused(&fresh, steps, length), (4, 2));
        }
    }
    for length in [0, 2 * 4_098] {
        assert_eq!(refused(&fresh, &bad_far_step, length), (4, 4_097));
    }
    for _ in 0..300 {
        let mut section = generate::random_in_range_section(&mut rng);
        assert_eq!(refused(&section, &bad_step, 6), (4, 2));
        assert_eq!(refused(&section, &too_many, 2 * 4_097), (5, 0));
        generate::put_out_of_range(&mut rng, &mut section);
        for steps in [&[], &bad_step[..], incomplete, &too_many, &many(3)] {
            assert_eq!(refused(&section, steps, 5), (6, 0));
            assert_eq!(refused(&section, steps, 2 * 4_097), (6, 0));
        }
    }
}

/// A refused call is no step: the next call is as if it had not been.
#[test]
fn refused_calls_between_change_nothing() {
    let mut rng = Rng::new(46);
    for _ in 0..300 {
        let section = generate::random_in_range_section(&mut rng);
        let steps = drawn_steps(&mut rng, &section, 10);
        let (answers, after) = done(&section, &steps, 0);
        let mut lent = section;
        let mut buffer = vec![UNTOUCHED; 20];
        let short = run(&mut lent, &steps, &mut buffer[..19]);
        assert_eq!(
            short,
            Outcome::Refused {
                refusal: 5,
                index: 0
            }
        );
        let incomplete = run(&mut lent, &steps[..79], &mut buffer);
        assert_eq!(
            incomplete,
            Outcome::Refused {
                refusal: 4,
                index: 9
            }
        );
        assert_eq!(run(&mut lent, &steps, &mut buffer), Outcome::Done(10));
        assert_eq!((buffer, lent), (answers, after));
    }
}
