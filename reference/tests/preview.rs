//! Sentences of request 2 of document 02, "Try a step first".

use reference::dayfile;
use reference::engine::{judge, judge_in_place, SAID_CVT, SAID_CVTZ, SAID_NOTHING};
use reference::generate::{self, Rng};
use reference::indications::indications;
use reference::preview::{preview, Lamps, Preview};
use reference::section::Section;
use reference::settings::{Settings, MATERIALISED, NO_CROSSINGS, TELEPHONE};
use reference::step::{encode, leave, pass, start, Step};

const A: u8 = 0;
const B: u8 = 1;

const DARK_TRACK: Lamps = [(0, 0, 0); 16];

const DAYS: usize = 500;
const STEPS_OF_A_DAY: usize = 100;

fn settings(n: u8, form: u8) -> Settings {
    Settings {
        n,
        form,
        mask: 1 | 1 << (n - 1),
        line: 1,
        crossings: NO_CROSSINGS,
    }
}

fn accept(section: &mut Section, track: u8, step: Step) {
    let answer = judge(section, &encode(track, &step));
    assert_eq!(answer.refusal, 0, "{step:?}");
    *section = answer.section;
}

/// The preview; the section has to come back as it was.
fn tried(section: &Section, step: &[u8]) -> Preview {
    let before = *section;
    let tried = preview(section, step);
    assert_eq!(*section, before, "{step:?}");
    tried
}

/// The lamps of the posts that the section has, with 0 at the others.
fn shown(track_a: &[(u8, u8, u8)], track_b: &[(u8, u8, u8)]) -> [Lamps; 2] {
    [track_a, track_b].map(|posts| {
        let mut lamps = DARK_TRACK;
        lamps[..posts.len()].copy_from_slice(posts);
        lamps
    })
}

/// The lamps of the section as it is, asked for one by one.
fn lamps_of(section: &Section) -> [Lamps; 2] {
    let mut lamps = [DARK_TRACK; 2];
    for track in [A, B] {
        for post in 0..16 {
            lamps[usize::from(track)][usize::from(post)] = indications(section, track, post);
        }
    }
    lamps
}

// Single steps.

/// Annex 3 of Title X: the lamps after each step, shown before it is taken.
#[test]
fn accepted_step_shows_the_lamps_after_it() {
    let at_rest = [(1, 0, 0), (1, 1, 1)];
    let mut section = Section::fresh(settings(2, MATERIALISED));
    accept(&mut section, A, Step::MeasuresOn { post: 0 });
    accept(&mut section, A, Step::MeasuresOn { post: 1 });
    for (step, said, track_a) in [
        (start(0, 2410), SAID_NOTHING, [(1, 2, 1), (1, 0, 0)]),
        (leave(1, 2410), SAID_NOTHING, [(1, 1, 1), (1, 0, 0)]),
        (
            Step::Order { post: 0 },
            SAID_NOTHING,
            [(1, 1, 0), (1, 0, 0)],
        ),
        (Step::Set { post: 0 }, SAID_NOTHING, [(2, 1, 0), (4, 0, 0)]),
        (Step::Announce { post: 0 }, SAID_CVT, [(2, 1, 0), (4, 0, 0)]),
        (
            Step::Acknowledge { post: 1 },
            SAID_CVTZ,
            [(2, 1, 0), (4, 0, 0)],
        ),
        (Step::Set { post: 1 }, SAID_NOTHING, [(2, 0, 0), (2, 1, 1)]),
    ] {
        let expected = Preview {
            refusal: 0,
            said,
            lamps: shown(&track_a, &at_rest),
        };
        assert_eq!(tried(&section, &encode(A, &step)), expected, "{step:?}");
        accept(&mut section, A, step);
    }
}

/// A step changes the lamps of its own track only, and each track is shown in its own place.
#[test]
fn both_tracks_are_shown() {
    let mut section = Section::fresh(settings(3, TELEPHONE));
    accept(&mut section, A, Step::FaultOn { post: 1, fault: 3 });
    let track_a = [(1, 1, 1), (0, 1, 0), (1, 0, 0)];
    let on_b = tried(&section, &encode(B, &start(2, 7)));
    assert_eq!(
        on_b.lamps,
        shown(&track_a, &[(1, 0, 0), (1, 1, 0), (1, 2, 1)])
    );
    let on_a = tried(&section, &encode(A, &start(0, 7)));
    assert_eq!(
        on_a.lamps,
        shown(
            &[(1, 2, 1), (0, 1, 0), (1, 0, 0)],
            &[(1, 0, 0), (1, 1, 0), (1, 1, 1)]
        )
    );
}

#[test]
fn refused_step_shows_the_section_as_it_is() {
    let mut section = Section::fresh(settings(3, TELEPHONE));
    accept(&mut section, A, start(0, 5));
    accept(&mut section, A, pass(1, 5));
    accept(&mut section, B, Step::FaultOn { post: 2, fault: 1 });
    let lamps = shown(
        &[(1, 1, 1), (1, 2, 0), (1, 0, 0)],
        &[(1, 0, 0), (1, 1, 0), (1, 2, 1)],
    );
    for (track, step, refusal) in [
        (A, Step::Order { post: 1 }, 12),
        (A, Step::Order { post: 0 }, 13),
        (A, Step::Set { post: 0 }, 15),
        (A, Step::MeasuresOff { post: 0 }, 21),
        (A, start(0, 5), 17),
        (B, start(2, 5), 18),
    ] {
        let expected = Preview {
            refusal,
            said: SAID_NOTHING,
            lamps,
        };
        assert_eq!(tried(&section, &encode(track, &step)), expected, "{step:?}");
    }
}

/// Also one for a track or post that the section hasn't.
#[test]
fn malformed_step_shows_the_section_as_it_is() {
    let mut section = Section::fresh(settings(2, TELEPHONE));
    accept(&mut section, B, start(1, 5));
    let expected = Preview {
        refusal: 4,
        said: SAID_NOTHING,
        lamps: shown(&[(1, 1, 1), (1, 0, 0)], &[(1, 0, 0), (1, 2, 1)]),
    };
    let malformed: [&[u8]; 8] = [
        &[],
        &[1, 0, 0, 0, 0, 0, 0],
        &[1, 0, 0, 0, 0, 0, 0, 0, 0],
        &[0, 0, 0, 0, 0, 0, 0, 0],
        &[15, 0, 0, 0, 1, 0, 0, 0],
        &[1, 2, 0, 0, 0, 0, 0, 0],
        &[1, 0, 2, 0, 0, 0, 0, 0],
        &[1, 0, 0, 0, 0, 0, 0, 1],
    ];
    for step in malformed {
        assert_eq!(tried(&section, step), expected, "{step:?}");
    }
}

#[test]
fn out_of_range_is_6_and_all_0() {
    let dark = Preview {
        refusal: 6,
        said: SAID_NOTHING,
        lamps: [DARK_TRACK; 2],
    };
    let mut rng = Rng::new(25);
    for _ in 0..2_000 {
        let mut section = generate::random_in_range_section(&mut rng);
        let step = generate::sensible_step(&mut rng, &section);
        assert_ne!(tried(&section, &step).lamps, dark.lamps);
        generate::put_out_of_range(&mut rng, &mut section);
        for offered in [&step[..], &step[..7], &[]] {
            assert_eq!(tried(&section, offered), dark, "{section:?}");
        }
    }
}

#[test]
fn posts_past_the_last_are_0() {
    for n in 2..=16 {
        let section = Section::fresh(settings(n, TELEPHONE));
        let between = vec![(1, 1, 0); usize::from(n) - 2];
        let track_a = [&[(1, 1, 1)], &between[..], &[(1, 0, 0)]].concat();
        let track_b = [&[(1, 0, 0)], &between[..], &[(1, 1, 1)]].concat();
        let step = encode(A, &Step::MeasuresOn { post: n - 1 });
        let lamps = tried(&section, &step).lamps;
        assert_eq!(lamps, shown(&track_a, &track_b), "{n} posts");
    }
}

/// The same whatever stands in their cells.
#[test]
fn cells_past_the_last_post_are_not_shown() {
    let mut rng = Rng::new(26);
    for _ in 0..2_000 {
        let section = generate::random_in_range_section(&mut rng);
        let n = usize::from(section.settings.n);
        let step = generate::sensible_step(&mut rng, &section);
        for lamps in tried(&section, &step).lamps {
            assert_eq!(lamps[n..], DARK_TRACK[n..]);
        }
    }
}

/// Over states that are mostly unreachable.
#[test]
fn preview_equals_taking_the_step_on_a_copy() {
    let mut rng = Rng::new(27);
    for _ in 0..2_000 {
        let section = generate::random_in_range_section(&mut rng);
        for _ in 0..5 {
            let step = generate::sensible_step(&mut rng, &section);
            check_against_a_copy(&section, &step);
        }
    }
}

/// The section after the step.
fn check_against_a_copy(section: &Section, step: &[u8]) -> Section {
    let mut copy = *section;
    let (refusal, said) = judge_in_place(&mut copy, step);
    let taken = Preview {
        refusal,
        said,
        lamps: lamps_of(&copy),
    };
    assert_eq!(tried(section, step), taken, "{step:?} {section:?}");
    copy
}

// Days.

/// The steps of a random day, with malformed ones between.
fn random_steps(rng: &mut Rng) -> (Settings, Vec<Vec<u8>>) {
    let file = generate::random_day(rng, STEPS_OF_A_DAY);
    let day = dayfile::read(&file).unwrap();
    let mut steps = Vec::new();
    for step in day.steps.chunks(8) {
        if rng.chance(1, 20) {
            steps.push(spoiled(rng, step));
        }
        steps.push(step.to_vec());
    }
    (day.settings, steps)
}

/// Malformed in any section.
fn spoiled(rng: &mut Rng, step: &[u8]) -> Vec<u8> {
    let mut bytes = step.to_vec();
    match rng.below(6) {
        0 => bytes.truncate(7),
        1 => bytes.push(0),
        2 => bytes[0] = rng.pick(&[0, 15, 255]),
        3 => bytes[1] = rng.pick(&[2, 255]),
        4 => bytes[4..6].copy_from_slice(&rng.pick(&[60_000u16, 65_535]).to_le_bytes()),
        _ => bytes[2] = rng.pick(&[16, 255]),
    }
    bytes
}

#[test]
fn preview_before_each_step_of_a_day() {
    let mut rng = Rng::new(28);
    let (mut accepted, mut malformed, mut refused) = (0, 0, 0);
    let (mut with_word, mut with_other_lamps) = (0, 0);
    for _ in 0..DAYS {
        let (settings, steps) = random_steps(&mut rng);
        let mut section = Section::fresh(settings);
        for step in &steps {
            let after = check_against_a_copy(&section, step);
            let answer = judge(&section, step);
            match answer.refusal {
                0 => accepted += 1,
                4 => malformed += 1,
                _ => refused += 1,
            }
            with_word += usize::from(answer.said != SAID_NOTHING);
            with_other_lamps += usize::from(lamps_of(&after) != lamps_of(&section));
            section = after;
        }
    }
    println!(
        "accepted {accepted} (with a word {with_word}, with other lamps after it \
         {with_other_lamps}), refused {refused}, malformed {malformed}"
    );
    assert!(with_word > 0, "nothing was said");
    assert!(with_other_lamps > 0, "no step changed a lamp");
    assert!(refused > 0, "no step was refused");
    assert!(malformed > 0, "no step was malformed");
}

#[test]
fn previews_between_steps_change_no_answer() {
    let mut rng = Rng::new(29);
    let mut acceptable = 0;
    for _ in 0..DAYS {
        let (settings, steps) = random_steps(&mut rng);
        let without = answers(settings, &steps, |_| ());
        let with = answers(settings, &steps, |section| {
            let step = generate::sensible_step(&mut rng, section);
            acceptable += usize::from(preview(section, &step).refusal == 0);
            preview(section, &spoiled(&mut rng, &step));
        });
        assert_eq!(with, without);
    }
    println!("acceptable steps previewed: {acceptable}");
    assert!(acceptable > 0, "no preview was of an acceptable step");
}

/// The answers of a day and the section after it, with something done before each step.
fn answers(
    settings: Settings,
    steps: &[Vec<u8>],
    mut before: impl FnMut(&Section),
) -> (Vec<(u8, u8)>, Section) {
    let mut section = Section::fresh(settings);
    let mut answers = Vec::new();
    for step in steps {
        before(&section);
        answers.push(judge_in_place(&mut section, step));
    }
    (answers, section)
}
