//! Properties of the judging of single steps, over reachable and other states.

use reference::engine::{judge, judge_in_place};
use reference::generate::{self, Rng};
use reference::indications::indications;
use reference::section::{Post, Section};
use reference::settings::{Settings, NO_CROSSINGS};
use std::collections::BTreeMap;

/// Accepted again with the mark or the form already there, so they may change nothing.
const RELEASE: u8 = 12;
const FORM: u8 = 14;

#[test]
fn refusals_of_each_kind_are_those_of_the_table() {
    let mut rng = Rng::new(21);
    let mut met = BTreeMap::<u8, BTreeMap<u8, u32>>::new();
    for _ in 0..40_000 {
        let section = generate::random_in_range_section(&mut rng);
        for _ in 0..10 {
            let step = generate::sensible_step(&mut rng, &section);
            let answer = judge(&section, &step);
            *met.entry(step[0])
                .or_default()
                .entry(answer.refusal)
                .or_default() += 1;
        }
    }
    let table: [&[u8]; 14] = [
        &[0, 11, 12, 13, 14],
        &[0, 13, 15, 16, 18, 19],
        &[0, 15],
        &[0, 15],
        &[0, 11, 12, 13, 17, 18, 22],
        &[0, 12, 13, 17, 22],
        &[0, 12, 17],
        &[0, 21],
        &[0, 16, 21],
        &[0, 21],
        &[0, 21],
        &[0, 12, 13, 15, 17, 21],
        &[0, 13, 15, 16, 18, 20, 21],
        &[0, 12],
    ];
    println!("kind: refusal: times {met:?}");
    for (kind, refusals) in (1..).zip(table) {
        assert_eq!(
            met[&kind].keys().copied().collect::<Vec<_>>(),
            refusals,
            "kind {kind}"
        );
    }
}

#[test]
fn refused_steps_and_far_cells_change_nothing() {
    let mut rng = Rng::new(22);
    for _ in 0..20_000 {
        let mut section = generate::random_in_range_section(&mut rng);
        for _ in 0..10 {
            let step = generate::sensible_step(&mut rng, &section);
            let answer = judge(&section, &step);
            assert!(answer.section.in_range());
            let mut after = section;
            assert_eq!(
                judge_in_place(&mut after, &step),
                (answer.refusal, answer.said)
            );
            assert_eq!(after, answer.section);
            if answer.refusal != 0 {
                assert_eq!((after, answer.said), (section, 0));
            } else if ![RELEASE, FORM].contains(&step[0]) {
                assert_ne!(after, section, "{step:?}");
            }
            assert_eq!(far_cells(&after), far_cells(&section));
            section = after;
        }
    }
}

/// A section where only a cell past the last post is out of range judges as with zero there.
#[test]
fn far_cells_are_not_looked_at() {
    let mut rng = Rng::new(23);
    for _ in 0..20_000 {
        let section = generate::random_in_range_section(&mut rng);
        let mut clean = section;
        clear_far_cells(&mut clean);
        let step = generate::sensible_step(&mut rng, &section);
        let (mut with, without) = (judge(&section, &step), judge(&clean, &step));
        clear_far_cells(&mut with.section);
        assert_eq!(with, without);
        for track in [0, 1] {
            for post in 0..17 {
                assert_eq!(
                    indications(&section, track, post),
                    indications(&clean, track, post)
                );
            }
        }
    }
}

#[test]
fn out_of_range_is_6_before_4() {
    let mut rng = Rng::new(24);
    for _ in 0..20_000 {
        let mut section = generate::random_in_range_section(&mut rng);
        let step = generate::sensible_step(&mut rng, &section);
        assert_eq!(judge(&section, &step[..7]).refusal, 4);
        generate::put_out_of_range(&mut rng, &mut section);
        for offered in [&step[..], &step[..7], &[]] {
            let answer = judge(&section, offered);
            assert_eq!(
                (answer.refusal, answer.said, answer.section),
                (6, 0, section)
            );
        }
        assert_eq!(indications(&section, 0, 0), (0, 0, 0));
    }
}

#[test]
fn fresh_never_panics() {
    for n in 0..=255 {
        let settings = Settings {
            n,
            form: 9,
            mask: 0xffff,
            line: 0,
            crossings: NO_CROSSINGS,
        };
        let section = Section::fresh(settings);
        assert!(!section.in_range());
        assert_eq!(judge(&section, &[1, 0, 0, 0, 0, 0, 0, 0]).refusal, 6);
    }
}

fn far_cells(section: &Section) -> [(Vec<Post>, Vec<u16>, Vec<u16>); 2] {
    let n = usize::from(section.settings.n);
    section.tracks.map(|track| {
        (
            track.posts[n..].to_vec(),
            track.trains[n - 1..].to_vec(),
            track.last[n - 1..].to_vec(),
        )
    })
}

fn clear_far_cells(section: &mut Section) {
    let n = usize::from(section.settings.n);
    for track in &mut section.tracks {
        track.posts[n..].fill(Post::default());
        track.trains[n - 1..].fill(0);
        track.last[n - 1..].fill(0);
    }
}
