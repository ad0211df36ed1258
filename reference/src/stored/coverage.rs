//! What the stored days must show together.

mod parts;
mod trains;

use super::table::ANSWERS_BY_KIND;
use super::StoredDay;
use crate::dayfile::{self, Day, Mark, MOST_STEPS};
use crate::engine;
use crate::section::Section;
use crate::settings::{MATERIALISED, TELEPHONE};
use crate::step::STEP_LENGTH;
use crate::way::{CVT, VNS};
use std::collections::BTreeSet;

/// The posts, form, track and running direction under which a kind got an answer.
#[derive(Clone, Copy, Debug, PartialEq, Eq, PartialOrd, Ord)]
struct Case {
    n: u8,
    form: u8,
    track: u8,
    direction: u8,
    kind: u8,
    refusal: u8,
}

pub fn demand(days: &[StoredDay]) {
    let mut seen = BTreeSet::new();
    let mut counts = BTreeSet::new();
    let mut file_refusals = BTreeSet::new();
    for day in days {
        match dayfile::read(&day.file) {
            Ok(read) => {
                counts.insert((Mark::of(&read.settings), read.count));
                collect(&read, &mut seen);
            }
            Err(refusal) => {
                file_refusals.insert((refusal.number, refusal.index));
            }
        }
    }
    let missing: Vec<Case> = demanded().filter(|case| !seen.contains(case)).collect();
    assert!(missing.is_empty(), "no stored day shows {missing:?}");
    for mark in [Mark::Bsr1, Mark::Bsr2] {
        assert!(counts.contains(&(mark, 0)) && counts.contains(&(mark, MOST_STEPS)));
    }
    for number in 1..=4 {
        assert!(file_refusals.contains(&(number, 0)));
    }
    assert!(file_refusals.contains(&(4, MOST_STEPS as u32 - 1)));
    parts::demand(days);
    trains::demand(days);
}

fn collect(day: &Day, seen: &mut BTreeSet<Case>) {
    let mut section = Section::fresh(day.settings);
    for step in day.steps.chunks_exact(STEP_LENGTH) {
        let direction = section.tracks[usize::from(step[1])].direction;
        let (refusal, _) = engine::judge_in_place(&mut section, step);
        seen.insert(Case {
            n: day.settings.n,
            form: day.settings.form,
            track: step[1],
            direction,
            kind: step[0],
            refusal,
        });
    }
}

fn demanded() -> impl Iterator<Item = Case> {
    let answers: Vec<(u8, u8)> = (0..)
        .zip(ANSWERS_BY_KIND)
        .flat_map(|(kind, answers)| answers.iter().map(move |&refusal| (kind, refusal)))
        .collect();
    grounds()
        .into_iter()
        .flat_map(move |ground| cases_on(ground, &answers))
        .filter(|case| !out_of_reach(case))
}

/// The numbers of posts, forms, tracks and directions that each answer must be shown under.
fn grounds() -> Vec<(u8, u8, u8, u8)> {
    let mut grounds = Vec::new();
    for n in [2, 3, 16] {
        for form in [TELEPHONE, MATERIALISED] {
            for track in [0, 1] {
                for direction in [VNS, CVT] {
                    grounds.push((n, form, track, direction));
                }
            }
        }
    }
    grounds
}

fn cases_on((n, form, track, direction): (u8, u8, u8, u8), answers: &[(u8, u8)]) -> Vec<Case> {
    answers
        .iter()
        .map(|&(kind, refusal)| Case {
            n,
            form,
            track,
            direction,
            kind,
            refusal,
        })
        .collect()
}

/// What no day file of that ground can show.
fn out_of_reach(case: &Case) -> bool {
    match (case.kind, case.refusal) {
        // 999 seals of a post take 998 whole reversals before it, of five steps at least.
        (13, 20) => true,
        // Only an order, a set and a key to CVT have these checks.
        (1, 14) | (2 | 13, 16) => case.direction == CVT,
        // The order has seen free what set and key look at: by telephone the whole track,
        // with two posts the one block section. No train enters in a reversal.
        (2 | 13, 13) => case.form == TELEPHONE || case.n == 2,
        // Two posts are both ends.
        (6, refusal) => case.n == 2 && refusal != 12,
        _ => false,
    }
}
