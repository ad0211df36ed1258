//! What the days must show together of train numbers: both sides of both bounds, in every kind of
//! step that has a number.

use crate::dayfile::{self, Day};
use crate::engine;
use crate::section::Section;
use crate::settings::{MATERIALISED, TELEPHONE};
use crate::step::STEP_LENGTH;
use crate::stored::trains::NUMBERS;
use crate::stored::StoredDay;
use crate::way::{CVT, VNS};
use std::collections::BTreeSet;

/// Start, pass, leave, release and form.
const KINDS_WITH_NUMBER: [u8; 5] = [5, 6, 7, 12, 14];
const TOO_GREAT: [u16; 2] = [60_000, 65_535];

/// The form, track and running direction under which a kind was accepted with a number.
#[derive(Clone, Copy, Debug, PartialEq, Eq, PartialOrd, Ord)]
struct Case {
    form: u8,
    track: u8,
    direction: u8,
    kind: u8,
    number: u16,
}

pub fn demand(days: &[StoredDay]) {
    let mut accepted = BTreeSet::new();
    let mut malformed = BTreeSet::new();
    for day in days {
        match dayfile::read(&day.file) {
            Ok(read) => collect(&read, &mut accepted),
            Err(refusal) if refusal.number == 4 => {
                let place = refusal.index as usize * STEP_LENGTH;
                let step = &day.file[place..place + STEP_LENGTH];
                malformed.insert((step[0], number_of(step)));
            }
            Err(_) => {}
        }
    }
    let missing: Vec<Case> = demanded()
        .into_iter()
        .filter(|case| !accepted.contains(case))
        .collect();
    assert!(missing.is_empty(), "no stored day shows {missing:?}");
    for kind in KINDS_WITH_NUMBER {
        for number in TOO_GREAT {
            assert!(malformed.contains(&(kind, number)), "{kind} {number}");
        }
    }
}

fn number_of(step: &[u8]) -> u16 {
    u16::from_le_bytes([step[4], step[5]])
}

fn collect(day: &Day, accepted: &mut BTreeSet<Case>) {
    let mut section = Section::fresh(day.settings);
    for step in day.steps.chunks_exact(STEP_LENGTH) {
        let direction = section.tracks[usize::from(step[1])].direction;
        let (refusal, _) = engine::judge_in_place(&mut section, step);
        if refusal == 0 {
            accepted.insert(Case {
                form: day.settings.form,
                track: step[1],
                direction,
                kind: step[0],
                number: number_of(step),
            });
        }
    }
}

fn demanded() -> Vec<Case> {
    let mut cases = Vec::new();
    for form in [TELEPHONE, MATERIALISED] {
        for track in [0, 1] {
            for direction in [VNS, CVT] {
                for kind in KINDS_WITH_NUMBER {
                    cases.extend(NUMBERS.map(|number| Case {
                        form,
                        track,
                        direction,
                        kind,
                        number,
                    }));
                }
            }
        }
    }
    cases
}
