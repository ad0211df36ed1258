//! What the days `parts_...` must show together: who watches which part, on both tracks and in
//! both directions.

use crate::dayfile::{self, Day};
use crate::engine;
use crate::indications::{indications, NO_LAMP, RED, WHITE};
use crate::section::{Section, FAULT_1};
use crate::settings::{Settings, MATERIALISED, TELEPHONE};
use crate::step::STEP_LENGTH;
use crate::stored::StoredDay;
use crate::way::{CVT, VNS};
use std::collections::BTreeSet;

const ORDER: u8 = 1;
const SET: u8 = 2;
const RELEASE: u8 = 12;
const KEY: u8 = 13;

#[derive(Clone, Copy, Debug, PartialEq, Eq, PartialOrd, Ord)]
enum Signals {
    EndsOnly,
    SomePosts,
    EveryPost,
}
use Signals::{EndsOnly, EveryPost, SomePosts};

#[derive(Clone, Copy, Debug, PartialEq, Eq, PartialOrd, Ord)]
enum Place {
    SendingEnd,
    Signalled,
    WithoutSignals,
    ReceivingEnd,
}
use Place::{ReceivingEnd, SendingEnd, Signalled, WithoutSignals};

/// Where the nearest train ahead of a post is; `Anywhere` where that makes no difference.
#[derive(Clone, Copy, Debug, PartialEq, Eq, PartialOrd, Ord)]
enum Train {
    Anywhere,
    Nowhere,
    NextSection,
    BeforeNextSignals,
    PastNextSignals,
}
use Train::{Anywhere, BeforeNextSignals, NextSection, Nowhere, PastNextSignals};

#[derive(Clone, Copy, Debug, PartialEq, Eq, PartialOrd, Ord)]
enum Shown {
    Answer { kind: u8, refusal: u8 },
    Troncon(u8),
}

/// What a post of a line showed in which state.
#[derive(Clone, Copy, Debug, PartialEq, Eq, PartialOrd, Ord)]
struct Case {
    form: u8,
    signals: Signals,
    track: u8,
    direction: u8,
    place: Place,
    fault_1: bool,
    train: Train,
    shown: Shown,
}

pub fn demand(days: &[StoredDay]) {
    let mut seen = BTreeSet::new();
    for day in days.iter().filter(|day| day.name.starts_with("parts_")) {
        let day = dayfile::read(&day.file).expect("a day with steps");
        collect(&day, &mut seen);
    }
    let missing: Vec<Case> = demanded()
        .into_iter()
        .filter(|case| !seen.contains(case))
        .collect();
    assert!(missing.is_empty(), "no stored day shows {missing:?}");
}

// What is seen.

fn collect(day: &Day, seen: &mut BTreeSet<Case>) {
    let mut section = Section::fresh(day.settings);
    for step in day.steps.chunks_exact(STEP_LENGTH) {
        let (kind, track, post) = (step[0], step[1], step[2]);
        let before = section;
        let (refusal, _) = engine::judge_in_place(&mut section, step);
        let answer = case(&before, track, post, answer(kind, refusal));
        seen.insert(answer);
        seen.insert(Case {
            train: Anywhere,
            ..answer
        });
        for post in 0..day.settings.n {
            let troncon = indications(&section, track, post).1;
            seen.insert(case(&section, track, post, Shown::Troncon(troncon)));
        }
    }
}

fn case(section: &Section, track: u8, post: u8, shown: Shown) -> Case {
    let kept = &section.tracks[usize::from(track)];
    Case {
        form: section.settings.form,
        signals: signals(&section.settings),
        track,
        direction: kept.direction,
        place: place(section, track, post),
        fault_1: kept.posts[usize::from(post)].faults & FAULT_1 != 0,
        train: nearest_train(section, track, post),
        shown,
    }
}

fn signals(settings: &Settings) -> Signals {
    match settings.mask.count_ones() {
        2 => EndsOnly,
        signalled if signalled == u32::from(settings.n) => EveryPost,
        _ => SomePosts,
    }
}

fn place(section: &Section, track: u8, post: u8) -> Place {
    let way = section.way(usize::from(track));
    match section.settings.signalled(post) {
        _ if post == way.sending_end() => SendingEnd,
        _ if post == way.receiving_end() => ReceivingEnd,
        true => Signalled,
        false => WithoutSignals,
    }
}

fn nearest_train(section: &Section, track: u8, post: u8) -> Train {
    let way = section.way(usize::from(track));
    let trains = section.trains(usize::from(track));
    let mut at = post;
    let mut past_signals = false;
    while let Some(ahead) = way.ahead(at) {
        past_signals |= at != post && section.settings.signalled(at);
        match trains[ahead] {
            0 => at = way.next_post(at),
            _ if at == post => return NextSection,
            _ if past_signals => return PastNextSignals,
            _ => return BeforeNextSignals,
        }
    }
    Nowhere
}

// What is demanded.

/// Form, signals, place, fault 1, the nearest train and what is shown.
type Demand = (u8, Signals, Place, bool, Train, Shown);

fn demanded() -> Vec<Case> {
    let mut cases = Vec::new();
    for track in [0, 1] {
        for direction in [VNS, CVT] {
            for (form, signals, place, fault_1, train, shown) in demands() {
                cases.push(Case {
                    form,
                    signals,
                    track,
                    direction,
                    place,
                    fault_1,
                    train,
                    shown,
                });
            }
        }
    }
    cases
}

fn demands() -> Vec<Demand> {
    let mut demands = Vec::new();
    demands.extend(materialised(false, orders()));
    demands.extend(materialised(false, without_fault_1()));
    demands.extend(materialised(true, under_fault_1()));
    demands.extend(materialised(true, releases()));
    demands.extend(materialised(false, lamps_by_trains()));
    demands.extend(materialised(true, lamps_under_fault_1()));
    demands.extend(by_telephone());
    demands
}

type OnLine = (Signals, Place, Train, Shown);

fn materialised(fault_1: bool, on_lines: Vec<OnLine>) -> impl Iterator<Item = Demand> {
    on_lines
        .into_iter()
        .map(move |(signals, place, train, shown)| {
            (MATERIALISED, signals, place, fault_1, train, shown)
        })
}

fn answer(kind: u8, refusal: u8) -> Shown {
    Shown::Answer { kind, refusal }
}

/// Refused behind a train that is still in the part, accepted behind one that has left it.
fn orders() -> Vec<OnLine> {
    vec![
        (EndsOnly, SendingEnd, NextSection, answer(ORDER, 13)),
        (EndsOnly, SendingEnd, BeforeNextSignals, answer(ORDER, 13)),
        (EndsOnly, SendingEnd, Nowhere, answer(ORDER, 0)),
        (SomePosts, SendingEnd, NextSection, answer(ORDER, 13)),
        (SomePosts, SendingEnd, BeforeNextSignals, answer(ORDER, 13)),
        (SomePosts, SendingEnd, PastNextSignals, answer(ORDER, 0)),
        (EveryPost, SendingEnd, NextSection, answer(ORDER, 13)),
        (EveryPost, SendingEnd, PastNextSignals, answer(ORDER, 0)),
    ]
}

fn without_fault_1() -> Vec<OnLine> {
    vec![
        (SomePosts, SendingEnd, PastNextSignals, answer(SET, 0)),
        (SomePosts, Signalled, NextSection, answer(SET, 13)),
        (SomePosts, Signalled, BeforeNextSignals, answer(SET, 13)),
        (SomePosts, Signalled, NextSection, answer(KEY, 13)),
        (SomePosts, Signalled, BeforeNextSignals, answer(KEY, 13)),
        (SomePosts, WithoutSignals, PastNextSignals, answer(SET, 0)),
        (SomePosts, WithoutSignals, PastNextSignals, answer(KEY, 0)),
        (EndsOnly, WithoutSignals, Nowhere, answer(SET, 0)),
        (EndsOnly, WithoutSignals, Nowhere, answer(KEY, 0)),
        (EveryPost, SendingEnd, PastNextSignals, answer(SET, 0)),
        (EveryPost, Signalled, NextSection, answer(SET, 13)),
        (EveryPost, Signalled, NextSection, answer(KEY, 13)),
        (EveryPost, Signalled, PastNextSignals, answer(SET, 0)),
        (EndsOnly, WithoutSignals, Anywhere, answer(RELEASE, 12)),
        (SomePosts, WithoutSignals, Anywhere, answer(RELEASE, 12)),
    ]
}

fn under_fault_1() -> Vec<OnLine> {
    vec![
        (EndsOnly, SendingEnd, Anywhere, answer(SET, 18)),
        (EndsOnly, WithoutSignals, Anywhere, answer(SET, 0)),
        (EndsOnly, WithoutSignals, Anywhere, answer(KEY, 0)),
        (SomePosts, SendingEnd, Anywhere, answer(SET, 18)),
        (SomePosts, Signalled, Anywhere, answer(SET, 18)),
        (SomePosts, Signalled, Anywhere, answer(KEY, 18)),
        (SomePosts, WithoutSignals, Anywhere, answer(SET, 0)),
        (SomePosts, WithoutSignals, Anywhere, answer(KEY, 0)),
    ]
}

fn releases() -> Vec<OnLine> {
    vec![
        (EndsOnly, SendingEnd, NextSection, answer(RELEASE, 13)),
        (EndsOnly, SendingEnd, BeforeNextSignals, answer(RELEASE, 13)),
        (EndsOnly, SendingEnd, Nowhere, answer(RELEASE, 17)),
        (EndsOnly, SendingEnd, Nowhere, answer(RELEASE, 0)),
        (EndsOnly, WithoutSignals, Nowhere, answer(RELEASE, 15)),
        (EndsOnly, WithoutSignals, Nowhere, answer(RELEASE, 12)),
        (
            SomePosts,
            SendingEnd,
            BeforeNextSignals,
            answer(RELEASE, 13),
        ),
        (SomePosts, SendingEnd, PastNextSignals, answer(RELEASE, 0)),
        (SomePosts, Signalled, NextSection, answer(RELEASE, 13)),
        (SomePosts, Signalled, BeforeNextSignals, answer(RELEASE, 13)),
        (SomePosts, Signalled, Nowhere, answer(RELEASE, 17)),
        (SomePosts, Signalled, Nowhere, answer(RELEASE, 0)),
        (SomePosts, WithoutSignals, Nowhere, answer(RELEASE, 15)),
        (
            SomePosts,
            WithoutSignals,
            PastNextSignals,
            answer(RELEASE, 12),
        ),
        (SomePosts, WithoutSignals, Nowhere, answer(RELEASE, 12)),
        (SomePosts, ReceivingEnd, Nowhere, answer(RELEASE, 12)),
    ]
}

fn lamps_by_trains() -> Vec<OnLine> {
    let mut lamps = vec![
        (EveryPost, Signalled, NextSection, Shown::Troncon(RED)),
        (EveryPost, Signalled, PastNextSignals, Shown::Troncon(WHITE)),
    ];
    for signals in [EndsOnly, SomePosts] {
        lamps.extend([
            (signals, SendingEnd, Nowhere, Shown::Troncon(WHITE)),
            (signals, SendingEnd, NextSection, Shown::Troncon(RED)),
            (signals, SendingEnd, BeforeNextSignals, Shown::Troncon(RED)),
            (signals, WithoutSignals, Nowhere, Shown::Troncon(NO_LAMP)),
            (
                signals,
                WithoutSignals,
                NextSection,
                Shown::Troncon(NO_LAMP),
            ),
            (signals, ReceivingEnd, Nowhere, Shown::Troncon(NO_LAMP)),
        ]);
    }
    for place in [SendingEnd, Signalled] {
        lamps.extend([
            (SomePosts, place, NextSection, Shown::Troncon(RED)),
            (SomePosts, place, BeforeNextSignals, Shown::Troncon(RED)),
            (SomePosts, place, PastNextSignals, Shown::Troncon(WHITE)),
        ]);
    }
    lamps
}

fn lamps_under_fault_1() -> Vec<OnLine> {
    let mut lamps = vec![(SomePosts, Signalled, Nowhere, Shown::Troncon(RED))];
    for signals in [EndsOnly, SomePosts] {
        lamps.extend([
            (signals, SendingEnd, Nowhere, Shown::Troncon(RED)),
            (signals, WithoutSignals, Nowhere, Shown::Troncon(NO_LAMP)),
            (
                signals,
                WithoutSignals,
                NextSection,
                Shown::Troncon(NO_LAMP),
            ),
        ]);
    }
    lamps
}

/// What a materialised line would answer or show otherwise.
fn by_telephone() -> Vec<Demand> {
    [
        (SendingEnd, false, PastNextSignals, answer(ORDER, 13)),
        (SendingEnd, true, BeforeNextSignals, answer(RELEASE, 0)),
        (WithoutSignals, true, Nowhere, answer(SET, 18)),
        (WithoutSignals, true, Nowhere, answer(RELEASE, 0)),
        (SendingEnd, false, BeforeNextSignals, Shown::Troncon(WHITE)),
        (WithoutSignals, false, Nowhere, Shown::Troncon(WHITE)),
        (WithoutSignals, false, NextSection, Shown::Troncon(RED)),
        (WithoutSignals, true, Nowhere, Shown::Troncon(RED)),
    ]
    .map(|(place, fault_1, train, shown)| (TELEPHONE, SomePosts, place, fault_1, train, shown))
    .to_vec()
}
