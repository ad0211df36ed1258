//! Each row of the table of steps: a state hindered in every way, then freed of one
//! hindrance after the other in the row's order.

use reference::engine::judge;
use reference::section::{Section, ACKNOWLEDGE, NO_REVERSAL, SET};
use reference::settings::{Settings, NO_CROSSINGS};
use reference::step::{encode, Step};

type Freeing = fn(&mut Section);

/// Track A, n = 3, telephone, only the ends signalled.
fn fresh() -> Section {
    Section::fresh(Settings {
        n: 3,
        form: 0,
        mask: 0b101,
        line: 1,
        crossings: NO_CROSSINGS,
    })
}

/// A crossing without zones in each block section.
fn with_crossings() -> Section {
    let mut section = fresh();
    section.settings.crossings[..2].copy_from_slice(&[128, 129]);
    section
}

/// The step meets each refusal in turn; each is followed by what frees the step of it.
fn check_row(mut section: Section, step: Step, row: &[(u8, Freeing)]) {
    for &(refusal, free) in row {
        let answer = judge(&section, &encode(0, &step));
        assert_eq!(
            (answer.refusal, answer.section),
            (refusal, section),
            "{step:?}"
        );
        free(&mut section);
    }
    assert_eq!(judge(&section, &encode(0, &step)).refusal, 0, "{step:?}");
}

fn no_train(section: &mut Section) {
    section.tracks[0].trains = [0; 15];
}

fn no_reversal(section: &mut Section) {
    section.tracks[0].act = NO_REVERSAL;
    section.tracks[0].turn = 0;
}

/// Post 0 of track A is the sending end for VNS and the receiving end for CVT.
fn running_vns(section: &mut Section) {
    section.tracks[0].direction = 0;
}

fn turn_at_post_0(section: &mut Section) {
    section.tracks[0].act = SET;
    section.tracks[0].turn = 0;
}

fn release_mark(section: &mut Section) {
    section.tracks[0].posts[0].mark = 1;
}

fn measures_taken(section: &mut Section) {
    section.tracks[0].posts[0].measures = 1;
}

/// Every hindrance of set and key to CVT at post 0.
fn hindered_set(faults: u8) -> Section {
    let mut section = fresh();
    section.tracks[0].act = ACKNOWLEDGE;
    section.tracks[0].turn = 1;
    section.tracks[0].trains[0] = 8;
    section.tracks[0].posts[0].faults = faults;
    section.tracks[0].posts[0].seals = 999;
    section
}

#[test]
fn order() {
    let mut section = fresh();
    section.tracks[0].direction = 1;
    section.tracks[0].act = SET;
    section.tracks[0].trains[1] = 8;
    section.tracks[1].direction = 1;
    let row: [(u8, Freeing); 4] = [
        (11, no_reversal),
        (12, running_vns),
        (14, |section| section.tracks[1].direction = 0),
        (13, no_train),
    ];
    check_row(section, Step::Order { post: 0 }, &row);
}

#[test]
fn order_to_vns_does_not_look_at_the_other_track() {
    let mut section = fresh();
    section.tracks[0].direction = 1;
    section.tracks[1].direction = 1;
    section.tracks[1].act = SET;
    check_row(section, Step::Order { post: 2 }, &[]);
}

#[test]
fn set() {
    let row: [(u8, Freeing); 5] = [
        (15, turn_at_post_0),
        (13, no_train),
        (18, release_mark),
        (16, measures_taken),
        (19, |section| section.tracks[0].posts[0].faults = 1),
    ];
    check_row(hindered_set(3), Step::Set { post: 0 }, &row);
}

#[test]
fn key() {
    let row: [(u8, Freeing); 6] = [
        (15, turn_at_post_0),
        (21, |section| section.tracks[0].posts[0].faults = 3),
        (13, no_train),
        (18, release_mark),
        (16, measures_taken),
        (20, |section| section.tracks[0].posts[0].seals = 998),
    ];
    check_row(hindered_set(1), Step::Key { post: 0 }, &row);
}

#[test]
fn start() {
    let mut section = with_crossings();
    section.tracks[0].direction = 1;
    section.tracks[0].act = SET;
    section.tracks[0].trains = [8; 15];
    section.tracks[0].posts[0].faults = 9;
    section.tracks[0].posts[0].form_for = 9;
    let row: [(u8, Freeing); 6] = [
        (11, no_reversal),
        (12, running_vns),
        (17, |section| section.tracks[0].trains[..2].fill(9)),
        (13, no_train),
        (18, release_mark),
        (22, |section| section.tracks[0].posts[0].form_for = 8),
    ];
    check_row(section, Step::Start { post: 0, train: 8 }, &row);
}

#[test]
fn pass() {
    let mut section = with_crossings();
    section.tracks[0].trains[1] = 9;
    section.tracks[0].posts[1].faults = 8;
    let row: [(u8, Freeing); 3] = [
        (17, |section| section.tracks[0].trains[0] = 8),
        (13, |section| section.tracks[0].trains[1] = 0),
        (22, |section| section.tracks[0].posts[1].form_for = 8),
    ];
    check_row(section, Step::Pass { post: 1, train: 8 }, &row);
    for post in [0, 2] {
        let answer = judge(&section, &encode(0, &Step::Pass { post, train: 9 }));
        assert_eq!(answer.refusal, 12);
    }
}

#[test]
fn pass_elsewhere_is_never_occupied() {
    let mut section = fresh();
    section.tracks[0].direction = 1;
    section.tracks[0].trains[..2].copy_from_slice(&[9, 8]);
    let answer = judge(&section, &encode(0, &Step::Pass { post: 1, train: 8 }));
    assert_eq!(answer.refusal, 0);
    assert_eq!(answer.section.tracks[0].trains[..2], [8, 0]);
    assert_eq!(answer.section.tracks[0].last[..2], [8, 0]);
    section.settings.mask = 0b111;
    assert_eq!(
        judge(&section, &encode(0, &Step::Pass { post: 1, train: 8 })).refusal,
        13
    );
}

#[test]
fn start_and_pass_in_counter_direction() {
    let mut section = with_crossings();
    section.tracks[0].direction = 1;
    let start: [(u8, Freeing); 1] = [(22, |section| section.tracks[0].posts[2].form_for = 8)];
    check_row(section, Step::Start { post: 2, train: 8 }, &start);
    section.tracks[0].trains[1] = 8;
    let pass: [(u8, Freeing); 1] = [(22, |section| section.tracks[0].posts[1].form_for = 8)];
    check_row(section, Step::Pass { post: 1, train: 8 }, &pass);
}

#[test]
fn form() {
    let row: [(u8, Freeing); 1] = [(12, |section| section.settings.crossings[0] = 1)];
    check_row(fresh(), Step::Form { post: 1, train: 8 }, &row);
    let row: [(u8, Freeing); 1] = [(12, |section| section.tracks[0].direction = 1)];
    check_row(with_crossings(), Step::Form { post: 2, train: 8 }, &row);
}

#[test]
fn leave() {
    let row: [(u8, Freeing); 2] = [
        (12, |section| section.tracks[0].direction = 1),
        (17, |section| section.tracks[0].trains[0] = 8),
    ];
    check_row(fresh(), Step::Leave { post: 0, train: 8 }, &row);
}

#[test]
fn measures_off() {
    let mut section = fresh();
    section.tracks[0].posts[1].device = 1;
    let row: [(u8, Freeing); 2] = [
        (21, |section| section.tracks[0].posts[1].measures = 1),
        (16, |section| section.tracks[0].posts[1].device = 0),
    ];
    check_row(section, Step::MeasuresOff { post: 1 }, &row);
}

#[test]
fn release() {
    let mut section = fresh();
    section.tracks[0].direction = 1;
    section.tracks[0].act = ACKNOWLEDGE;
    section.tracks[0].turn = 0;
    section.tracks[0].trains[0] = 8;
    section.tracks[0].last[0] = 8;
    let row: [(u8, Freeing); 5] = [
        (15, turn_at_post_0),
        (12, running_vns),
        (21, |section| section.tracks[0].posts[0].faults = 1),
        (13, no_train),
        (17, |section| section.tracks[0].last[0] = 7),
    ];
    check_row(section, Step::Release { post: 0, train: 7 }, &row);
}
