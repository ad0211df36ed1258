//! Days with level crossings: where a train needs a form, and what becomes of forms.

use super::bench::{Bench, A, B};
use super::settings;
use crate::settings::{Crossings, Settings, MATERIALISED, UNUSED, WITHOUT_ZONES};
use crate::step::{form, leave, pass, start, Step};

const FIRST: u16 = 2417;
const SECOND: u16 = 2433;

/// Of each number of posts: the first, the middle and the last block section, both kinds in each.
pub fn both_kinds(n: u8) -> Crossings {
    let last = n - 2;
    let mut sections = vec![0, last / 2, last];
    sections.dedup();
    crossings(
        sections
            .into_iter()
            .flat_map(|section| [section, section + WITHOUT_ZONES]),
    )
}

fn crossings(bytes: impl IntoIterator<Item = u8>) -> Crossings {
    let mut used = bytes.into_iter();
    [(); 8].map(|()| used.next().unwrap_or(UNUSED))
}

/// Every post is signalled.
fn bench(n: u8, form: u8, track: u8, crossings: Crossings) -> Bench {
    let every_post = ((1u32 << n) - 1) as u16;
    bench_of(settings(n, form, every_post), track, crossings)
}

fn bench_of(settings: Settings, track: u8, crossings: Crossings) -> Bench {
    let settings = Settings {
        crossings,
        ..settings
    };
    let mut bench = Bench::new(settings, track);
    bench.measures_on_everywhere();
    bench
}

/// The story in both directions, and the way back.
fn in_both_directions(bench: &mut Bench, story: fn(&mut Bench)) -> Vec<u8> {
    for _ in 0..2 {
        story(bench);
        bench.reverse();
    }
    bench.day()
}

fn fault_4_on(bench: &mut Bench, post: u8) {
    bench.accept(Step::FaultOn { post, fault: 4 });
}

fn fault_4_off(bench: &mut Bench, post: u8) {
    bench.accept(Step::FaultOff { post, fault: 4 });
}

fn fault_4_on_everywhere(bench: &mut Bench) {
    for post in 0..bench.n() {
        fault_4_on(bench, post);
    }
}

fn fault_4_off_everywhere(bench: &mut Bench) {
    for post in 0..bench.n() {
        fault_4_off(bench, post);
    }
}

/// The step by which a train enters the block section ahead of the post of this rank.
fn step_onto(bench: &Bench, rank: u8, train: u16) -> Step {
    let post = bench.post_at(rank);
    match rank {
        0 => start(post, train),
        _ => pass(post, train),
    }
}

/// 22, then the form, then the entry.
fn enter_with_form(bench: &mut Bench, rank: u8, train: u16) {
    let step = step_onto(bench, rank, train);
    bench.refuse(step, 22);
    bench.accept(form(bench.post_at(rank), train));
    bench.accept(step);
}

/// From end to end; a form is handed out exactly where one is needed.
fn run_train(bench: &mut Bench, train: u16, form_needed_in: impl Fn(usize) -> bool) {
    for rank in 0..bench.n() - 1 {
        let ahead = bench.way().ahead(bench.post_at(rank));
        if ahead.is_some_and(&form_needed_in) {
            enter_with_form(bench, rank, train);
        } else {
            bench.accept(step_onto(bench, rank, train));
        }
    }
    bench.accept(leave(bench.way().receiving_end(), train));
}

// Where a form is needed.

/// Both kinds of crossing in some block sections: 22 in both directions, and 12 elsewhere.
pub fn every_answer(n: u8, form: u8, track: u8) -> Vec<u8> {
    let mut bench = bench(n, form, track, both_kinds(n));
    in_both_directions(&mut bench, |bench| {
        forms_refused_without_crossing(bench);
        let settings = bench.section.settings;
        let crossing_in = |section| settings.crossing_in(section);
        trains_without_and_under_fault_4(bench, crossing_in, crossing_in);
    })
}

/// 12 with no crossing in the block section ahead, and at the receiving end in any case.
fn forms_refused_without_crossing(bench: &mut Bench) {
    for post in 0..bench.n() {
        let ahead = bench.way().ahead(post);
        if !ahead.is_some_and(|section| bench.section.settings.crossing_in(section)) {
            bench.refuse(form(post, FIRST), 12);
        }
    }
}

/// Block sections 0 to 3: a crossing with zones, one without, one of each, none.
const ONE_OF_EACH: [u8; 4] = [0, 1 + WITHOUT_ZONES, 2, 2 + WITHOUT_ZONES];
const FORM_IN_CVT: [bool; 4] = [false, true, true, false];
const FORM_UNDER_FAULT_4: [bool; 4] = [true, true, true, false];

pub fn zones(form: u8, track: u8) -> Vec<u8> {
    let mut bench = bench(5, form, track, crossings(ONE_OF_EACH));
    in_both_directions(&mut bench, |bench| {
        trains_without_and_under_fault_4(
            bench,
            |section| FORM_IN_CVT[section],
            |section| FORM_UNDER_FAULT_4[section],
        );
    })
}

/// All bytes used; the block sections are odd, so no start needs a form. Only the ends are
/// signalled: the posts between hand out forms inside a stretch.
pub fn eight(form: u8, track: u8) -> Vec<u8> {
    let bytes = [1, 3 + 128, 5, 7 + 128, 9, 11 + 128, 13, 13 + 128];
    let mut bench = bench_of(settings(16, form, 0x8001), track, bytes);
    in_both_directions(&mut bench, |bench| {
        trains_without_and_under_fault_4(
            bench,
            |section| [3, 7, 11, 13].contains(&section),
            |section| section % 2 == 1,
        );
    })
}

fn trains_without_and_under_fault_4(
    bench: &mut Bench,
    form_in_cvt: impl Fn(usize) -> bool,
    form_under_fault_4: impl Fn(usize) -> bool,
) {
    let counter = !bench.to_cvt();
    run_train(bench, FIRST, |section| counter && form_in_cvt(section));
    fault_4_on_everywhere(bench);
    run_train(bench, SECOND, form_under_fault_4);
    fault_4_off_everywhere(bench);
}

/// Three posts, a crossing with zones in both block sections.
fn with_zones(form: u8, track: u8) -> Bench {
    bench(3, form, track, crossings([0, 1]))
}

/// Only the fault of that post and track counts, and only while it stands, also over a reversal.
pub fn fault_4(form: u8, track: u8) -> Vec<u8> {
    let mut bench = with_zones(form, track);
    fault_4_on(&mut bench, 1);
    in_both_directions(&mut bench, |bench| {
        let [sending, next] = [0, 1].map(|rank| bench.post_at(rank));
        bench.refuse(
            Step::FaultOn {
                post: next,
                fault: 4,
            },
            21,
        );
        on_the_other_track(bench, |bench| fault_4_on(bench, sending));
        bench.accept(start(sending, FIRST));
        bench.refuse(pass(next, FIRST), 22);
        fault_4_off(bench, next);
        fault_4_on(bench, sending);
        bench.accept(pass(next, FIRST));
        bench.refuse(start(sending, SECOND), 22);
        fault_4_off(bench, sending);
        bench.refuse(
            Step::FaultOff {
                post: sending,
                fault: 4,
            },
            21,
        );
        bench.accept(start(sending, SECOND));
        let receiving = bench.way().receiving_end();
        bench.accept(leave(receiving, FIRST));
        bench.accept(pass(next, SECOND));
        bench.accept(leave(receiving, SECOND));
        fault_4_on(bench, next);
    })
}

fn on_the_other_track(bench: &mut Bench, story: impl FnOnce(&mut Bench)) {
    let track = bench.track;
    bench.track = A + B - track;
    story(bench);
    bench.track = track;
}

// What becomes of forms.

/// Looked for last, for another train, twice the same, replaced, kept by a refused step, kept by
/// another train's entry, for a train of that number on the other track, used up without need.
pub fn forms(form: u8, track: u8) -> Vec<u8> {
    let mut bench = with_zones(form, track);
    in_both_directions(&mut bench, |bench| {
        fault_4_on_everywhere(bench);
        form_is_looked_for_last(bench);
        form_replaced(bench);
        form_kept_for_its_train(bench);
        form_of_the_other_track(bench);
        fault_4_off_everywhere(bench);
        form_used_without_need(bench);
    })
}

/// Every other refusal of start and pass comes before 22.
fn form_is_looked_for_last(bench: &mut Bench) {
    let [sending, next, receiving] = [0, 1, 2].map(|rank| bench.post_at(rank));
    let fault = 1;
    bench.refuse(start(receiving, FIRST), 12);
    bench.refuse(pass(next, FIRST), 17);
    bench.accept(Step::FaultOn {
        post: sending,
        fault,
    });
    bench.refuse(start(sending, FIRST), 18);
    bench.accept(Step::FaultOff {
        post: sending,
        fault,
    });
    enter_with_form(bench, 0, FIRST);
    bench.refuse(start(sending, FIRST), 17);
    bench.refuse(start(sending, SECOND), 13);
    enter_with_form(bench, 1, FIRST);
    enter_with_form(bench, 0, SECOND);
    bench.refuse(pass(next, SECOND), 13);
    bench.accept(leave(receiving, FIRST));
    enter_with_form(bench, 1, SECOND);
    bench.accept(leave(receiving, SECOND));
}

/// The first train ends in the first block section.
fn form_replaced(bench: &mut Bench) {
    let post = bench.post_at(0);
    bench.accept(form(post, SECOND));
    bench.accept(form(post, SECOND));
    bench.refuse(start(post, FIRST), 22);
    bench.accept(form(post, FIRST));
    bench.refuse(start(post, SECOND), 22);
    bench.accept(start(post, FIRST));
}

/// Both trains run through; each form waits for its train.
fn form_kept_for_its_train(bench: &mut Bench) {
    let [sending, next, receiving] = [0, 1, 2].map(|rank| bench.post_at(rank));
    bench.accept(form(sending, SECOND));
    bench.refuse(start(sending, SECOND), 13);
    bench.accept(form(next, SECOND));
    bench.refuse(pass(next, FIRST), 22);
    fault_4_off(bench, next);
    bench.accept(pass(next, FIRST));
    fault_4_on(bench, next);
    bench.accept(start(sending, SECOND));
    bench.accept(leave(receiving, FIRST));
    bench.accept(pass(next, SECOND));
    bench.accept(leave(receiving, SECOND));
    bench.refuse(start(sending, SECOND), 22);
}

/// A train of the same number on each track, each with its own form at the post between.
fn form_of_the_other_track(bench: &mut Bench) {
    on_the_other_track(bench, |bench| {
        fault_4_on(bench, 1);
        bench.accept(form(1, FIRST));
    });
    run_train(bench, FIRST, |_| true);
    on_the_other_track(bench, |bench| {
        run_train(bench, FIRST, |_| false);
        fault_4_off(bench, 1);
    });
}

fn form_used_without_need(bench: &mut Bench) {
    let receiving = bench.way().receiving_end();
    for round in 0..2 {
        for rank in 0..2 {
            let post = bench.post_at(rank);
            if round == 0 {
                bench.accept(form(post, FIRST));
            } else {
                fault_4_on(bench, post);
                bench.refuse(step_onto(bench, rank, FIRST), 22);
                fault_4_off(bench, post);
            }
            bench.accept(step_onto(bench, rank, FIRST));
        }
        bench.accept(leave(receiving, FIRST));
    }
}

/// Set and key take a form away, a refused set does not; one handed out after the post's own set
/// stays until its train or the next set.
pub fn set_and_key(form: u8, track: u8, by_key: bool) -> Vec<u8> {
    let mut bench = with_zones(form, track);
    fault_4_on_everywhere(&mut bench);
    if by_key {
        for post in 0..bench.n() {
            bench.accept(Step::FaultOn { post, fault: 2 });
        }
    }
    for late in [false, true, false, true] {
        forms_in_a_reversal(&mut bench, by_key, late);
    }
    bench.day()
}

/// Forms of both posts with a block section ahead, before or after their own set; then a train
/// the other way, which finds the form between the ends only if it was handed out late.
fn forms_in_a_reversal(bench: &mut Bench, by_key: bool, late: bool) {
    let [sending, between, last] = [0, 1, 2].map(|rank| bench.post_at(rank));
    refused_set_leaves_form(bench, between);
    bench.accept(Step::Order { post: sending });
    bench.refuse(start(sending, FIRST), 11);
    for (post, next) in [(sending, between), (between, last)] {
        bench.accept(form(post, FIRST));
        bench.accept(turn(post, by_key));
        if late {
            bench.accept(form(post, FIRST));
        }
        bench.accept(Step::Announce { post });
        bench.accept(Step::Acknowledge { post: next });
    }
    bench.refuse(form(last, FIRST), 12);
    bench.accept(turn(last, by_key));
    bench.refuse(form(sending, FIRST), 12);
    enter_with_form(bench, 0, FIRST);
    match late {
        true => bench.accept(pass(between, FIRST)),
        false => enter_with_form(bench, 1, FIRST),
    }
    bench.accept(leave(sending, FIRST));
}

fn refused_set_leaves_form(bench: &mut Bench, between: u8) {
    bench.accept(form(between, SECOND));
    bench.refuse(Step::Set { post: between }, 15);
    bench.refuse(Step::Key { post: between }, 15);
    enter_with_form(bench, 0, SECOND);
    bench.accept(pass(between, SECOND));
    bench.accept(leave(bench.way().receiving_end(), SECOND));
}

fn turn(post: u8, by_key: bool) -> Step {
    match by_key {
        true => Step::Key { post },
        false => Step::Set { post },
    }
}

/// A reversal ordered behind two trains, for which forms are handed out meanwhile: the day that
/// demand 3 puts in another order.
pub fn forms_behind_trains(track: u8) -> Vec<u8> {
    let every_section = [0, 1, 2, 3].map(|section| section + WITHOUT_ZONES);
    let mut bench = bench(5, MATERIALISED, track, crossings(every_section));
    fault_4_on_everywhere(&mut bench);
    for _ in 0..2 {
        reversal_behind_trains(&mut bench);
    }
    run_train(&mut bench, FIRST, |_| true);
    bench.day()
}

/// The first train begins in the block section of rank 2, the second in that of rank 1.
fn reversal_behind_trains(bench: &mut Bench) {
    let posts = [0, 1, 2, 3, 4].map(|rank| bench.post_at(rank));
    for rank in 0..3 {
        enter_with_form(bench, rank, FIRST);
    }
    for rank in 0..2 {
        enter_with_form(bench, rank, SECOND);
    }
    bench.accept(form(posts[2], SECOND));
    bench.accept(Step::Order { post: posts[0] });
    bench.accept(Step::Set { post: posts[0] });
    hand_on(bench, posts[0], posts[1]);
    bench.refuse(Step::Set { post: posts[1] }, 13);
    bench.refuse(pass(posts[2], SECOND), 13);
    enter_with_form(bench, 3, FIRST);
    bench.accept(pass(posts[2], SECOND));
    bench.accept(Step::Set { post: posts[1] });
    bench.accept(form(posts[1], FIRST));
    hand_on(bench, posts[1], posts[2]);
    bench.accept(leave(posts[4], FIRST));
    bench.refuse(Step::Set { post: posts[2] }, 13);
    enter_with_form(bench, 3, SECOND);
    bench.accept(Step::Set { post: posts[2] });
    hand_on(bench, posts[2], posts[3]);
    bench.accept(form(posts[3], FIRST));
    bench.refuse(Step::Set { post: posts[3] }, 13);
    bench.accept(leave(posts[4], SECOND));
    bench.accept(Step::Set { post: posts[3] });
    hand_on(bench, posts[3], posts[4]);
    bench.accept(Step::Set { post: posts[4] });
    a_train_the_other_way(bench, posts[1]);
}

fn hand_on(bench: &mut Bench, post: u8, next: u8) {
    bench.accept(Step::Announce { post });
    bench.accept(Step::Acknowledge { post: next });
}

/// Only the form that the post handed out after its own set is still there.
fn a_train_the_other_way(bench: &mut Bench, post_with_form: u8) {
    for rank in 0..bench.n() - 1 {
        let post = bench.post_at(rank);
        if post == post_with_form {
            bench.accept(pass(post, FIRST));
        } else {
            enter_with_form(bench, rank, FIRST);
        }
    }
    bench.accept(leave(bench.way().receiving_end(), FIRST));
}
