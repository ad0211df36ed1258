//! Days in which every kind is refused for every reason that it can have, in both directions.

use super::bench::{Bench, A, B};
use crate::settings::{Settings, MATERIALISED, NO_CROSSINGS};
use crate::step::{form, leave, pass, release, start, Step, GREATEST_FAULT};

/// Every post is signalled.
pub fn day(n: u8, form: u8, track: u8) -> Vec<u8> {
    let settings = Settings {
        n,
        form,
        mask: ((1u32 << n) - 1) as u16,
        line: 999,
        crossings: NO_CROSSINGS,
    };
    let mut bench = Bench::new(settings, track);
    for trains in [(2410, 2412), (2711, 9_999)] {
        before_any_train(&mut bench, trains.0);
        trains_one_behind_another(&mut bench, trains);
        reversal(&mut bench, trains);
    }
    bench.day()
}

fn before_any_train(bench: &mut Bench, train: u16) {
    let sending = bench.way().sending_end();
    let receiving = bench.way().receiving_end();
    bench.refuse(Step::Order { post: receiving }, 12);
    out_of_turn(bench, sending);
    bench.refuse(start(receiving, train), 12);
    bench.refuse(pass(sending, train), 12);
    bench.refuse(leave(sending, train), 12);
    bench.refuse(leave(receiving, train), 17);
    release_refused(bench, receiving, 15);
    release_refused(bench, sending, 21);
    bench.refuse(form(sending, train), 12);
    faults_on_and_off(bench, receiving);
    measures_at_rest(bench, sending);
}

fn out_of_turn(bench: &mut Bench, post: u8) {
    for step in [
        Step::Set { post },
        Step::Announce { post },
        Step::Acknowledge { post },
        Step::Key { post },
    ] {
        bench.refuse(step, 15);
    }
}

fn release_refused(bench: &mut Bench, post: u8, refusal: u8) {
    let train = bench.last_ahead(post);
    bench.refuse(release(post, train), refusal);
}

fn faults_on_and_off(bench: &mut Bench, post: u8) {
    for fault in 1..=GREATEST_FAULT {
        bench.refuse(Step::FaultOff { post, fault }, 21);
        bench.accept(Step::FaultOn { post, fault });
        bench.refuse(Step::FaultOn { post, fault }, 21);
        bench.accept(Step::FaultOff { post, fault });
    }
}

fn measures_at_rest(bench: &mut Bench, post: u8) {
    if bench.settled_on_cvt() {
        bench.refuse(Step::MeasuresOn { post }, 21);
        bench.refuse(Step::MeasuresOff { post }, 16);
    } else {
        bench.refuse(Step::MeasuresOff { post }, 21);
        bench.accept(Step::MeasuresOn { post });
        bench.refuse(Step::MeasuresOn { post }, 21);
        bench.accept(Step::MeasuresOff { post });
    }
}

// Trains.

/// The second train stays in the last block section where the order does not mind.
fn trains_one_behind_another(bench: &mut Bench, (first, second): (u16, u16)) {
    let sending = bench.way().sending_end();
    let receiving = bench.way().receiving_end();
    start_after_release(bench, first);
    bench.refuse(start(sending, first), 17);
    bench.refuse(start(sending, second), 13);
    bench.refuse(Step::Order { post: sending }, 13);
    if bench.n() > 2 {
        second_train_follows(bench, first, second);
    }
    bench.accept(leave(receiving, first));
    if bench.n() > 2 {
        run_to_the_last_block_section(bench, second, 1);
        second_train_leaves_by_telephone(bench, second);
    }
}

fn start_after_release(bench: &mut Bench, train: u16) {
    let post = bench.way().sending_end();
    let last = bench.last_ahead(post);
    bench.accept(Step::FaultOn { post, fault: 1 });
    bench.refuse(start(post, train), 18);
    bench.refuse(release(post, last + 1), 17);
    bench.accept(release(post, last));
    bench.accept(release(post, last));
    bench.accept(start(post, train));
    bench.refuse(release(post, train), 13);
    bench.accept(Step::FaultOff { post, fault: 1 });
}

/// The first train ends in the last block section, the second in the first one.
fn second_train_follows(bench: &mut Bench, first: u16, second: u16) {
    let sending = bench.way().sending_end();
    let next = bench.post_at(1);
    bench.refuse(pass(next, second), 17);
    bench.accept(pass(next, first));
    bench.accept(start(sending, second));
    bench.refuse(pass(next, second), 13);
    run_to_the_last_block_section(bench, first, 2);
}

fn run_to_the_last_block_section(bench: &mut Bench, train: u16, from_rank: u8) {
    for rank in from_rank..bench.n() - 1 {
        let post = bench.post_at(rank);
        bench.accept(pass(post, train));
    }
}

fn second_train_leaves_by_telephone(bench: &mut Bench, train: u16) {
    let sending = bench.way().sending_end();
    if bench.section.settings.form != MATERIALISED {
        bench.refuse(Step::Order { post: sending }, 13);
        let post = bench.way().receiving_end();
        bench.accept(leave(post, train));
    }
}

// The reversal.

fn reversal(bench: &mut Bench, (first, second): (u16, u16)) {
    let last_rank = bench.n() - 1;
    order(bench, first);
    for rank in 0..last_rank {
        let post = bench.post_at(rank);
        if rank == 0 {
            first_post_turns_by_key(bench, post);
        } else {
            post_between_sets(bench, post, second);
        }
        hand_on(bench, post, bench.post_at(rank + 1));
    }
    last_post_sets(bench, bench.post_at(last_rank));
}

fn order(bench: &mut Bench, train: u16) {
    let post = bench.way().sending_end();
    bench.accept(Step::Order { post });
    bench.refuse(Step::Order { post }, 11);
    bench.refuse(start(post, train), 11);
    order_on_the_other_track_refused(bench);
    bench.refuse(Step::Announce { post }, 15);
    bench.refuse(Step::Acknowledge { post }, 15);
    out_of_turn(bench, bench.post_at(1));
    release_refused(bench, bench.post_at(1), 15);
}

fn order_on_the_other_track_refused(bench: &mut Bench) {
    let track = bench.track;
    bench.track = A + B - track;
    let post = bench.way().sending_end();
    bench.refuse(Step::Order { post }, 14);
    bench.track = track;
}

fn first_post_turns_by_key(bench: &mut Bench, post: u8) {
    bench.refuse(Step::Key { post }, 21);
    bench.accept(Step::FaultOn { post, fault: 2 });
    bench.accept(Step::FaultOn { post, fault: 1 });
    bench.refuse(Step::Set { post }, 18);
    bench.refuse(Step::Key { post }, 18);
    let train = bench.last_ahead(post);
    bench.accept(release(post, train));
    if bench.to_cvt() {
        bench.refuse(Step::Set { post }, 16);
        bench.refuse(Step::Key { post }, 16);
        bench.accept(Step::MeasuresOn { post });
    }
    bench.refuse(Step::Set { post }, 19);
    bench.accept(Step::Key { post });
    measures_after_turning(bench, post);
    bench.accept(Step::FaultOff { post, fault: 2 });
    bench.accept(Step::FaultOff { post, fault: 1 });
}

fn measures_after_turning(bench: &mut Bench, post: u8) {
    if bench.to_cvt() {
        bench.refuse(Step::MeasuresOff { post }, 16);
    } else {
        bench.accept(Step::MeasuresOff { post });
        bench.refuse(Step::MeasuresOff { post }, 21);
        bench.accept(Step::MeasuresOn { post });
    }
}

fn post_between_sets(bench: &mut Bench, post: u8, train: u16) {
    if bench.train_ahead(post) {
        bench.refuse(Step::Set { post }, 13);
        bench.accept(Step::FaultOn { post, fault: 2 });
        bench.refuse(Step::Key { post }, 13);
        bench.accept(Step::FaultOff { post, fault: 2 });
        let receiving = bench.way().receiving_end();
        bench.accept(leave(receiving, train));
    }
    measures_then_set(bench, post);
}

fn measures_then_set(bench: &mut Bench, post: u8) {
    if bench.to_cvt() {
        bench.refuse(Step::Set { post }, 16);
        bench.accept(Step::MeasuresOn { post });
    }
    bench.accept(Step::Set { post });
}

fn hand_on(bench: &mut Bench, post: u8, next: u8) {
    bench.refuse(Step::Set { post }, 15);
    bench.refuse(Step::Announce { post: next }, 15);
    bench.accept(Step::Announce { post });
    bench.refuse(Step::Set { post: next }, 15);
    bench.refuse(Step::Acknowledge { post }, 15);
    bench.accept(Step::Acknowledge { post: next });
}

/// Fault 1 stops nothing at the last post.
fn last_post_sets(bench: &mut Bench, post: u8) {
    bench.accept(Step::FaultOn { post, fault: 1 });
    release_refused(bench, post, 12);
    measures_then_set(bench, post);
    bench.accept(Step::FaultOff { post, fault: 1 });
}
