//! Days with trains of up to five figures: the numbers beside the bounds, in every kind of step
//! that has one.

use super::bench::Bench;
use super::{settings, with_crossings};
use crate::step::{form, leave, pass, release, start, Step, GREATEST_TRAIN};

/// The last of four figures, the first of five and the greatest.
pub const NUMBERS: [u16; 3] = [9_999, 10_000, 59_999];

/// Four posts, all signalled, with fault 4 everywhere: every entry needs a form, in both
/// directions. Beside each number others are tried that are one away from it or differ in one
/// bit.
pub fn five_figures(form: u8, track: u8) -> Vec<u8> {
    let settings = with_crossings(settings(4, form, 0xf));
    let mut bench = Bench::new(settings, track);
    bench.measures_on_everywhere();
    for post in 0..bench.n() {
        bench.accept(Step::FaultOn { post, fault: 4 });
    }
    for _ in 0..2 {
        for train in NUMBERS {
            one_train(&mut bench, train);
        }
        three_trains(&mut bench);
        bench.reverse();
    }
    bench.day()
}

/// From end to end, then confirmed by a release.
fn one_train(bench: &mut Bench, train: u16) {
    let receiving = bench.way().receiving_end();
    for rank in 0..bench.n() - 1 {
        let post = bench.post_at(rank);
        let entry = |train| match rank {
            0 => start(post, train),
            _ => pass(post, train),
        };
        if rank > 0 {
            refuse_others(bench, train, entry, 17);
        }
        for other in others(train) {
            bench.accept(form(post, other));
            bench.refuse(entry(train), 22);
        }
        bench.accept(form(post, train));
        bench.accept(entry(train));
    }
    let sending = bench.way().sending_end();
    bench.refuse(start(sending, train), 17);
    refuse_others(bench, train, |other| leave(receiving, other), 17);
    bench.accept(leave(receiving, train));
    released(bench, train);
}

/// Fault 1 at the sending end, and the release that names the last train.
fn released(bench: &mut Bench, train: u16) {
    let post = bench.way().sending_end();
    bench.accept(Step::FaultOn { post, fault: 1 });
    refuse_others(bench, train, |other| release(post, other), 17);
    bench.refuse(release(post, 0), 17);
    bench.accept(release(post, train));
    bench.accept(Step::FaultOff { post, fault: 1 });
}

/// One behind another: each number is looked for among all three.
fn three_trains(bench: &mut Bench) {
    let last_rank = bench.n() - 1;
    let sending = bench.way().sending_end();
    for (rank, train) in (1..=last_rank).rev().zip(NUMBERS) {
        enter_with_form(bench, 0, train);
        for rank in 1..rank {
            enter_with_form(bench, rank, train);
        }
    }
    for train in NUMBERS {
        bench.refuse(start(sending, train), 17);
        for other in others(train).filter(|other| !NUMBERS.contains(other)) {
            bench.refuse(start(sending, other), 13);
        }
    }
    for (rank, train) in (1..=last_rank).rev().zip(NUMBERS) {
        for rank in rank..last_rank {
            enter_with_form(bench, rank, train);
        }
        bench.accept(leave(bench.way().receiving_end(), train));
    }
}

fn enter_with_form(bench: &mut Bench, rank: u8, train: u16) {
    let post = bench.post_at(rank);
    bench.accept(form(post, train));
    bench.accept(match rank {
        0 => start(post, train),
        _ => pass(post, train),
    });
}

fn refuse_others(bench: &mut Bench, train: u16, step: impl Fn(u16) -> Step, refusal: u8) {
    for other in others(train) {
        bench.refuse(step(other), refusal);
    }
}

/// Numbers that are one away, or differ in one of the upper bits.
fn others(train: u16) -> impl Iterator<Item = u16> {
    let beside = [train - 1, train + 1];
    let in_one_bit = (11..16).map(move |bit| train ^ 1 << bit);
    beside
        .into_iter()
        .chain(in_one_bit)
        .filter(|other| (1..=GREATEST_TRAIN).contains(other))
}

/// A form, a start, a pass, a leave and a release of the greatest number on track A, three posts;
/// the fault for the release stands before it.
pub fn each_kind() -> Vec<u8> {
    let mut bench = Bench::new(with_crossings(settings(3, 0, 7)), super::A);
    for step in [
        form(0, GREATEST_TRAIN),
        start(0, GREATEST_TRAIN),
        pass(1, GREATEST_TRAIN),
        leave(2, GREATEST_TRAIN),
        Step::FaultOn { post: 0, fault: 1 },
        release(0, GREATEST_TRAIN),
    ] {
        bench.accept(step);
    }
    bench.day()
}
