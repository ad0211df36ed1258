//! Days of materialised lines with no, some and all intermediate posts signalled: which post
//! watches which part. And days of a telephone line, which keeps the earlier rule.

use super::bench::Bench;
use super::settings;
use crate::indications::{NO_LAMP, RED, WHITE};
use crate::section::{FAULT_1, FAULT_2};
use crate::settings::{MATERIALISED, TELEPHONE};
use crate::step::{leave, pass, release, start, Step};
use std::ops::Range;

const FIRST: u16 = 2417;
const SECOND: u16 = 2433;

/// The posts and the mask of each line whose trains are followed. Neither half of the second
/// mirrors the other: its parts are 0-3, 3-5 and 5-7.
pub const LINES_WITH_TRAINS: [(&str, u8, u16); 3] = [
    ("ends_only", 5, 0b10001),
    ("some_posts", 8, 0b10101001),
    ("every_post", 6, 0b111111),
];

/// The same for fault 1. With every post signalled a part is a block section, which
/// `every_refusal` has.
pub const LINES_WITH_FAULTS: [(&str, u8, u16); 2] =
    [("ends_only", 5, 0b10001), ("some_posts", 6, 0b100101)];

const LINE_BY_TELEPHONE: (u8, u16) = (6, 0b100101);

/// Fault 2 stands there all day, so that these turn by key and the others by set.
const POSTS_WITH_KEY: [u8; 3] = [2, 3, 6];

// Posts and block sections by rank, from the sending end on.

fn last_rank(bench: &Bench) -> u8 {
    bench.n() - 1
}

fn signalled(bench: &Bench, rank: u8) -> bool {
    bench.section.settings.mask >> bench.post_at(rank) & 1 == 1
}

/// The block sections that check 13 of set, key and release and TRONÇON cover; none for a post
/// that commands no part.
fn part(bench: &Bench, rank: u8) -> Range<u8> {
    let telephone = bench.section.settings.form == TELEPHONE;
    let bounds = |rank| telephone || signalled(bench, rank);
    let next = (rank + 1..=last_rank(bench)).find(|&next| bounds(next));
    match next {
        Some(next) if bounds(rank) => rank..next,
        _ => rank..rank,
    }
}

fn has_fault(bench: &Bench, rank: u8, bit: u8) -> bool {
    bench.kept().posts[usize::from(bench.post_at(rank))].faults & bit != 0
}

fn train_in(bench: &Bench, rank: u8) -> bool {
    bench.train_ahead(bench.post_at(rank))
}

/// Every post's TRONÇON by its part, fault 1 and the trains.
fn demand_troncon(bench: &Bench) {
    let lamps = bench.lamps();
    for rank in 0..=last_rank(bench) {
        let part = part(bench, rank);
        let demanded = match has_fault(bench, rank, FAULT_1) {
            _ if part.is_empty() => NO_LAMP,
            false if !part.clone().any(|rank| train_in(bench, rank)) => WHITE,
            _ => RED,
        };
        let shown = lamps[usize::from(bench.post_at(rank))].1;
        assert_eq!(shown, demanded, "TRONÇON of rank {rank}");
    }
}

fn accept(bench: &mut Bench, step: Step) {
    bench.accept(step);
    demand_troncon(bench);
}

// Trains and reversals.

/// The train comes past the post of this rank, or starts or leaves there.
fn move_train(bench: &mut Bench, rank: u8, train: u16) {
    let post = bench.post_at(rank);
    let step = match rank {
        0 => start(post, train),
        _ if rank == last_rank(bench) => leave(post, train),
        _ => pass(post, train),
    };
    accept(bench, step);
}

fn faults_2_on(bench: &mut Bench) {
    for post in POSTS_WITH_KEY {
        if post < bench.n() - 1 {
            accept(bench, Step::FaultOn { post, fault: 2 });
        }
    }
}

/// Key where fault 2 stands, else set.
fn turn(bench: &mut Bench, rank: u8) {
    let post = bench.post_at(rank);
    let step = match has_fault(bench, rank, FAULT_2) {
        true => Step::Key { post },
        false => Step::Set { post },
    };
    accept(bench, step);
}

/// Set, and key where fault 2 stands.
fn refuse_turn(bench: &mut Bench, rank: u8, refusal: u8) {
    let post = bench.post_at(rank);
    bench.refuse(Step::Set { post }, refusal);
    if has_fault(bench, rank, FAULT_2) {
        bench.refuse(Step::Key { post }, refusal);
    }
}

fn hand_on(bench: &mut Bench, rank: u8) {
    let [post, next] = [rank, rank + 1].map(|rank| bench.post_at(rank));
    accept(bench, Step::Announce { post });
    accept(bench, Step::Acknowledge { post: next });
}

// Order, set and key behind a train.

/// In both directions: two trains one behind the other; then a reversal ordered as soon as the
/// second has left the first part, in which every signalled post waits until it has left its own
/// and the posts without signals set or turn by key with the train still ahead of them.
pub fn behind_trains(n: u8, mask: u16, track: u8) -> Vec<u8> {
    let mut bench = Bench::new(settings(n, MATERIALISED, mask), track);
    bench.measures_on_everywhere();
    faults_2_on(&mut bench);
    for _ in 0..2 {
        trains_one_behind_the_other(&mut bench);
        let train_at = order_behind_train(&mut bench);
        reversal_behind_train(&mut bench, train_at);
    }
    bench.day()
}

/// The second ends in the first block section. Start and pass keep their check of the stretch,
/// which for VNS is shorter than the part.
fn trains_one_behind_the_other(bench: &mut Bench) {
    let [sending, next] = [0, 1].map(|rank| bench.post_at(rank));
    move_train(bench, 0, FIRST);
    bench.refuse(start(sending, SECOND), 13);
    move_train(bench, 1, FIRST);
    let follows = bench.to_cvt() || signalled(bench, 1);
    if follows {
        move_train(bench, 0, SECOND);
        bench.refuse(pass(next, SECOND), 13);
    } else {
        bench.refuse(start(sending, SECOND), 13);
    }
    for rank in 2..=last_rank(bench) {
        move_train(bench, rank, FIRST);
    }
    if !follows {
        move_train(bench, 0, SECOND);
    }
}

/// Where the train is when the order is accepted.
fn order_behind_train(bench: &mut Bench) -> u8 {
    let post = bench.post_at(0);
    let part = part(bench, 0);
    for rank in part.clone() {
        bench.refuse(Step::Order { post }, 13);
        move_train(bench, rank + 1, SECOND);
    }
    accept(bench, Step::Order { post });
    part.end
}

fn reversal_behind_train(bench: &mut Bench, mut train_at: u8) {
    for rank in 0..last_rank(bench) {
        while part(bench, rank).contains(&train_at) {
            refuse_turn(bench, rank, 13);
            train_at += 1;
            move_train(bench, train_at, SECOND);
        }
        if rank == 1 && part(bench, rank).is_empty() {
            // 12 comes before 21: no fault 1 stands.
            bench.refuse(release(bench.post_at(rank), SECOND), 12);
        }
        turn(bench, rank);
        hand_on(bench, rank);
    }
    turn(bench, last_rank(bench));
}

// Fault 1 and release.

/// In both directions, with fault 1 at every post: start, set and key wait for a release at the
/// posts that command a part, and the release waits until the part is free; the other posts
/// disregard the fault and have nothing to release.
pub fn fault_1(n: u8, mask: u16, track: u8) -> Vec<u8> {
    let mut bench = Bench::new(settings(n, MATERIALISED, mask), track);
    bench.measures_on_everywhere();
    faults_2_on(&mut bench);
    for post in 0..n {
        accept(&mut bench, Step::FaultOn { post, fault: 1 });
    }
    for _ in 0..2 {
        start_after_release(&mut bench);
        let train_at = order_after_refused_releases(&mut bench);
        reversal_under_fault_1(&mut bench, train_at);
    }
    bench.day()
}

/// 15 out of turn also where it would be 12.
fn start_after_release(bench: &mut Bench) {
    let [sending, next] = [0, 1].map(|rank| bench.post_at(rank));
    bench.refuse(start(sending, FIRST), 18);
    bench.refuse(release(next, 0), 15);
    let last = bench.last_ahead(sending);
    accept(bench, release(sending, last));
    move_train(bench, 0, FIRST);
}

/// Fault 1 does not stop the order. Where the train is by then.
fn order_after_refused_releases(bench: &mut Bench) -> u8 {
    let post = bench.post_at(0);
    let train_at = train_leaves_part(bench, 0, 0);
    accept(bench, Step::Order { post });
    train_at
}

/// A release is refused as long as the train is in the part. Where the train is then.
fn train_leaves_part(bench: &mut Bench, rank: u8, mut train_at: u8) -> u8 {
    while part(bench, rank).contains(&train_at) {
        bench.refuse(release(bench.post_at(rank), FIRST), 13);
        train_at += 1;
        move_train(bench, train_at, FIRST);
    }
    train_at
}

fn reversal_under_fault_1(bench: &mut Bench, mut train_at: u8) {
    for rank in 0..last_rank(bench) {
        let post = bench.post_at(rank);
        if part(bench, rank).is_empty() {
            bench.refuse(release(post, FIRST), 12);
        } else {
            train_at = train_leaves_part(bench, rank, train_at);
            refuse_turn(bench, rank, 18);
            bench.refuse(release(post, SECOND), 17);
            accept(bench, release(post, FIRST));
        }
        turn(bench, rank);
        hand_on(bench, rank);
    }
    let last = last_rank(bench);
    bench.refuse(release(bench.post_at(last), FIRST), 12);
    turn(bench, last);
}

// The telephone line.

/// In both directions: an order waits for the whole track, every post watches the block section
/// ahead and heeds fault 1, with signals or without.
pub fn telephone(track: u8) -> Vec<u8> {
    let (n, mask) = LINE_BY_TELEPHONE;
    let mut bench = Bench::new(settings(n, TELEPHONE, mask), track);
    bench.measures_on_everywhere();
    for _ in 0..2 {
        order_waits_for_the_track(&mut bench);
        release_at_every_post(&mut bench);
    }
    bench.day()
}

/// A release at the sending end only minds the first block section.
fn order_waits_for_the_track(bench: &mut Bench) {
    let post = bench.post_at(0);
    move_train(bench, 0, FIRST);
    for rank in 1..=last_rank(bench) {
        bench.refuse(Step::Order { post }, 13);
        move_train(bench, rank, FIRST);
        if rank == 1 {
            accept(bench, Step::FaultOn { post, fault: 1 });
            accept(bench, release(post, FIRST));
            accept(bench, Step::FaultOff { post, fault: 1 });
        }
    }
    accept(bench, Step::Order { post });
}

fn release_at_every_post(bench: &mut Bench) {
    for rank in 0..last_rank(bench) {
        let post = bench.post_at(rank);
        accept(bench, Step::FaultOn { post, fault: 1 });
        refuse_turn(bench, rank, 18);
        accept(bench, release(post, FIRST));
        turn(bench, rank);
        accept(bench, Step::FaultOff { post, fault: 1 });
        hand_on(bench, rank);
    }
    let last = last_rank(bench);
    bench.refuse(release(bench.post_at(last), FIRST), 12);
    turn(bench, last);
}
