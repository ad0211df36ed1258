//! Days with trains one behind another in the counter direction: 13 as long as the train in
//! front is in the stretch to be entered.

use super::bench::Bench;
use super::settings;
use crate::step::{leave, pass, start, Step};

const IN_FRONT: u16 = 2417;
const BEHIND: u16 = 2433;

/// To CVT, two trains as near to each other as the signalled posts allow, and back.
pub fn day(form: u8, mask: u16, track: u8) -> Vec<u8> {
    let mut bench = Bench::new(settings(16, form, mask), track);
    bench.measures_on_everywhere();
    bench.reverse();
    two_trains(&mut bench);
    bench.reverse();
    bench.measures_off_everywhere();
    bench.day()
}

/// Block sections by rank; the train behind tries to move each time the one in front has moved.
fn two_trains(bench: &mut Bench) {
    let last_rank = bench.n() - 1;
    let mut behind = 0;
    for in_front in 0..last_rank {
        bench.accept(step_onto(bench, in_front, IN_FRONT));
        let refused = stretch_taken(bench, behind, in_front);
        let step = step_onto(bench, behind, BEHIND);
        if refused {
            bench.refuse(step, 13);
        } else {
            bench.accept(step);
            behind += 1;
        }
    }
    let post = bench.way().receiving_end();
    bench.accept(leave(post, IN_FRONT));
    for rank in behind..last_rank {
        bench.accept(step_onto(bench, rank, BEHIND));
    }
    bench.accept(leave(post, BEHIND));
}

/// The step by which a train enters the block section of this rank.
fn step_onto(bench: &Bench, rank: u8, train: u16) -> Step {
    let post = bench.post_at(rank);
    match rank {
        0 => start(post, train),
        _ => pass(post, train),
    }
}

/// Entering the block section `rank` begins a stretch, and the other train is in it.
fn stretch_taken(bench: &Bench, rank: u8, other: u8) -> bool {
    let signalled = |rank: u8| bench.section.settings.signalled(bench.post_at(rank));
    signalled(rank) && !(rank + 1..=other).any(signalled)
}
