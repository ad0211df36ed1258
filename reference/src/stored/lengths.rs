//! Days of no steps and of the most that a file holds, and the days drawn at random.

use super::bench::{Bench, A};
use super::settings;
use crate::dayfile::MOST_STEPS;
use crate::generate::{sensible_step, Rng};
use crate::settings::{Settings, TELEPHONE};
use crate::step::Step;

pub fn without_steps(settings: Settings) -> Vec<u8> {
    Bench::new(settings, A).day()
}

/// Steps drawn for the state that they meet.
pub fn drawn(settings: Settings, count: usize, mut rng: Rng) -> Vec<u8> {
    let mut bench = Bench::new(settings, A);
    for _ in 0..count {
        let step = sensible_step(&mut rng, &bench.section);
        bench.offer_bytes(step);
    }
    bench.day()
}

/// Reversals by key alone. A reversal takes at least five steps and breaks at most one seal
/// of a post, so a file of 4,096 steps never comes to 999 seals: no day shows refusal 20.
pub fn seals_819() -> Vec<u8> {
    let mut bench = Bench::new(settings(2, TELEPHONE, 3), A);
    bench.measures_on_everywhere();
    for post in 0..2 {
        bench.accept(Step::FaultOn { post, fault: 2 });
    }
    let reversals = (MOST_STEPS - 4) / 5;
    for _ in 0..reversals {
        bench.reverse_by_key();
    }
    let post = bench.way().sending_end();
    bench.accept(Step::Order { post });
    bench.accept(Step::Key { post });
    assert_eq!(bench.kept().posts[usize::from(post)].seals, 819);
    bench.day()
}
