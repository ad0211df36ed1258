//! Times of the proved and the second implementation in one run, taken in turn.

use std::time::Instant;

const ROUNDS: u64 = 101;

/// Median nanoseconds of one call.
pub struct Times {
    pub proved: f64,
    pub second: f64,
}

impl Times {
    pub fn print(&self, what: &str, parts: usize, part: &str) {
        println!(
            "{what}: proved {:.1} ns, second {:.1} ns a {part}, ratio {:.2}",
            self.proved / parts as f64,
            self.second / parts as f64,
            self.proved / self.second
        );
    }
}

/// Each round times `calls` calls of the one, then of the other.
pub fn alternate(times: u64, calls: u32, proved: impl FnMut(), second: impl FnMut()) -> Times {
    in_rounds(ROUNDS * times, calls, proved, second)
}

/// The same, for calls of which fewer rounds are enough.
pub fn in_rounds(
    rounds: u64,
    calls: u32,
    mut proved: impl FnMut(),
    mut second: impl FnMut(),
) -> Times {
    let mut of_proved = Vec::new();
    let mut of_second = Vec::new();
    for _ in 0..rounds {
        of_proved.push(nanoseconds(calls, &mut proved));
        of_second.push(nanoseconds(calls, &mut second));
    }
    Times {
        proved: median(of_proved),
        second: median(of_second),
    }
}

fn nanoseconds(calls: u32, call: &mut impl FnMut()) -> f64 {
    let start = Instant::now();
    for _ in 0..calls {
        call();
    }
    start.elapsed().as_nanos() as f64 / f64::from(calls)
}

fn median(mut rounds: Vec<f64>) -> f64 {
    rounds.sort_by(f64::total_cmp);
    rounds[rounds.len() / 2]
}
