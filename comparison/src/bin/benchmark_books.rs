//! Times the comparison of two books that match, at three sizes: the time a record says how the
//! cost grows.

use comparison::books::days::{Clocks, Day};
use comparison::proved;
use comparison::report::{run, Outcome, Run};
use comparison::timing::in_rounds;
use reference::books;
use std::hint::black_box;
use std::process::ExitCode;

const ROUNDS: u64 = 11;
/// Records of each book, and calls a round.
const SIZES: [(usize, u32); 3] = [(10_000, 20), (100_000, 2), (1_000_000, 1)];

fn main() -> ExitCode {
    run(benchmark_books)
}

fn benchmark_books(run: &Run) -> Outcome {
    println!("two books that match, medians:");
    for (records, calls) in SIZES {
        let [first, second] = Day::drawn(&mut run.rng(9), Clocks::Near, records).books();
        let times = in_rounds(
            ROUNDS * run.times,
            calls,
            || {
                black_box(proved::books::compare(
                    black_box(&first),
                    black_box(&second),
                ));
            },
            || {
                black_box(books::compare(black_box(&first), black_box(&second)));
            },
        );
        println!("{}", answer(&first, &second));
        times.print(&format!("{records} records each"), records, "record");
    }
    Ok(())
}

fn answer(first: &[u8], second: &[u8]) -> String {
    format!("{:?}", books::compare(first, second))
}
