//! Compares the answers to two posts' books side by side.

use comparison::books::BookComparison;
use comparison::report::{run, Outcome, Run};
use std::process::ExitCode;

fn main() -> ExitCode {
    run(compare_books)
}

fn compare_books(run: &Run) -> Outcome {
    let books: BookComparison = run.compare(8)?;
    books.seen.print();
    books.seen.have_all()?;
    println!("books: {} pairs compared", books.seen.total());
    Ok(())
}
