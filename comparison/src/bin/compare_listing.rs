//! Compares the bench listings and the panel listings of day files.

use comparison::files::refusals::CASES;
use comparison::listings::ListingComparison;
use comparison::report::{run, Outcome, Run};
use std::process::ExitCode;

fn main() -> ExitCode {
    run(compare_listing)
}

fn compare_listing(run: &Run) -> Outcome {
    let listings: ListingComparison = run.compare(4)?;
    listings.seen.print("listings, files by refusal");
    listings.seen.are_just(&[0, 1, 2, 3, 4], "listings")?;
    listings.seen.have(&CASES, "listings")?;
    println!(
        "listings: {} files compared, as listing and as panel",
        listings.seen.total()
    );
    Ok(())
}
