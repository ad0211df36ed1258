//! Compares the engines, on single sections, along days and over runs of steps in one call.

use comparison::engine::days::DayComparison;
use comparison::engine::lamps::same_table;
use comparison::engine::parts::{OF_DAYS, OF_SECTIONS};
use comparison::engine::preview_cases::{CASES, CASES_OF_DAYS};
use comparison::engine::runs::RunComparison;
use comparison::engine::sections::SectionComparison;
use comparison::report::{run, Outcome, Run};
use std::process::ExitCode;

fn main() -> ExitCode {
    run(compare_engine)
}

fn compare_engine(run: &Run) -> Outcome {
    same_table()?;
    let sections: SectionComparison = run.compare(2)?;
    let days: DayComparison = run.compare(3)?;
    let runs: RunComparison = run.compare(7)?;
    sections.tally.print("sections");
    days.tally.print("days");
    sections.previews.cases.print("sections");
    days.previews.cases.print("days");
    runs.tally.print_steps("runs");
    runs.cases.print();
    sections.tally.fits_table("sections", &[4, 6])?;
    // A day from fresh is never answered 6.
    days.tally.fits_table("days", &[4])?;
    // A run with a malformed step is refused as a whole.
    runs.tally.fits_table("runs", &[])?;
    sections.tally.fits_parts("sections", &OF_SECTIONS)?;
    days.tally.fits_parts("days", &OF_DAYS)?;
    sections.previews.cases.have(&CASES, "sections")?;
    days.previews.cases.have(&CASES_OF_DAYS, "days")?;
    runs.cases.have_all()?;
    sections.tally.entries.fit_states("sections")?;
    println!(
        "sections: {} steps and {} previews compared",
        sections.tally.total(),
        sections.previews.cases.total()
    );
    println!(
        "days: {} steps and {} previews compared, {} fresh sections, {} days noted",
        days.tally.total(),
        days.previews.cases.total(),
        days.fresh_sections,
        days.days_noted
    );
    println!(
        "lamp table: 256 entries compared, {} looked up for sections, {} along days",
        sections.tally.entries.total(),
        days.tally.entries.total()
    );
    println!(
        "runs: {} runs compared, {} steps of those that were done",
        runs.cases.total(),
        runs.tally.total()
    );
    Ok(())
}
