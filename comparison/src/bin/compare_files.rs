//! Compares the readers and writers of day files.

use comparison::files::reader::ReaderComparison;
use comparison::files::refusals::{Case, CASES};
use comparison::files::writer::WriterComparison;
use comparison::report::{run, Outcome, Run};
use std::process::ExitCode;

fn main() -> ExitCode {
    run(compare_files)
}

fn compare_files(run: &Run) -> Outcome {
    let reader: ReaderComparison = run.compare(0)?;
    let writer: WriterComparison = run.compare(1)?;
    reader.seen.print("reader, answers by refusal");
    writer.seen.print("writer, answers by refusal");
    reader.seen.are_just(&[0, 1, 2, 3, 4], "reader")?;
    reader.seen.have(&CASES, "reader")?;
    writer.seen.are_just(&[0, 3, 4, 5], "writer")?;
    let written = [Case::Bsr1, Case::Bsr2, Case::WrongCrossings];
    writer.seen.have(&written, "writer")?;
    println!("reader: {} files compared", reader.seen.total());
    println!("writer: {} calls compared", writer.seen.total());
    Ok(())
}
