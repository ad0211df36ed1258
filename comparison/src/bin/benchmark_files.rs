//! Times reading and writing the longest day file without crossings.

use comparison::files::sound_step;
use comparison::proved;
use comparison::report::{run, same, same_bytes, Outcome, Run};
use comparison::timing::{alternate, Times};
use reference::dayfile::{self, Mark, MOST_STEPS};
use reference::generate::Rng;
use reference::settings::{Settings, NO_CROSSINGS};
use reference::step::STEP_LENGTH;
use std::hint::black_box;
use std::process::ExitCode;

const CALLS: u32 = 20;
const SETTINGS: Settings = Settings {
    n: 16,
    form: 1,
    mask: 0x9249,
    line: 42,
    crossings: NO_CROSSINGS,
};
/// Of a file without crossings.
const GREATEST_LENGTH: usize = MOST_STEPS * STEP_LENGTH + Mark::Bsr1.tail_length();

fn main() -> ExitCode {
    run(benchmark_files)
}

fn benchmark_files(run: &Run) -> Outcome {
    let steps = longest_steps(&mut run.rng(5));
    let file = dayfile::file_of(&SETTINGS, &steps).expect("the steps are well-formed");
    same_file(&steps, &file)?;
    println!("the longest file, {MOST_STEPS} steps, medians:");
    time_reading(run, &file).print("read", 1, "file");
    time_writing(run, &steps).print("write", 1, "file");
    Ok(())
}

fn longest_steps(rng: &mut Rng) -> Vec<u8> {
    (0..MOST_STEPS)
        .flat_map(|_| sound_step(rng, SETTINGS.n))
        .collect()
}

/// Both write that file, and both read it.
fn same_file(steps: &[u8], file: &[u8]) -> Outcome {
    let mut proved_file = vec![0; GREATEST_LENGTH];
    proved::files::write(&SETTINGS.encode(), steps, &mut proved_file);
    let input = || format!("{SETTINGS:?}, {MOST_STEPS} steps");
    same_bytes("the longest file", &proved_file, file, &input)?;
    let count = dayfile::read(file).map_or(0, |day| day.count as u32);
    let proved = proved::files::read(file);
    same("refusal and count read", proved, (0, count), &input)
}

fn time_reading(run: &Run, file: &[u8]) -> Times {
    alternate(
        run.times,
        CALLS,
        || {
            black_box(proved::files::read(black_box(file)));
        },
        || {
            black_box(dayfile::read(black_box(file))).ok();
        },
    )
}

fn time_writing(run: &Run, steps: &[u8]) -> Times {
    let settings = black_box(SETTINGS);
    let bytes = settings.encode();
    let mut proved_file = vec![0; GREATEST_LENGTH];
    let mut second_file = vec![0; GREATEST_LENGTH];
    alternate(
        run.times,
        CALLS,
        || {
            proved::files::write(&bytes, black_box(steps), &mut proved_file);
            black_box(&proved_file);
        },
        || {
            dayfile::write(&settings, black_box(steps), &mut second_file).ok();
            black_box(&second_file);
        },
    )
}
