//! Times the two bench programs as whole processes on a day of 4,096 steps.
//! Both are built first: `rt run </dev/null` in `crates/bench`, and `cargo build --release` in `reference/`.

use comparison::report::{run, same_bytes, Outcome, Run};
use comparison::timing::alternate;
use std::fs::File;
use std::path::{Path, PathBuf};
use std::process::{Command, ExitCode, Stdio};

const CALLS: u32 = 5;
const DAY: &str = "crates/days/data/steps_4096_16.day";

fn main() -> ExitCode {
    run(benchmark_bench)
}

fn benchmark_bench(run: &Run) -> Outcome {
    let top = Path::new(env!("CARGO_MANIFEST_DIR")).join("..");
    let proved = top.join("crates/bench/out/bench");
    let second = top.join("reference/target/release/bench");
    let day = top.join(DAY);
    same_bytes(
        "the listing",
        &printed(&proved, &day),
        &printed(&second, &day),
        &|| DAY.to_string(),
    )?;
    let times = alternate(
        run.times,
        CALLS,
        || start(&proved, &day),
        || start(&second, &day),
    );
    times.print("bench, 4096 steps, 16 posts", 1, "process");
    Ok(())
}

fn command(program: &PathBuf, day: &PathBuf) -> Command {
    let mut command = Command::new(program);
    command.stdin(File::open(day).expect("the stored day is there"));
    command
}

fn printed(program: &PathBuf, day: &PathBuf) -> Vec<u8> {
    command(program, day)
        .output()
        .expect("both programs are built")
        .stdout
}

fn start(program: &PathBuf, day: &PathBuf) {
    command(program, day)
        .stdout(Stdio::null())
        .status()
        .expect("both programs are built");
}
