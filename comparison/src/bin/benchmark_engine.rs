//! Times a judged step along a day of 4,096 steps, and in a run of as many.

use comparison::engine::notes::{room_for, second_notes, NOTE_LENGTH};
use comparison::engine::run_inputs::exact_room;
use comparison::image::image_of;
use comparison::proved::engine::{
    day, indications as proved_indications, preview as proved_preview, run as proved_run, Way,
};
use comparison::report::{run, same_bytes, Failure, Outcome, Run};
use comparison::timing::{alternate, Times};
use reference::dayfile::MOST_STEPS;
use reference::engine::{judge_in_place, judge_in_range};
use reference::generate::{furthering_step, sensible_step, Rng};
use reference::indications::indications;
use reference::preview::preview;
use reference::run::run as second_run;
use reference::section::Section;
use reference::settings::{Settings, NO_CROSSINGS};
use reference::step::STEP_LENGTH;
use std::hint::black_box;
use std::process::ExitCode;

const CALLS: u32 = 4;
const CALLS_FOR_LAMPS: u32 = 200;
const STEPS_TRIED: usize = 256;
const LAMPS_LENGTH: usize = 96;

fn main() -> ExitCode {
    run(benchmark_engine)
}

fn benchmark_engine(run: &Run) -> Outcome {
    for (n, mask) in [(3, 0b111), (16, 0x9249)] {
        for form in [0, 1] {
            let settings = Settings {
                n,
                form,
                mask,
                line: 42,
                crossings: NO_CROSSINGS,
            };
            time_day(run, &settings)?;
        }
    }
    Ok(())
}

fn time_day(run: &Run, settings: &Settings) -> Outcome {
    let steps = busy_day(&mut run.rng(6), settings);
    let mut notes = vec![0; room_for(&steps)];
    let mut expected = notes.clone();
    let bytes = settings.encode();
    second_notes(&bytes, &steps, &mut expected, judge_in_place);
    let input = || format!("{settings:?}, a busy day");
    for way in [Way::Singly, Way::InPlace] {
        day(way, &bytes, &steps, &mut notes);
        same_bytes("the notes of a day", &notes, &expected, &input)?;
    }
    println!("{}", kinds_accepted(settings, &steps));
    let form = ["telephone", "materialised"][usize::from(settings.form)];
    let accepted = notes.chunks_exact(NOTE_LENGTH).filter(|note| note[0] == 0);
    let what = format!(
        "n = {}, {form}, {MOST_STEPS} steps, {} accepted",
        settings.n,
        accepted.count()
    );
    println!("{what}:");
    let singly = time_ways(run, settings, &steps, Way::Singly, judge_in_place);
    singly.print(
        "  offered singly, both test the ranges each time",
        MOST_STEPS,
        "step",
    );
    let untested = time_ways(run, settings, &steps, Way::InPlace, judge_in_range);
    untested.print("  the day in place, neither tests them", MOST_STEPS, "step");
    let in_place = time_ways(run, settings, &steps, Way::InPlace, judge_in_place);
    in_place.print(
        "  the day in place, the second tests them each time",
        MOST_STEPS,
        "step",
    );
    let runs = time_run(run, settings, &steps)?;
    runs.print("  a run, both test the ranges once", MOST_STEPS, "step");
    let posts = 2 * usize::from(settings.n);
    let shown = time_indications(run, settings, &steps);
    shown.print(
        "  what each post shows, both test the ranges each time",
        posts,
        "post",
    );
    let tried = time_previews(run, settings, &steps);
    tried.print(
        "  a step tried first, with what all posts show",
        STEPS_TRIED,
        "step",
    );
    Ok(())
}

/// The proved engine one way, the second implementation by one of its functions.
fn time_ways(
    run: &Run,
    settings: &Settings,
    steps: &[u8],
    way: Way,
    judge: impl Fn(&mut Section, &[u8]) -> (u8, u8) + Copy,
) -> Times {
    let settings = &settings.encode();
    let mut notes = vec![0; room_for(steps)];
    let mut of_second = notes.clone();
    alternate(
        run.times,
        CALLS,
        || {
            day(way, settings, black_box(steps), black_box(&mut notes));
        },
        || {
            second_notes(settings, black_box(steps), black_box(&mut of_second), judge);
        },
    )
}

/// The day's steps in one call from fresh. Each call has a section of its own: the proved engine an
/// image, which it reads and writes, and the second implementation the section itself.
fn time_run(run: &Run, settings: &Settings, steps: &[u8]) -> Result<Times, Failure> {
    let fresh = Section::fresh(*settings);
    let fresh_image = image_of(&fresh);
    let mut answers = vec![0; exact_room(steps)];
    let mut of_second = answers.clone();
    let mut image = fresh_image;
    let mut section = fresh;
    let times = alternate(
        run.times,
        CALLS,
        || {
            image = fresh_image;
            proved_run(&mut image, black_box(steps), black_box(&mut answers));
        },
        || {
            section = fresh;
            second_run(&mut section, black_box(steps), black_box(&mut of_second));
        },
    );
    let input = || format!("{settings:?}, a busy day");
    same_bytes("the answers of a run", &answers, &of_second, &input)?;
    same_bytes("the image after a run", &image, &image_of(&section), &input)?;
    Ok(times)
}

/// Every post of both tracks, in the section that the day leaves. The proved side reads the image for each.
fn time_indications(run: &Run, settings: &Settings, steps: &[u8]) -> Times {
    let mut section = Section::fresh(*settings);
    for step in steps.chunks_exact(STEP_LENGTH) {
        judge_in_place(&mut section, step);
    }
    let image = image_of(&section);
    let places = (0..2).flat_map(|track| (0..settings.n).map(move |post| (track, post)));
    let places: Vec<(u8, u8)> = places.collect();
    alternate(
        run.times,
        CALLS_FOR_LAMPS,
        || {
            for &(track, post) in &places {
                black_box(proved_indications(black_box(&image), track, post));
            }
        },
        || {
            for &(track, post) in &places {
                black_box(indications(black_box(&section), track, post));
            }
        },
    )
}

/// The day's first steps, each tried on the section that the whole day leaves. The proved side reads the image for each.
fn time_previews(run: &Run, settings: &Settings, steps: &[u8]) -> Times {
    let mut section = Section::fresh(*settings);
    for step in steps.chunks_exact(STEP_LENGTH) {
        judge_in_place(&mut section, step);
    }
    let mut image = image_of(&section);
    let mut lamps = [0; LAMPS_LENGTH];
    let tried = &steps[..STEPS_TRIED * STEP_LENGTH];
    alternate(
        run.times,
        CALLS,
        || {
            for step in tried.chunks_exact(STEP_LENGTH) {
                black_box(proved_preview(black_box(&mut image), step, &mut lamps));
            }
        },
        || {
            for step in tried.chunks_exact(STEP_LENGTH) {
                black_box(preview(black_box(&section), step));
            }
        },
    )
}

/// Trains both ways, reversals and faults; few steps are refused.
fn busy_day(rng: &mut Rng, settings: &Settings) -> Vec<u8> {
    let mut section = Section::fresh(*settings);
    let mut steps = Vec::new();
    while steps.len() < MOST_STEPS * STEP_LENGTH {
        let step = match rng.chance(1, 2) {
            true => {
                let track = rng.flag();
                furthering_step(rng, &section, track)
            }
            false => sensible_step(rng, &section),
        };
        let (refusal, _) = judge_in_place(&mut section, &step);
        if refusal == 0 || rng.chance(1, 12) {
            steps.extend(step);
        }
    }
    steps
}

fn kinds_accepted(settings: &Settings, steps: &[u8]) -> String {
    let mut section = Section::fresh(*settings);
    let mut accepted = [0; 15];
    for step in steps.chunks_exact(STEP_LENGTH) {
        if judge_in_place(&mut section, step).0 == 0 {
            accepted[usize::from(step[0])] += 1;
        }
    }
    format!("accepted by kind, 1 to 14: {:?}", &accepted[1..])
}
