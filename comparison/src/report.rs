//! What a run is told, what it finds, and how it ends.

use reference::generate::Rng;
use std::fmt::Debug;
use std::process::ExitCode;

const SEED: u64 = 1966;

/// A difference, or something that should have come up and didn't.
pub struct Failure(pub String);

pub type Outcome = Result<(), Failure>;

/// The arguments of a program.
pub struct Run {
    pub times: u64,
    pub seed: u64,
}

impl Run {
    /// A generator of its own for each number.
    pub fn rng(&self, number: u64) -> Rng {
        Rng::new(self.seed.wrapping_add(number))
    }

    /// The comparison, made as often as the arguments say.
    pub fn compare<C: Comparison>(&self, number: u64) -> Result<C, Failure> {
        let mut comparison = C::new(self.rng(number));
        for _ in 0..self.times {
            comparison.all()?;
        }
        Ok(comparison)
    }
}

/// Inputs drawn with a generator and given to both implementations.
pub trait Comparison {
    fn new(rng: Rng) -> Self;

    /// Once through every group of inputs.
    fn all(&mut self) -> Outcome;
}

/// Runs a program's work and turns its outcome into the exit status.
pub fn run(work: impl FnOnce(&Run) -> Outcome) -> ExitCode {
    let Some(run) = arguments(std::env::args().skip(1)) else {
        eprintln!("arguments: [times, from 1] [seed]");
        return ExitCode::from(2);
    };
    println!("seed {}, times {}", run.seed, run.times);
    match work(&run) {
        Ok(()) => ExitCode::SUCCESS,
        Err(Failure(text)) => {
            eprintln!("{text}");
            ExitCode::FAILURE
        }
    }
}

fn arguments(mut given: impl Iterator<Item = String>) -> Option<Run> {
    let mut number = |default: u64| given.next().map_or(Some(default), |text| text.parse().ok());
    let times = number(1).filter(|&times| times > 0)?;
    let seed = number(SEED)?;
    given.next().is_none().then_some(Run { times, seed })
}

/// A failure unless both implementations gave the same.
pub fn same<T: PartialEq + Debug>(
    what: &str,
    proved: T,
    second: T,
    input: &dyn Fn() -> String,
) -> Outcome {
    same_sides(what, [("proved", proved), ("second", second)], input)
}

/// A failure unless the proved implementation's preview gave what it gave when the step was taken.
pub fn same_as_taken<T: PartialEq + Debug>(
    what: &str,
    preview: T,
    taken: T,
    input: &dyn Fn() -> String,
) -> Outcome {
    same_sides(what, [("preview", preview), ("taken", taken)], input)
}

/// A failure unless both sides gave the same; each has its name.
pub fn same_sides<T: PartialEq + Debug>(
    what: &str,
    sides: [(&str, T); 2],
    input: &dyn Fn() -> String,
) -> Outcome {
    if sides[0].1 == sides[1].1 {
        return Ok(());
    }
    let answers = sides.map(|(side, answer)| format!("\n{side}: {answer:?}"));
    Err(difference(what, answers, input))
}

fn difference(what: &str, answers: [String; 2], input: &dyn Fn() -> String) -> Failure {
    Failure(format!(
        "DIFFERENCE: {what}\n{}{}",
        input(),
        answers.concat()
    ))
}

/// A failure unless both implementations left the same bytes.
pub fn same_bytes(what: &str, proved: &[u8], second: &[u8], input: &dyn Fn() -> String) -> Outcome {
    same_bytes_of_sides(what, [("proved", proved), ("second", second)], input)
}

/// A failure unless both sides left the same bytes; each has its name.
pub fn same_bytes_of_sides(
    what: &str,
    sides: [(&str, &[u8]); 2],
    input: &dyn Fn() -> String,
) -> Outcome {
    let [one, other] = sides.map(|(_, bytes)| bytes);
    if one == other {
        return Ok(());
    }
    let place = first_difference(one, other);
    let rest = |bytes: &[u8]| hex(bytes.get(place..).unwrap_or_default());
    let answers = sides.map(|(side, bytes)| format!("\n{side}: {}", rest(bytes)));
    let what = format!("{what}, from byte {place} on");
    Err(difference(&what, answers, input))
}

fn first_difference(one: &[u8], other: &[u8]) -> usize {
    let shared = one.len().min(other.len());
    (0..shared)
        .find(|&place| one[place] != other[place])
        .unwrap_or(shared)
}

/// A failure that names all that was found, unless nothing was.
pub fn fail_if_any(what: &str, found: &[String]) -> Outcome {
    match found.is_empty() {
        true => Ok(()),
        false => Err(Failure(format!("{what}: {}", found.join("; ")))),
    }
}

pub fn hex(bytes: &[u8]) -> String {
    bytes.iter().map(|byte| format!("{byte:02x}")).collect()
}
