//! How often each kind of step was answered how.

use super::cautions::{Fate, FATES};
use super::lamps::Entries;
use super::numbers::{self, Numbers};
use super::parts::{ByPart, OF_SECTIONS};
use crate::report::{fail_if_any, Outcome};
use reference::step::STEP_LENGTH;
use reference::stored::table::ANSWERS_BY_KIND;

const KINDS: [&str; 15] = [
    "other bytes",
    "order",
    "set",
    "announce",
    "acknowledge",
    "start",
    "pass",
    "leave",
    "measures on",
    "measures off",
    "fault on",
    "fault off",
    "release",
    "key",
    "caution form",
];

const SAID: [&str; 5] = ["nothing", "CVT", "CVTz", "VNS", "VNSz"];
const ANSWERS: [u8; 15] = [0, 4, 6, 11, 12, 13, 14, 15, 16, 17, 18, 19, 20, 21, 22];
const LAST_REFUSAL: u8 = 22;

#[derive(Default)]
pub struct Tally {
    /// By kind, then by refusal.
    answers: [[u64; LAST_REFUSAL as usize + 1]; KINDS.len()],
    said: [u64; 5],
    fates: [u64; FATES.len()],
    by_part: [u64; OF_SECTIONS.len()],
    numbers: Numbers,
    pub entries: Entries,
}

impl Tally {
    pub fn count(&mut self, step: &[u8], refusal: u8, said: u8) {
        self.answers[kind_of(step)][usize::from(refusal)] += 1;
        self.numbers.count(numbers::of(step), refusal);
        if refusal == 0 {
            self.said[usize::from(said)] += 1;
        }
    }

    pub fn count_fate(&mut self, fate: Option<Fate>) {
        if let Some(fate) = fate {
            self.fates[fate as usize] += 1;
        }
    }

    pub fn count_by_part(&mut self, by_part: Option<ByPart>) {
        if let Some(by_part) = by_part {
            self.by_part[by_part as usize] += 1;
        }
    }

    pub fn total(&self) -> u64 {
        self.answers.iter().flatten().sum()
    }

    fn given(&self, refusal: u8) -> u64 {
        self.answers
            .iter()
            .map(|row| row[usize::from(refusal)])
            .sum()
    }

    pub fn print(&self, part: &str) {
        self.print_steps(part);
        self.print_by_part();
    }

    /// Without what the parts decided.
    pub fn print_steps(&self, part: &str) {
        self.print_answers(part);
        self.print_fates();
        self.numbers.print();
    }

    /// By kind, and what was said.
    fn print_answers(&self, part: &str) {
        let share = 100.0 * self.given(0) as f64 / self.total().max(1) as f64;
        println!("{part}: {share:.1} % accepted; refusals by kind (0 accepted):");
        print!("{:12}", "");
        ANSWERS.iter().for_each(|answer| print!("{answer:>8}"));
        println!();
        for (kind, row) in KINDS.iter().zip(&self.answers) {
            print!("{kind:12}");
            for answer in ANSWERS {
                print!("{:>8}", shown(row[usize::from(answer)]));
            }
            println!();
        }
        print!("said:");
        for (word, times) in SAID.iter().zip(self.said) {
            print!("  {word} {times}");
        }
        println!();
    }

    fn print_fates(&self) {
        print!("caution forms:");
        for (fate, times) in FATES.iter().zip(self.fates) {
            print!("  {} {times}", fate.name());
        }
        println!();
    }

    fn print_by_part(&self) {
        print!("by the part:");
        for (by_part, times) in OF_SECTIONS.iter().zip(self.by_part) {
            print!("  {} {times}", by_part.name());
        }
        println!();
    }

    /// Each of these came up, and no other.
    pub fn fits_parts(&self, part: &str, expected: &[ByPart]) -> Outcome {
        let named = |keep: &dyn Fn(ByPart, u64) -> bool| -> Vec<String> {
            OF_SECTIONS
                .iter()
                .zip(self.by_part)
                .filter(|&(&by_part, times)| keep(by_part, times))
                .map(|(by_part, _)| by_part.name().to_string())
                .collect()
        };
        let missing = named(&|by_part, times| expected.contains(&by_part) && times == 0);
        fail_if_any(&format!("NEVER SEEN, {part}"), &missing)?;
        let strange = named(&|by_part, times| !expected.contains(&by_part) && times > 0);
        fail_if_any(&format!("NOT REACHED BY THE RULES, {part}"), &strange)
    }

    /// Every answer of the table, each of these refusals from the input, each word and all that can become of a caution form came up, and for each
    /// kind no answer that is neither in its row nor one of these.
    pub fn fits_table(&self, part: &str, from_input: &[u8]) -> Outcome {
        let missing = [
            self.all_kinds(|tally, kind| tally.missing_answers(kind)),
            self.missing_refusals(from_input),
            self.missing_words(),
            self.missing_fates(),
            self.numbers.missing(from_input),
        ];
        fail_if_any(&format!("NEVER SEEN, {part}"), &missing.concat())?;
        let strange = self.all_kinds(|tally, kind| tally.strange_answers(kind, from_input));
        fail_if_any(&format!("NOT IN THE TABLE, {part}"), &strange)
    }

    fn all_kinds(&self, look: impl Fn(&Tally, usize) -> Vec<String>) -> Vec<String> {
        (0..KINDS.len()).flat_map(|kind| look(self, kind)).collect()
    }

    fn missing_answers(&self, kind: usize) -> Vec<String> {
        ANSWERS_BY_KIND[kind]
            .iter()
            .filter(|&&answer| self.answers[kind][usize::from(answer)] == 0)
            .map(|answer| format!("{} answered {answer}", KINDS[kind]))
            .collect()
    }

    fn strange_answers(&self, kind: usize, from_input: &[u8]) -> Vec<String> {
        (0..=LAST_REFUSAL)
            .filter(|answer| !ANSWERS_BY_KIND[kind].contains(answer))
            .filter(|answer| !from_input.contains(answer))
            .filter(|&answer| self.answers[kind][usize::from(answer)] > 0)
            .map(|answer| format!("{} answered {answer}", KINDS[kind]))
            .collect()
    }

    fn missing_refusals(&self, from_input: &[u8]) -> Vec<String> {
        from_input
            .iter()
            .filter(|&&refusal| self.given(refusal) == 0)
            .map(|refusal| format!("refusal {refusal}"))
            .collect()
    }

    fn missing_words(&self) -> Vec<String> {
        SAID.iter()
            .zip(self.said)
            .filter(|&(_, times)| times == 0)
            .map(|(word, _)| format!("{word} said"))
            .collect()
    }

    fn missing_fates(&self) -> Vec<String> {
        FATES
            .iter()
            .zip(self.fates)
            .filter(|&(_, times)| times == 0)
            .map(|(fate, _)| format!("a caution form {}", fate.name()))
            .collect()
    }
}

/// 0 for bytes that are no step of a kind.
fn kind_of(step: &[u8]) -> usize {
    match step.first() {
        Some(&kind @ 1..=14) if step.len() == STEP_LENGTH => usize::from(kind),
        _ => 0,
    }
}

fn shown(times: u64) -> String {
    match times {
        0 => ".".to_string(),
        _ => times.to_string(),
    }
}
