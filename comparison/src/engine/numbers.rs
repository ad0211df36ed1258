//! Train numbers beside the bounds of four and of five figures, in steps.

use reference::generate::Rng;
use reference::step::STEP_LENGTH;

/// Those that a step may have, and those that make it malformed.
const TAKEN: [u16; 3] = [9_999, 10_000, 59_999];
const TOO_GREAT: [u16; 2] = [60_000, 65_535];

const MALFORMED: u8 = 4;
const OUT_OF_RANGE: u8 = 6;

#[derive(Default)]
pub struct Numbers {
    taken: [u64; TAKEN.len()],
    refused: [u64; TOO_GREAT.len()],
}

/// The number of a step of a kind that has one.
pub fn of(step: &[u8]) -> Option<u16> {
    match step.first() {
        Some(5..=7 | 12 | 14) if step.len() == STEP_LENGTH => {
            Some(u16::from_le_bytes([step[4], step[5]]))
        }
        _ => None,
    }
}

/// One of them.
pub fn at_bounds(rng: &mut Rng) -> u16 {
    rng.pick(&[TAKEN.as_slice(), TOO_GREAT.as_slice()].concat())
}

impl Numbers {
    /// A step with such a number that was judged by the table, or refused with 4.
    pub fn count(&mut self, number: Option<u16>, refusal: u8) {
        let place = |list: &[u16]| list.iter().position(|&listed| Some(listed) == number);
        if let (Some(place), false) = (place(&TAKEN), [MALFORMED, OUT_OF_RANGE].contains(&refusal))
        {
            self.taken[place] += 1;
        }
        if let (Some(place), MALFORMED) = (place(&TOO_GREAT), refusal) {
            self.refused[place] += 1;
        }
    }

    fn all(&self) -> impl Iterator<Item = (u16, u64)> + '_ {
        let taken = TAKEN.into_iter().zip(self.taken);
        taken.chain(TOO_GREAT.into_iter().zip(self.refused))
    }

    pub fn print(&self) {
        print!("numbers at their bounds:");
        for (number, times) in self.all() {
            print!("  {number} {times}");
        }
        println!();
    }

    /// Those too great are looked for only where a step may be refused with 4.
    pub fn missing(&self, from_input: &[u8]) -> Vec<String> {
        let looked_for = |number| TAKEN.contains(&number) || from_input.contains(&MALFORMED);
        self.all()
            .filter(|&(number, times)| times == 0 && looked_for(number))
            .map(|(number, _)| format!("a step with number {number}"))
            .collect()
    }
}
