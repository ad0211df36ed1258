//! Two posts' books side by side: pairs of books, drawn and enumerated, and what they were
//! answered.

pub mod days;
pub mod tally;

use crate::proved;
use crate::report::{hex, same, Comparison, Outcome};
use days::{Clocks, Day};
use reference::books::{self, RECORD_LENGTH};
use reference::generate::Rng;
use tally::Tally;

/// The longest books that are drawn, in messages a day.
const LONGEST: usize = 20_000;

pub struct BookComparison {
    rng: Rng,
    pub seen: Tally,
}

impl Comparison for BookComparison {
    fn new(rng: Rng) -> BookComparison {
        BookComparison {
            rng,
            seen: Tally::default(),
        }
    }

    fn all(&mut self) -> Outcome {
        self.short_books()?;
        for clocks in Clocks::ALL {
            for (times, most) in [(5_000, 6), (700, 60), (20, 1_000)] {
                for _ in 0..times {
                    let messages = self.rng.between(0, most);
                    self.day(clocks, messages)?;
                }
            }
        }
        for _ in 0..4 {
            self.day(Clocks::Near, LONGEST)?;
        }
        Ok(())
    }
}

impl BookComparison {
    /// A day as it is, damaged, cut, and beside an empty book.
    fn day(&mut self, clocks: Clocks, messages: usize) -> Outcome {
        let day = Day::drawn(&mut self.rng, clocks, messages);
        let [first, second] = day.books();
        self.compare(&first, &second)?;
        self.compare(&second, &first)?;
        for _ in 0..2 {
            let [first, second] = day.damaged(&mut self.rng);
            self.compare(&first, &second)?;
        }
        let cut = self.rng.between(0, first.len());
        self.compare(&first[..cut], &second)?;
        let cut = self.rng.between(0, second.len());
        self.compare(&first, &second[..cut])?;
        self.compare(&first, &[])?;
        self.compare(&[], &second)
    }

    /// Every pair of books of at most one record whose fields are at their bounds.
    fn short_books(&mut self) -> Outcome {
        let books = days::books_of_one_record();
        for first in &books {
            for second in &books {
                self.compare(first, second)?;
            }
        }
        Ok(())
    }

    fn compare(&mut self, first: &[u8], second: &[u8]) -> Outcome {
        let answer = books::compare(first, second);
        let input = || format!("first: {}\nsecond: {}", hex(first), hex(second));
        let proved = proved::books::compare(first, second);
        same("two books", proved, numbers(answer), &input)?;
        self.seen.count(first, second, answer);
        Ok(())
    }
}

/// The second implementation's answer in the numbers of the C interface.
fn numbers(answer: books::Comparison) -> (u64, u64, u64, u64) {
    match answer {
        books::Comparison::Matched(offset) => (0, 0, (offset + 120) as u64, 0),
        books::Comparison::NoOffset => (0, 1, 0, 0),
        books::Comparison::Differ { pair, index } => (0, 2, u64::from(pair), index as u64),
        books::Comparison::Malformed { book, index } => (24, 0, u64::from(book), index as u64),
    }
}

/// How many records a book has, an incomplete last one included.
fn record_count(book: &[u8]) -> usize {
    book.len().div_ceil(RECORD_LENGTH)
}
