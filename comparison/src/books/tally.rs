//! What the pairs of books were answered, by case.

use super::record_count;
use crate::report::{fail_if_any, Outcome};
use reference::books::{Comparison, LAST_SECOND, RECORD_LENGTH};
use std::collections::BTreeMap;

/// Each must come up.
const CASES: [&str; 22] = [
    "offset -120",
    "offset below 0",
    "offset 0",
    "offset above 0",
    "offset 120",
    "two empty books",
    "no offset",
    "what the first sent, the same length",
    "what the first sent, more than was received",
    "what the first sent, less than was received",
    "what the second sent, the same length",
    "what the second sent, more than was received",
    "what the second sent, less than was received",
    "24 in the first book",
    "24 in the second book",
    "24 for the announcement",
    "24 for sent or received",
    "24 for the track",
    "24 for byte 3",
    "24 for a second above 86,399",
    "24 for a falling second",
    "24 for an incomplete record",
];

#[derive(Default)]
pub struct Tally {
    pairs: u64,
    cases: BTreeMap<&'static str, u64>,
}

impl Tally {
    pub fn count(&mut self, first: &[u8], second: &[u8], answer: Comparison) {
        self.pairs += 1;
        match answer {
            Comparison::Matched(offset) => {
                self.add(offset_case(offset));
                if first.is_empty() && second.is_empty() {
                    self.add("two empty books");
                }
            }
            Comparison::NoOffset => self.add("no offset"),
            Comparison::Differ { pair: 0, index } => self.add(difference_case(
                first,
                second,
                index,
                [
                    "what the first sent, the same length",
                    "what the first sent, more than was received",
                    "what the first sent, less than was received",
                ],
            )),
            Comparison::Differ { index, .. } => self.add(difference_case(
                second,
                first,
                index,
                [
                    "what the second sent, the same length",
                    "what the second sent, more than was received",
                    "what the second sent, less than was received",
                ],
            )),
            Comparison::Malformed { book: 0, index } => {
                self.add("24 in the first book");
                self.add(malformed_case(first, index));
            }
            Comparison::Malformed { index, .. } => {
                self.add("24 in the second book");
                self.add(malformed_case(second, index));
            }
        }
    }

    fn add(&mut self, case: &'static str) {
        *self.cases.entry(case).or_default() += 1;
    }

    pub fn total(&self) -> u64 {
        self.pairs
    }

    pub fn print(&self) {
        for (case, count) in &self.cases {
            println!("books, {case}: {count}");
        }
    }

    /// A failure unless every case came up.
    pub fn have_all(&self) -> Outcome {
        let missing: Vec<String> = CASES
            .iter()
            .filter(|case| !self.cases.contains_key(**case))
            .map(|case| case.to_string())
            .collect();
        fail_if_any("books, never seen", &missing)
    }
}

fn offset_case(offset: i32) -> &'static str {
    match offset {
        -120 => "offset -120",
        120 => "offset 120",
        0 => "offset 0",
        ..=-1 => "offset below 0",
        _ => "offset above 0",
    }
}

/// Which of the two lists ends at the place where they differ, if one does.
fn difference_case(
    sender: &[u8],
    receiver: &[u8],
    index: usize,
    cases: [&'static str; 3],
) -> &'static str {
    let length = |book: &[u8], direction: u8| {
        book.chunks_exact(RECORD_LENGTH)
            .filter(|record| record[1] == direction)
            .count()
    };
    let [same_length, received_less, sent_less] = cases;
    if length(receiver, 1) == index {
        received_less
    } else if length(sender, 0) == index {
        sent_less
    } else {
        same_length
    }
}

/// Why the record is malformed.
fn malformed_case(book: &[u8], index: usize) -> &'static str {
    assert!(index < record_count(book), "no record has that index");
    let Some(record) = book[index * RECORD_LENGTH..].get(..RECORD_LENGTH) else {
        return "24 for an incomplete record";
    };
    let second = u32::from_le_bytes([record[4], record[5], record[6], record[7]]);
    match record {
        [announcement, ..] if !(1..=4).contains(announcement) => "24 for the announcement",
        [_, direction, ..] if *direction > 1 => "24 for sent or received",
        [_, _, track, ..] if *track > 1 => "24 for the track",
        [_, _, _, zero, ..] if *zero > 0 => "24 for byte 3",
        _ if second > LAST_SECOND => "24 for a second above 86,399",
        _ => "24 for a falling second",
    }
}
