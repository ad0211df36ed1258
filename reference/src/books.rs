//! Two neighbouring posts' books of a day side by side: whether each one's sent messages are the
//! other's received ones, and by how much their clocks may differ.

pub const RECORD_LENGTH: usize = 8;
pub const LAST_SECOND: u32 = 86_399;
pub const LEAST_OFFSET: i32 = -120;
pub const GREATEST_OFFSET: i32 = 120;
/// A message arrives at most so many seconds after it was sent.
pub const LONGEST_DELAY: i32 = 60;

const SENT: u8 = 0;
const RECEIVED: u8 = 1;

#[derive(Clone, Copy, Debug, PartialEq, Eq)]
pub enum Comparison {
    /// The smallest offset to be added to the second book's times.
    Matched(i32),
    /// The lists are the same, but there is no such offset.
    NoOffset,
    /// Pair 0 is what the first book sent and the second received, pair 1 the other way round. The
    /// index is that of the first difference in the lists of the pair.
    Differ { pair: u8, index: usize },
    /// Refusal 24: book 0 or 1, and the index of its first malformed record.
    Malformed { book: u8, index: usize },
}

#[derive(Clone, Copy, Debug, PartialEq, Eq)]
struct Message {
    announcement: u8,
    track: u8,
    second: i32,
}

#[derive(Default)]
struct Book {
    sent: Vec<Message>,
    received: Vec<Message>,
}

pub fn compare(first: &[u8], second: &[u8]) -> Comparison {
    let first = match read(first) {
        Ok(book) => book,
        Err(index) => return Comparison::Malformed { book: 0, index },
    };
    let second = match read(second) {
        Ok(book) => book,
        Err(index) => return Comparison::Malformed { book: 1, index },
    };
    if let Some(index) = first_difference(&first.sent, &second.received) {
        return Comparison::Differ { pair: 0, index };
    }
    if let Some(index) = first_difference(&second.sent, &first.received) {
        return Comparison::Differ { pair: 1, index };
    }
    match (LEAST_OFFSET..=GREATEST_OFFSET).find(|&offset| fits(&first, &second, offset)) {
        Some(offset) => Comparison::Matched(offset),
        None => Comparison::NoOffset,
    }
}

/// The index of the first malformed record otherwise.
fn read(bytes: &[u8]) -> Result<Book, usize> {
    let (records, incomplete) = bytes.as_chunks::<RECORD_LENGTH>();
    let mut book = Book::default();
    let mut latest = 0;
    for (index, record) in records.iter().enumerate() {
        let [announcement, way, track, zero, time @ ..] = *record;
        let second = u32::from_le_bytes(time);
        let fits = (1..=4).contains(&announcement)
            && way <= RECEIVED
            && track <= 1
            && zero == 0
            && (latest..=LAST_SECOND).contains(&second);
        if !fits {
            return Err(index);
        }
        latest = second;
        let list = match way {
            SENT => &mut book.sent,
            _ => &mut book.received,
        };
        list.push(Message {
            announcement,
            track,
            second: second as i32,
        });
    }
    match incomplete {
        [] => Ok(book),
        _ => Err(records.len()),
    }
}

/// In announcement or track; a shorter list differs at its end.
fn first_difference(sent: &[Message], received: &[Message]) -> Option<usize> {
    let same =
        |(a, b): (&Message, &Message)| a.announcement == b.announcement && a.track == b.track;
    let differing = sent.iter().zip(received).position(|pair| !same(pair));
    let shorter = sent.len().min(received.len());
    differing.or((sent.len() != received.len()).then_some(shorter))
}

/// With the offset on the second book's times every message arrives in time.
fn fits(first: &Book, second: &Book, offset: i32) -> bool {
    let in_time = |sent: i32, arrived: i32| (0..=LONGEST_DELAY).contains(&(arrived - sent));
    let there = first.sent.iter().zip(&second.received);
    let back = second.sent.iter().zip(&first.received);
    there
        .into_iter()
        .all(|(sent, arrived)| in_time(sent.second, arrived.second + offset))
        && back
            .into_iter()
            .all(|(sent, arrived)| in_time(sent.second + offset, arrived.second))
}
