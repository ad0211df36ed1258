//! Days of messages between two posts, as each post writes them into its book.

use reference::books::{LAST_SECOND, RECORD_LENGTH};
use reference::generate::Rng;

/// How the two clocks and the delays of a day are drawn.
#[derive(Clone, Copy)]
pub enum Clocks {
    /// A small offset and any delay from 0 to 60.
    Near,
    /// Any offset from −120 to 120.
    Shifted,
    /// An offset beside −120 or 120, and delays of 0 and 60.
    AtTheBounds,
    /// A delay of 61, or a message that arrives before it was sent.
    Delayed,
}

impl Clocks {
    pub const ALL: [Clocks; 4] = [
        Clocks::Near,
        Clocks::Shifted,
        Clocks::AtTheBounds,
        Clocks::Delayed,
    ];

    /// What is to be added to the second post's times.
    fn offset(self, rng: &mut Rng) -> i64 {
        match self {
            Clocks::Near => rng.between(0, 20) as i64 - 10,
            Clocks::Shifted | Clocks::Delayed => rng.between(0, 240) as i64 - 120,
            Clocks::AtTheBounds => match rng.below(2) {
                0 => rng.between(0, 3) as i64 - 182,
                _ => rng.between(0, 3) as i64 + 119,
            },
        }
    }

    fn delay(self, rng: &mut Rng) -> i64 {
        match self {
            Clocks::Near | Clocks::Shifted => rng.between(0, 60) as i64,
            Clocks::AtTheBounds => 60 * rng.below(2) as i64,
            Clocks::Delayed => rng.between(0, 62) as i64 - 1,
        }
    }
}

#[derive(Clone, Copy)]
struct Entry {
    second: i64,
    announcement: u8,
    received: u8,
    track: u8,
}

/// The books of both posts, record by record.
pub struct Day {
    posts: [Vec<Entry>; 2],
}

impl Day {
    /// Messages that leave in their order and arrive in their order.
    pub fn drawn(rng: &mut Rng, clocks: Clocks, messages: usize) -> Day {
        let clock = [0, -clocks.offset(rng)];
        let mut posts = [Vec::new(), Vec::new()];
        let mut arrived = [0, 0];
        let mut sent = 400 + rng.below(80_000) as i64;
        for _ in 0..messages {
            let from = rng.below(2) as usize;
            let to = 1 - from;
            sent = (sent + rng.below(3) as i64 * rng.below(40) as i64).min(86_000);
            arrived[from] = (sent + clocks.delay(rng)).max(arrived[from]);
            let entry = Entry {
                second: sent + clock[from],
                announcement: rng.between(1, 4) as u8,
                received: 0,
                track: rng.flag(),
            };
            posts[from].push(entry);
            posts[to].push(Entry {
                second: arrived[from] + clock[to],
                received: 1,
                ..entry
            });
        }
        for entries in &mut posts {
            entries.sort_by_key(|entry| entry.second);
        }
        Day { posts }
    }

    pub fn books(&self) -> [Vec<u8>; 2] {
        [book_of(&self.posts[0]), book_of(&self.posts[1])]
    }

    /// The books with one of them changed in one place.
    pub fn damaged(&self, rng: &mut Rng) -> [Vec<u8>; 2] {
        let mut posts = self.posts.clone();
        let which = rng.below(2) as usize;
        if !posts[which].is_empty() {
            change_entry(rng, &mut posts[which]);
        }
        let mut books = [book_of(&posts[0]), book_of(&posts[1])];
        if rng.chance(1, 3) {
            change_byte(rng, &mut books[which]);
        }
        books
    }
}

fn book_of(entries: &[Entry]) -> Vec<u8> {
    entries.iter().flat_map(record_of).collect()
}

fn record_of(entry: &Entry) -> [u8; RECORD_LENGTH] {
    let second = entry.second.clamp(0, i64::from(LAST_SECOND)) as u32;
    let mut record = [
        entry.announcement,
        entry.received,
        entry.track,
        0,
        0,
        0,
        0,
        0,
    ];
    record[4..].copy_from_slice(&second.to_le_bytes());
    record
}

/// Another message, a message less or more, or two exchanged.
fn change_entry(rng: &mut Rng, entries: &mut Vec<Entry>) {
    let place = rng.below(entries.len() as u64) as usize;
    match rng.below(7) {
        0 => entries[place].announcement = rng.between(1, 4) as u8,
        1 => entries[place].track ^= 1,
        2 => entries[place].received ^= 1,
        3 => drop(entries.remove(place)),
        4 => entries.insert(place, entries[place]),
        5 => entries[place].second += rng.between(0, 140) as i64 - 70,
        _ => {
            let other = rng.below(entries.len() as u64) as usize;
            let second = entries[place].second;
            entries.swap(place, other);
            entries[place].second = second;
        }
    }
}

/// A byte that no record has there, mostly.
fn change_byte(rng: &mut Rng, book: &mut Vec<u8>) {
    if book.is_empty() {
        book.push(rng.byte());
        return;
    }
    let place = rng.below(book.len() as u64) as usize;
    book[place] = match rng.below(3) {
        0 => rng.byte(),
        1 => book[place].wrapping_add(1),
        _ => rng.below(6) as u8,
    };
}

/// The empty book, and every record whose fields are inside or beside their bounds, with some
/// seconds, some of them a byte short.
pub fn books_of_one_record() -> Vec<Vec<u8>> {
    let mut books = vec![Vec::new()];
    for announcement in [0, 1, 4, 5] {
        for received in 0..3 {
            for track in 0..3 {
                for second in [0, 60, 61, 120, 180, 181, LAST_SECOND, LAST_SECOND + 1] {
                    let mut book = vec![announcement, received, track, 0];
                    book.extend(second.to_le_bytes());
                    books.push(book);
                }
            }
        }
    }
    books.push(vec![1, 0, 0, 1, 0, 0, 0, 0]);
    books.push(vec![1, 0, 0, 0, 0, 0, 0]);
    books
}
