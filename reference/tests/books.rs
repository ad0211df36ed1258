//! Sentences of request 9 of document 02, "Two posts' books side by side".

use reference::books::{compare, Comparison};
use reference::generate::{self, Rng};
use std::collections::BTreeMap;

const CVT: u8 = 1;
const CVTZ: u8 = 2;
const VNS: u8 = 3;
const SENT: u8 = 0;
const RECEIVED: u8 = 1;

type Record = (u8, u8, u8, u32);

fn book(records: &[Record]) -> Vec<u8> {
    let bytes = records.iter().map(|&(announcement, way, track, second)| {
        let [a, b, c, d] = second.to_le_bytes();
        [announcement, way, track, 0, a, b, c, d]
    });
    bytes.collect::<Vec<_>>().concat()
}

fn compared(first: &[Record], second: &[Record]) -> Comparison {
    compare(&book(first), &book(second))
}

#[test]
fn two_empty_books_match_with_offset_minus_120() {
    assert_eq!(compare(&[], &[]), Comparison::Matched(-120));
}

/// Added to the second book's times, the smallest with which the message arrives 0 to 60 seconds
/// after it was sent.
#[test]
fn smallest_offset_of_one_message() {
    let sent = |second| [(CVT, SENT, 0, second)];
    let received = |second| [(CVT, RECEIVED, 0, second)];
    for (from, to, expected) in [
        (1_000, 1_000, Comparison::Matched(0)),
        (1_000, 1_030, Comparison::Matched(-30)),
        (1_000, 1_120, Comparison::Matched(-120)),
        (1_000, 1_121, Comparison::Matched(-120)),
        (1_000, 1_180, Comparison::Matched(-120)),
        (1_000, 1_181, Comparison::NoOffset),
        (1_000, 880, Comparison::Matched(120)),
        (1_000, 879, Comparison::NoOffset),
    ] {
        assert_eq!(
            compared(&sent(from), &received(to)),
            expected,
            "{from} {to}"
        );
    }
    // The other way round the offset is on the sender's clock.
    for (from, to, expected) in [
        (1_000, 1_000, Comparison::Matched(-60)),
        (1_000, 1_060, Comparison::Matched(0)),
        (1_000, 940, Comparison::Matched(-120)),
        (1_000, 880, Comparison::Matched(-120)),
        (1_000, 879, Comparison::NoOffset),
        (1_000, 1_180, Comparison::Matched(120)),
        (1_000, 1_181, Comparison::NoOffset),
    ] {
        assert_eq!(
            compared(&received(to), &sent(from)),
            expected,
            "{from} {to}"
        );
    }
}

#[test]
fn every_message_bounds_the_offset() {
    // CVT there in 10 to 70 seconds by the clocks, CVTz back: the offset is -10 to 50 by the
    // first, -40 to 20 by the second.
    let first = [(CVT, SENT, 1, 100), (CVTZ, RECEIVED, 1, 220)];
    let second = [(CVT, RECEIVED, 1, 110), (CVTZ, SENT, 1, 200)];
    assert_eq!(compared(&first, &second), Comparison::Matched(-10));
    // -10 to 50 and -80 to -20: none.
    let second = [(CVT, RECEIVED, 1, 110), (CVTZ, SENT, 1, 240)];
    assert_eq!(compared(&first, &second), Comparison::NoOffset);
    let second = [(CVT, RECEIVED, 1, 110), (CVTZ, SENT, 1, 230)];
    assert_eq!(compared(&first, &second), Comparison::Matched(-10));
    let second = [(CVT, RECEIVED, 1, 110), (CVTZ, SENT, 1, 231)];
    assert_eq!(compared(&first, &second), Comparison::NoOffset);
}

#[test]
fn no_wrap_at_midnight() {
    let first = [(CVT, SENT, 0, 86_399)];
    let second = [(CVT, RECEIVED, 0, 0)];
    assert_eq!(compared(&first, &second), Comparison::NoOffset);
}

#[test]
fn first_place_where_the_lists_differ() {
    let differ = |pair, index| Comparison::Differ { pair, index };
    let first = [
        (CVT, SENT, 0, 1),
        (CVT, SENT, 1, 2),
        (VNS, RECEIVED, 0, 3),
        (CVT, SENT, 0, 4),
    ];
    let same = [
        (CVT, RECEIVED, 0, 1),
        (CVT, RECEIVED, 1, 2),
        (VNS, SENT, 0, 3),
        (CVT, RECEIVED, 0, 4),
    ];
    assert_eq!(compared(&first, &same), Comparison::Matched(0));
    let mut second = same;
    second[1].2 = 0;
    assert_eq!(compared(&first, &second), differ(0, 1));
    // Those sent by the first book first, though the other pair differs earlier in the day.
    second = same;
    second[2].0 = CVT;
    second[3].0 = CVTZ;
    assert_eq!(compared(&first, &second), differ(0, 2));
    second[3].0 = CVT;
    assert_eq!(compared(&first, &second), differ(1, 0));
    // A shorter list differs at its end.
    assert_eq!(compared(&first, &same[..3]), differ(0, 2));
    assert_eq!(compared(&first[..3], &same), differ(0, 2));
    assert_eq!(compared(&first[..2], &same[..3]), differ(1, 0));
    assert_eq!(compared(&[], &same), differ(0, 0));
    assert_eq!(compared(&same, &[]), differ(0, 0));
    assert_eq!(compared(&[(VNS, RECEIVED, 0, 3)], &[]), differ(1, 0));
}

#[test]
fn lists_are_compared_before_times() {
    let first = [(CVT, SENT, 0, 1)];
    let second = [(CVTZ, RECEIVED, 0, 80_000)];
    assert_eq!(
        compared(&first, &second),
        Comparison::Differ { pair: 0, index: 0 }
    );
}

#[test]
fn malformed_records() {
    let good = book(&[
        (CVT, SENT, 0, 7),
        (CVTZ, RECEIVED, 1, 7),
        (VNS, SENT, 0, 86_399),
    ]);
    let malformed = |book, index| Comparison::Malformed { book, index };
    let with = |place: usize, value: u8| {
        let mut book = good.clone();
        book[place] = value;
        book
    };
    for (place, value, index) in [
        (0, 0, 0),
        (0, 5, 0),
        (8, 255, 1),
        (1, 2, 0),
        (10, 2, 1),
        (3, 1, 0),
        (19, 255, 2),
        (4, 8, 1),
        (12, 6, 1),
        (20, 0x80, 2),
        (23, 1, 2),
    ] {
        let bad = with(place, value);
        assert_eq!(compare(&bad, &[]), malformed(0, index), "{place} {value}");
        assert_eq!(compare(&[], &bad), malformed(1, index), "{place} {value}");
        // First book first.
        assert_eq!(compare(&bad, &with(0, 0)), malformed(0, index));
    }
    for length in 17..24 {
        assert_eq!(compare(&good[..length], &[]), malformed(0, 2));
        assert_eq!(compare(&[], &good[..length]), malformed(1, 2));
        let mut two = with(0, 0);
        two.truncate(length);
        assert_eq!(compare(&two, &[]), malformed(0, 0));
    }
    assert_eq!(compare(&[1], &[]), malformed(0, 0));
    assert_ne!(compare(&good, &good[..16]), malformed(1, 1));
}

/// The bounds that each message sets, instead of a trial.
fn by_bounds(first: &[u8], second: &[u8]) -> Comparison {
    let list = |book: &[u8], way: u8| -> Vec<(u8, u8, i64)> {
        book.chunks(8)
            .filter(|record| record[1] == way)
            .map(|record| {
                let second = u32::from_le_bytes(record[4..8].try_into().unwrap());
                (record[0], record[2], i64::from(second))
            })
            .collect()
    };
    let (mut least, mut greatest) = (-120, 120);
    for (pair, sender, receiver) in [(0, first, second), (1, second, first)] {
        let (sent, received) = (list(sender, SENT), list(receiver, RECEIVED));
        for index in 0..sent.len().max(received.len()) {
            let (Some(sent), Some(received)) = (sent.get(index), received.get(index)) else {
                return Comparison::Differ { pair, index };
            };
            if (sent.0, sent.1) != (received.0, received.1) {
                return Comparison::Differ { pair, index };
            }
            let ahead = match pair {
                0 => sent.2 - received.2,
                _ => received.2 - sent.2 - 60,
            };
            least = least.max(ahead);
            greatest = greatest.min(ahead + 60);
        }
    }
    match least <= greatest {
        true => Comparison::Matched(least as i32),
        false => Comparison::NoOffset,
    }
}

#[test]
fn drawn_books() {
    let mut rng = Rng::new(91);
    let mut met = BTreeMap::<&str, u32>::new();
    for _ in 0..20_000 {
        let mut books = generate::random_books(&mut rng);
        if rng.chance(1, 2) {
            generate::damage_books(&mut rng, &mut books);
        }
        let [first, second] = &books;
        let given = compare(first, second);
        let kind = match given {
            Comparison::Matched(-120) => "matched at -120",
            Comparison::Matched(_) => "matched",
            Comparison::NoOffset => "no offset",
            Comparison::Differ { pair: 0, .. } => "differ in pair 0",
            Comparison::Differ { .. } => "differ in pair 1",
            Comparison::Malformed { book: 0, .. } => "malformed book 0",
            Comparison::Malformed { .. } => "malformed book 1",
        };
        *met.entry(kind).or_default() += 1;
        if !matches!(given, Comparison::Malformed { .. }) {
            assert_eq!(given, by_bounds(first, second));
        }
    }
    println!("{met:?}");
    assert_eq!(met.len(), 7);
    assert!(met.values().all(|&times| times > 100), "{met:?}");
}
