//! Days written as text: a line of settings, then a line a step.
//!
//! ```text
//! posts 2 materialised mask 3 line 1 crossings 0 0_without_zones
//! form A0 2410
//! start A0 2410
//! order A0 -> 13
//! announce A0 says CVT
//! set A1 shows 2/0/0 2/1/1
//! ```
//!
//! The crossings may be left out; each is a block section. A step must be accepted unless `->` gives a refusal. `says` gives the announcement or
//! acknowledgement, `shows` the lamps of the track's posts from post 0 on, as
//! CIRCULATION/TRONÇON/permission. A number after the place is the train's or, for
//! `fault_on` and `fault_off`, the fault's. Empty lines and those that begin with `#` are
//! for the reader.

use super::bench::{Bench, Lamps, A, B};
use crate::engine::{SAID_CVT, SAID_CVTZ, SAID_NOTHING, SAID_VNS, SAID_VNSZ};
use crate::settings::{Crossings, Settings, MATERIALISED, NO_CROSSINGS, TELEPHONE, WITHOUT_ZONES};
use crate::step::Step;
use std::iter::Peekable;
use std::str::SplitWhitespace;

type Words<'a> = Peekable<SplitWhitespace<'a>>;

/// The file of a day written as text, once it has been answered as the text demands.
pub fn day(text: &str) -> Vec<u8> {
    let mut lines = text.lines().filter(|line| !is_remark(line));
    let settings = settings(lines.next().expect("a line of settings"));
    let mut bench = Bench::new(settings, A);
    for line in lines {
        offer_line(&mut bench, line);
    }
    bench.day()
}

fn is_remark(line: &str) -> bool {
    line.trim().is_empty() || line.starts_with('#')
}

fn settings(line: &str) -> Settings {
    let words: Vec<&str> = line.split_whitespace().collect();
    let ["posts", n, form, "mask", mask, "line", number, ref rest @ ..] = words[..] else {
        panic!("settings expected: {line}");
    };
    Settings {
        n: n.parse().expect(line),
        form: match form {
            "telephone" => TELEPHONE,
            "materialised" => MATERIALISED,
            _ => panic!("no such form: {line}"),
        },
        mask: mask.parse().expect(line),
        line: number.parse().expect(line),
        crossings: match rest {
            [] => NO_CROSSINGS,
            ["crossings", words @ ..] => crossings(words),
            _ => panic!("crossings expected: {line}"),
        },
    }
}

fn crossings(words: &[&str]) -> Crossings {
    let mut crossings = NO_CROSSINGS;
    for (byte, word) in crossings[..words.len()].iter_mut().zip(words) {
        *byte = match word.strip_suffix("_without_zones") {
            Some(section) => section.parse::<u8>().expect(word) + WITHOUT_ZONES,
            None => word.parse().expect(word),
        };
    }
    crossings
}

fn offer_line(bench: &mut Bench, line: &str) {
    let mut words = line.split_whitespace().peekable();
    let kind = words.next().expect(line);
    let (track, post) = place(words.next().expect(line));
    let step = step(kind, post, number(&mut words), line);
    bench.track = track;
    let (refusal, said) = bench.offer(step);
    let (demanded_refusal, demanded_said) = demanded_answer(&mut words);
    assert_eq!(refusal, demanded_refusal, "{line}");
    assert_eq!(said, demanded_said, "{line}");
    if let Some(lamps) = demanded_lamps(&mut words) {
        assert_eq!(bench.lamps(), lamps, "{line}");
    }
    assert_eq!(words.next(), None, "{line}");
}

/// A track's letter and a post.
fn place(word: &str) -> (u8, u8) {
    let (letter, post) = word.split_at(1);
    let track = match letter {
        "A" => A,
        "B" => B,
        _ => panic!("no such track: {word}"),
    };
    (track, post.parse().expect(word))
}

/// The train's or the fault's, 0 where there is none.
fn number(words: &mut Words) -> u16 {
    let number = words.peek().and_then(|word| word.parse().ok());
    if number.is_some() {
        words.next();
    }
    number.unwrap_or(0)
}

fn step(kind: &str, post: u8, number: u16, line: &str) -> Step {
    let train = number;
    let fault = number as u8;
    match kind {
        "order" => Step::Order { post },
        "set" => Step::Set { post },
        "announce" => Step::Announce { post },
        "acknowledge" => Step::Acknowledge { post },
        "start" => Step::Start { post, train },
        "pass" => Step::Pass { post, train },
        "leave" => Step::Leave { post, train },
        "measures_on" => Step::MeasuresOn { post },
        "measures_off" => Step::MeasuresOff { post },
        "fault_on" => Step::FaultOn { post, fault },
        "fault_off" => Step::FaultOff { post, fault },
        "release" => Step::Release { post, train },
        "key" => Step::Key { post },
        "form" => Step::Form { post, train },
        _ => panic!("no such kind: {line}"),
    }
}

/// The refusal, 0 for none, and what is said.
fn demanded_answer(words: &mut Words) -> (u8, u8) {
    match words.peek() {
        Some(&"->") => (after_mark(words).parse().expect("a refusal"), SAID_NOTHING),
        Some(&"says") => (0, said(after_mark(words))),
        _ => (0, SAID_NOTHING),
    }
}

fn after_mark<'a>(words: &mut Words<'a>) -> &'a str {
    words.next();
    words.next().expect("a word after the mark")
}

fn said(word: &str) -> u8 {
    match word {
        "CVT" => SAID_CVT,
        "CVTz" => SAID_CVTZ,
        "VNS" => SAID_VNS,
        "VNSz" => SAID_VNSZ,
        _ => panic!("nobody says {word}"),
    }
}

fn demanded_lamps(words: &mut Words) -> Option<Vec<Lamps>> {
    let demanded = words.peek() == Some(&"shows");
    demanded.then(|| words.skip(1).map(lamps).collect())
}

fn lamps(word: &str) -> Lamps {
    let shown: Vec<u8> = word
        .split('/')
        .map(|digit| digit.parse().expect(word))
        .collect();
    let [circulation, troncon, permission] = shown[..] else {
        panic!("three lamps expected: {word}");
    };
    (circulation, troncon, permission)
}
