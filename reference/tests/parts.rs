//! Sentences of request 3 of document 02, "Who watches which part".

use reference::engine::{judge, SAID_CVT, SAID_NOTHING, SAID_VNS};
use reference::generate::{self, Rng};
use reference::indications::indications;
use reference::section::{Section, ANNOUNCE, FAULT_1, FAULT_2, NO_REVERSAL, SET};
use reference::settings::{Settings, MATERIALISED, NO_CROSSINGS, TELEPHONE};
use reference::step::{decode, encode, leave, pass, release, start, Step};
use reference::way::{Way, CVT, VNS};
use std::ops::Range;

const A: u8 = 0;
const B: u8 = 1;

const TRAIN: u16 = 2410;
const ANOTHER: u16 = 2412;

const NO_LAMP: u8 = 0;
const WHITE: u8 = 1;
const RED: u8 = 2;

/// Of seven posts: no, some and all intermediate posts signalled. The parts of the second are
/// 0-2, 2-3 and 3-6.
const ENDS_ONLY: u16 = 0b1000001;
const SOME_POSTS: u16 = 0b1001101;
const EVERY_POST: u16 = 0b1111111;

/// A line of seven posts seen the way its trains run: posts and block sections by rank, both
/// from the sending end on.
#[derive(Clone, Copy)]
struct Line {
    section: Section,
    track: u8,
    way: Way,
}

impl Line {
    /// Settled on the direction, measures in place, nothing on the track.
    fn settled(form: u8, mask: u16, track: u8, direction: u8) -> Line {
        let settings = Settings {
            n: 7,
            form,
            mask,
            line: 1,
            crossings: NO_CROSSINGS,
        };
        let mut line = Line::of(Section::fresh(settings), track);
        for rank in line.ranks() {
            line.accept(Step::MeasuresOn {
                post: line.post(rank),
            });
        }
        if direction == CVT {
            line.reverse();
            line = Line::of(line.section, track);
        }
        line
    }

    fn of(section: Section, track: u8) -> Line {
        Line {
            section,
            track,
            way: section.way(usize::from(track)),
        }
    }

    fn ranks(&self) -> Range<u8> {
        0..self.section.settings.n
    }

    /// Of the receiving end; there is one block section less.
    fn last_rank(&self) -> u8 {
        self.section.settings.n - 1
    }

    fn post(&self, rank: u8) -> u8 {
        self.way.rank(rank)
    }

    fn signalled(&self, rank: u8) -> bool {
        self.section.settings.mask & 1 << self.post(rank) != 0
    }

    /// "All block sections up to the next signalled post ahead"; none for a post without signals
    /// and for the receiving end.
    fn part(&self, rank: u8) -> Range<u8> {
        let next = (rank + 1..=self.last_rank()).find(|&next| self.signalled(next));
        match next {
            Some(next) if self.signalled(rank) => rank..next,
            _ => rank..rank,
        }
    }

    fn refusal(&self, step: Step) -> u8 {
        judge(&self.section, &encode(self.track, &step)).refusal
    }

    /// What is said.
    fn accept(&mut self, step: Step) -> u8 {
        let answer = judge(&self.section, &encode(self.track, &step));
        assert_eq!(answer.refusal, 0, "{step:?}");
        self.section = answer.section;
        answer.said
    }

    fn accept_at(&mut self, rank: u8, step: fn(u8) -> Step) -> u8 {
        self.accept(step(self.post(rank)))
    }

    /// From the block section before the post of this rank to the one ahead of it.
    fn move_train(&mut self, rank: u8, train: u16) {
        let post = self.post(rank);
        self.accept(match rank {
            0 => start(post, train),
            _ if rank == self.last_rank() => leave(post, train),
            _ => pass(post, train),
        });
    }

    fn reverse(&mut self) {
        self.accept_at(0, order);
        for rank in 0..self.last_rank() {
            self.accept_at(rank, set);
            self.hand_on(rank);
        }
        self.accept_at(self.last_rank(), set);
    }

    fn hand_on(&mut self, rank: u8) {
        self.accept_at(rank, announce);
        self.accept_at(rank + 1, acknowledge);
    }

    /// The state as it is, but with one train in the block section of this rank.
    fn with_train_in(&self, rank: u8) -> Line {
        let mut line = *self;
        let block_section = line.way.ahead(line.post(rank)).unwrap();
        line.section.tracks[usize::from(self.track)].trains[block_section] = TRAIN;
        line
    }

    /// The state as it is, but in a reversal with the set of this rank's post in turn.
    fn with_turn_at(&self, rank: u8) -> Line {
        let mut line = *self;
        let post = line.post(rank);
        let track = &mut line.section.tracks[usize::from(self.track)];
        (track.act, track.turn) = (SET, post);
        line
    }

    fn with_faults(&self, rank: u8, faults: u8) -> Line {
        let mut line = *self;
        let post = usize::from(line.post(rank));
        line.section.tracks[usize::from(self.track)].posts[post].faults = faults;
        line
    }

    fn with_mark(&self, rank: u8) -> Line {
        let mut line = *self;
        let post = usize::from(line.post(rank));
        line.section.tracks[usize::from(self.track)].posts[post].mark = 1;
        line
    }

    /// Empty, and with a train in each of the block sections: with the rank of the train's.
    fn with_every_train(&self) -> Vec<(Option<u8>, Line)> {
        let trains = (0..self.last_rank()).map(|rank| (Some(rank), self.with_train_in(rank)));
        [(None, *self)].into_iter().chain(trains).collect()
    }

    fn troncon(&self, rank: u8) -> u8 {
        indications(&self.section, self.track, self.post(rank)).1
    }
}

fn order(post: u8) -> Step {
    Step::Order { post }
}

fn set(post: u8) -> Step {
    Step::Set { post }
}

fn key(post: u8) -> Step {
    Step::Key { post }
}

fn announce(post: u8) -> Step {
    Step::Announce { post }
}

fn acknowledge(post: u8) -> Step {
    Step::Acknowledge { post }
}

/// Both tracks, both directions, no, some and all intermediate posts signalled.
fn every_line(form: u8) -> Vec<Line> {
    let mut lines = Vec::new();
    for mask in [ENDS_ONLY, SOME_POSTS, EVERY_POST] {
        for track in [A, B] {
            for direction in [VNS, CVT] {
                lines.push(Line::settled(form, mask, track, direction));
            }
        }
    }
    lines
}

fn in_part(line: &Line, rank: u8, train: Option<u8>) -> bool {
    train.is_some_and(|train| line.part(rank).contains(&train))
}

/// A signalled post that isn't the receiving end.
fn commands(line: &Line, rank: u8) -> bool {
    line.signalled(rank) && rank != line.last_rank()
}

// The extent of a part.

#[test]
fn parts_of_the_lines_below() {
    let parts = |mask, track, direction| {
        let line = Line::settled(MATERIALISED, mask, track, direction);
        line.ranks()
            .map(|rank| line.part(rank))
            .filter(|part| !part.is_empty())
            .collect::<Vec<_>>()
    };
    for (track, direction) in [(A, VNS), (B, CVT)] {
        assert_eq!(parts(SOME_POSTS, track, direction), [0..2, 2..3, 3..6]);
    }
    for (track, direction) in [(A, CVT), (B, VNS)] {
        assert_eq!(parts(SOME_POSTS, track, direction), [0..3, 3..4, 4..6]);
    }
    assert_eq!(parts(ENDS_ONLY, A, VNS).first(), Some(&(0..6)));
    assert_eq!(parts(ENDS_ONLY, A, VNS).len(), 1);
    assert_eq!(parts(EVERY_POST, A, VNS).len(), 6);
}

// Order.

/// Behind one train from its start to its leave.
#[test]
fn order_waits_until_the_train_has_left_the_part() {
    let mut behind_a_train = 0;
    for mut line in every_line(MATERIALISED) {
        for rank in 0..line.last_rank() {
            line.move_train(rank, TRAIN);
            let expected = match in_part(&line, 0, Some(rank)) {
                true => 13,
                false => 0,
            };
            assert_eq!(line.refusal(order(line.post(0))), expected);
            behind_a_train += usize::from(expected == 0);
        }
        line.move_train(line.last_rank(), TRAIN);
        assert_eq!(line.refusal(order(line.post(0))), 0);
    }
    // The trains beyond the first part: by SOME_POSTS four or three, by EVERY_POST five.
    assert_eq!(behind_a_train, 2 * (4 + 3) + 4 * 5);
}

// Set and key.

/// Over every place of a train, reached or not.
#[test]
fn set_and_key_at_a_signalled_post_cover_its_part() {
    for line in every_line(MATERIALISED) {
        for rank in line.ranks().filter(|&rank| line.signalled(rank)) {
            for (train, line) in line.with_turn_at(rank).with_every_train() {
                let expected = match in_part(&line, rank, train) {
                    true => 13,
                    false => 0,
                };
                check_set_and_key(&line, rank, expected);
            }
        }
    }
}

#[test]
fn set_and_key_at_a_post_without_signals_check_no_track() {
    let mut checked = 0;
    for line in every_line(MATERIALISED) {
        for rank in line.ranks().filter(|&rank| !line.signalled(rank)) {
            for (_, line) in line.with_turn_at(rank).with_every_train() {
                check_set_and_key(&line, rank, 0);
                checked += 1;
            }
        }
    }
    assert_eq!(checked, 4 * (5 + 3) * 7);
}

fn check_set_and_key(line: &Line, rank: u8, expected: u8) {
    let post = line.post(rank);
    assert_eq!(line.refusal(set(post)), expected, "{rank}");
    let locked = line.with_faults(rank, FAULT_2);
    assert_eq!(locked.refusal(key(post)), expected, "{rank}");
}

/// A reversal ordered as soon as the train lets it. Every signalled post waits until the train
/// is out of its part; every other sets with the train still ahead of it.
#[test]
fn a_reversal_behind_a_train() {
    let mut without_signals_behind_a_train = 0;
    for mut line in every_line(MATERIALISED) {
        line.move_train(0, TRAIN);
        let mut train_in = 0;
        while in_part(&line, 0, Some(train_in)) {
            train_in += 1;
            line.move_train(train_in, TRAIN);
        }
        let word = match line.section.tracks[usize::from(line.track)].direction {
            VNS => SAID_CVT,
            _ => SAID_VNS,
        };
        line.accept_at(0, order);
        for rank in 0..line.last_rank() {
            while in_part(&line, rank, Some(train_in)) {
                check_set_and_key(&line, rank, 13);
                train_in += 1;
                line.move_train(train_in, TRAIN);
            }
            assert_eq!(line.accept_at(rank, set), SAID_NOTHING);
            assert_eq!(line.accept_at(rank, announce), word);
            line.accept_at(rank + 1, acknowledge);
            let on_track = train_in < line.last_rank();
            let without_signals = on_track && !line.signalled(rank);
            without_signals_behind_a_train += usize::from(without_signals);
        }
        line.accept_at(line.last_rank(), set);
        let kept = &line.section.tracks[usize::from(line.track)];
        assert!(!kept.reversal_under_way() && kept.trains == [0; 15]);
    }
    // By SOME_POSTS: post 1 of the parts 0-2, 2-3 and 3-6, posts 1 and 2 the other way.
    assert_eq!(without_signals_behind_a_train, 2 * (1 + 2));
}

// Trains.

/// "Pass keeps its check of the stretch", and so does start.
#[test]
fn start_and_pass_keep_their_check_of_the_stretch() {
    let mut inside_a_part = 0;
    for line in every_line(MATERIALISED) {
        let vns = line.section.tracks[usize::from(line.track)].direction == VNS;
        for rank in 0..line.last_rank() {
            for train in rank..line.last_rank() {
                let line = line.with_train_in(train);
                let expected = match (vns, line.signalled(rank)) {
                    (true, _) => train == rank,
                    (false, true) => in_part(&line, rank, Some(train)),
                    (false, false) => false,
                };
                assert_eq!(refusal_of_entry(&line, rank), if expected { 13 } else { 0 });
                let in_part = in_part(&line, rank, Some(train));
                inside_a_part += usize::from(in_part && !expected);
            }
        }
    }
    assert!(inside_a_part > 0, "no train followed another in a part");
}

/// The refusal of another train's start or pass onto the block section of this rank.
fn refusal_of_entry(line: &Line, rank: u8) -> u8 {
    let post = line.post(rank);
    if rank == 0 {
        return line.refusal(start(post, ANOTHER));
    }
    let mut line = *line;
    let before = line.way.before(post).unwrap();
    line.section.tracks[usize::from(line.track)].trains[before] = ANOTHER;
    line.refusal(pass(post, ANOTHER))
}

// Fault 1.

#[test]
fn fault_1_stops_set_and_key_where_a_part_is_commanded() {
    for line in every_line(MATERIALISED) {
        for rank in line.ranks() {
            let post = line.post(rank);
            let expected = if commands(&line, rank) { 18 } else { 0 };
            let line = line.with_turn_at(rank);
            for (faults, step) in [(FAULT_1, set(post)), (FAULT_1 | FAULT_2, key(post))] {
                let faulty = line.with_faults(rank, faults);
                assert_eq!(faulty.refusal(step), expected, "{rank}");
                assert_eq!(faulty.with_mark(rank).refusal(step), 0);
            }
        }
        let faulty = line.with_faults(0, FAULT_1);
        assert_eq!(faulty.refusal(start(line.post(0), TRAIN)), 18);
    }
}

/// It is still declared and taken back there as anywhere.
#[test]
fn fault_1_stands_at_a_post_without_signals() {
    let mut line = Line::settled(MATERIALISED, ENDS_ONLY, A, VNS);
    let on = Step::FaultOn { post: 1, fault: 1 };
    let off = Step::FaultOff { post: 1, fault: 1 };
    assert_eq!(line.refusal(off), 21);
    line.accept(on);
    assert_eq!(line.section.tracks[0].posts[1].faults, FAULT_1);
    assert_eq!(line.refusal(on), 21);
    line.accept(order(0));
    line.accept(set(0));
    line.hand_on(0);
    line.accept(set(1));
    assert_eq!(line.section.tracks[0].posts[1].faults, FAULT_1);
    line.accept(off);
}

// Release.

/// Every hindrance there is, in the order of the row: 15, 12, 21, 13, 17.
#[test]
fn release_at_every_post() {
    for line in every_line(MATERIALISED) {
        for rank in line.ranks() {
            let step = release(line.post(rank), ANOTHER);
            let elsewhere = (rank + 1) % line.section.settings.n;
            assert_eq!(line.with_turn_at(elsewhere).refusal(step), 15);
            for (train, line) in line.with_turn_at(rank).with_every_train() {
                let faulty = line.with_faults(rank, FAULT_1);
                let with_other_last = enter_as_last(&faulty, rank, TRAIN);
                let with_last = enter_as_last(&faulty, rank, ANOTHER);
                if !commands(&line, rank) {
                    assert_eq!(line.refusal(step), 12);
                    assert_eq!(faulty.refusal(step), 12);
                    assert_eq!(with_last.refusal(step), 12);
                } else if in_part(&line, rank, train) {
                    assert_eq!(line.refusal(step), 21);
                    assert_eq!(with_other_last.refusal(step), 13);
                    assert_eq!(with_last.refusal(step), 13);
                } else {
                    assert_eq!(line.refusal(step), 21);
                    assert_eq!(with_other_last.refusal(step), 17);
                    assert_eq!(with_last.refusal(step), 0);
                }
            }
        }
    }
}

/// Without a reversal only the sending end is in turn; 15 comes before 12.
#[test]
fn release_without_a_reversal() {
    for line in every_line(MATERIALISED) {
        for (train, line) in line.with_every_train() {
            for rank in line.ranks() {
                let faulty = line.with_faults(rank, FAULT_1);
                let expected = match rank {
                    0 if in_part(&line, 0, train) => 13,
                    0 => 0,
                    _ => 15,
                };
                assert_eq!(faulty.refusal(release(line.post(rank), 0)), expected);
            }
        }
    }
}

/// The number is still that of the block section ahead, not of the rest of the part.
fn enter_as_last(line: &Line, rank: u8, train: u16) -> Line {
    let mut line = *line;
    let last = &mut line.section.tracks[usize::from(line.track)].last;
    last.fill(7);
    if let Some(ahead) = line.way.ahead(line.way.rank(rank)) {
        last[ahead] = train;
    }
    line
}

// TRONÇON.

#[test]
fn troncon_shows_the_part() {
    for line in every_line(MATERIALISED) {
        for (train, line) in line.with_every_train() {
            for rank in line.ranks() {
                let faulty = line.with_faults(rank, FAULT_1);
                let (plain, under_fault_1) = match commands(&line, rank) {
                    false => (NO_LAMP, NO_LAMP),
                    true if in_part(&line, rank, train) => (RED, RED),
                    true => (WHITE, RED),
                };
                assert_eq!(line.troncon(rank), plain);
                assert_eq!(faulty.troncon(rank), under_fault_1);
            }
        }
    }
}

/// "Ahead" follows the old direction until the last set.
#[test]
fn troncon_in_a_reversal() {
    for mut line in every_line(MATERIALISED) {
        let shown = |line: &Line| line.ranks().map(|r| line.troncon(r)).collect::<Vec<_>>();
        let before = shown(&line);
        line.accept_at(0, order);
        for rank in 0..line.last_rank() {
            line.accept_at(rank, set);
            line.hand_on(rank);
            assert_eq!(shown(&line), before);
        }
        line.accept_at(line.last_rank(), set);
        let other_way = Line::of(line.section, line.track);
        assert_eq!(other_way.troncon(0), WHITE);
        assert_eq!(other_way.troncon(line.last_rank()), NO_LAMP);
        for rank in 1..line.last_rank() {
            let expected = if line.signalled(rank) { WHITE } else { NO_LAMP };
            assert_eq!(line.troncon(rank), expected);
        }
    }
}

// Telephone lines.

/// Posts without signals watch the block section ahead, and signalled ones no more than that.
#[test]
fn telephone_lines_keep_the_earlier_rule() {
    for line in every_line(TELEPHONE) {
        for rank in 0..line.last_rank() {
            let post = line.post(rank);
            let turn = line.with_turn_at(rank);
            for (train, turn) in turn.with_every_train() {
                let ahead = train == Some(rank);
                check_set_and_key(&turn, rank, if ahead { 13 } else { 0 });
                let faulty = turn.with_faults(rank, FAULT_1);
                let (of_release, of_set) = if ahead { (13, 13) } else { (0, 18) };
                assert_eq!(faulty.refusal(release(post, 0)), of_release);
                assert_eq!(faulty.refusal(set(post)), of_set);
                assert_eq!(turn.troncon(rank), if ahead { RED } else { WHITE });
                assert_eq!(faulty.troncon(rank), RED);
            }
        }
        for (train, line) in line.with_every_train() {
            let expected = if train.is_some() { 13 } else { 0 };
            assert_eq!(line.refusal(order(line.post(0))), expected);
        }
    }
}

// Every state against the rules written out once more.

/// The block sections that a post watches, nearest first: none for a post without a lamp.
type Watched = fn(&Section, track: u8, post: u8) -> Vec<usize>;

/// Document 01: "one in the block section ahead (the last post has none)".
fn earlier_rule(section: &Section, track: u8, post: u8) -> Vec<usize> {
    let direction = section.tracks[usize::from(track)].direction;
    let upward = track == direction;
    match upward {
        true if post + 1 < section.settings.n => vec![usize::from(post)],
        false if post > 0 => vec![usize::from(post) - 1],
        _ => vec![],
    }
}

/// Request 3 of document 02, which for telephone lines is the earlier rule.
fn rule_of_request_3(section: &Section, track: u8, post: u8) -> Vec<usize> {
    let settings = &section.settings;
    let signalled = |post: u8| settings.mask & 1 << post != 0;
    if settings.form == TELEPHONE {
        return earlier_rule(section, track, post);
    }
    let mut watched = Vec::new();
    let mut at = post;
    while signalled(post) && (at == post || !signalled(at)) {
        let Some(&ahead) = earlier_rule(section, track, at).first() else {
            break;
        };
        watched.push(ahead);
        at = if ahead == usize::from(at) {
            at + 1
        } else {
            at - 1
        };
    }
    watched
}

/// The rows of order, set, release and key; `None` for other kinds.
fn expected_refusal(section: &Section, track: u8, step: Step, watched: Watched) -> Option<u8> {
    let kept = &section.tracks[usize::from(track)];
    let other = &section.tracks[usize::from(1 - track)];
    let sending_end = if track == kept.direction {
        0
    } else {
        section.settings.n - 1
    };
    let row: Vec<(bool, u8)> = match step {
        Step::Order { post } => vec![
            (kept.act != NO_REVERSAL, 11),
            (post != sending_end, 12),
            (
                kept.direction == VNS && (other.act != NO_REVERSAL || other.direction == CVT),
                14,
            ),
            (order_occupied(section, track, post, watched), 13),
        ],
        Step::Set { post } => {
            let record = &kept.posts[usize::from(post)];
            let mut row = turning(section, track, post, watched);
            row.push((record.faults & FAULT_2 != 0, 19));
            row
        }
        Step::Key { post } => {
            let record = &kept.posts[usize::from(post)];
            let mut row = turning(section, track, post, watched);
            row.insert(1, (record.faults & FAULT_2 == 0, 21));
            row.push((record.seals == 999, 20));
            row
        }
        Step::Release { post, train } => {
            let in_turn = match kept.act {
                NO_REVERSAL => post == sending_end,
                act => act == SET && kept.turn == post,
            };
            let part = watched(section, track, post);
            let ahead = part.first().copied();
            vec![
                (!in_turn, 15),
                (part.is_empty(), 12),
                (kept.posts[usize::from(post)].faults & FAULT_1 == 0, 21),
                (part.iter().any(|&i| kept.trains[i] != 0), 13),
                (ahead.is_some_and(|i| kept.last[i] != train), 17),
            ]
        }
        _ => return None,
    };
    let refusal = row.iter().find(|(hindered, _)| *hindered);
    Some(refusal.map_or(0, |&(_, refusal)| refusal))
}

/// 15, 13, 18 and 16 of set and key.
fn turning(section: &Section, track: u8, post: u8, watched: Watched) -> Vec<(bool, u8)> {
    let kept = &section.tracks[usize::from(track)];
    let record = &kept.posts[usize::from(post)];
    let part = watched(section, track, post);
    vec![
        (kept.act != SET || kept.turn != post, 15),
        (part.iter().any(|&i| kept.trains[i] != 0), 13),
        (
            !part.is_empty() && record.faults & FAULT_1 != 0 && record.mark == 0,
            18,
        ),
        (kept.direction == VNS && record.measures == 0, 16),
    ]
}

fn order_occupied(section: &Section, track: u8, post: u8, watched: Watched) -> bool {
    let trains = section.trains(usize::from(track));
    match section.settings.form {
        TELEPHONE => trains.iter().any(|&train| train != 0),
        _ => watched(section, track, post)
            .iter()
            .any(|&i| trains[i] != 0),
    }
}

fn expected_troncon(section: &Section, track: u8, post: u8, watched: Watched) -> u8 {
    let kept = &section.tracks[usize::from(track)];
    let part = watched(section, track, post);
    let occupied = part.iter().any(|&i| kept.trains[i] != 0);
    match kept.posts[usize::from(post)].faults & FAULT_1 != 0 || occupied {
        _ if part.is_empty() => NO_LAMP,
        true => RED,
        false => WHITE,
    }
}

/// Refusals and lamps of random states, mostly unreachable, of those settings. How many of them
/// the other rule would have answered otherwise.
fn check_states(seed: u64, of: fn(&Settings) -> bool, rule: Watched, other: Watched) -> [usize; 2] {
    let mut rng = Rng::new(seed);
    let mut otherwise = [0; 2];
    for _ in 0..30_000 {
        let section = generate::random_in_range_section(&mut rng);
        if !of(&section.settings) {
            continue;
        }
        for _ in 0..6 {
            let bytes = generate::sensible_step(&mut rng, &section);
            let (track, step) = decode(&bytes, section.settings.n).unwrap();
            let Some(refusal) = expected_refusal(&section, track, step, rule) else {
                continue;
            };
            assert_eq!(judge(&section, &bytes).refusal, refusal, "{step:?}");
            let differs = expected_refusal(&section, track, step, other) != Some(refusal);
            otherwise[0] += usize::from(differs);
        }
        for track in [A, B] {
            for post in 0..section.settings.n {
                let shown = indications(&section, track, post).1;
                assert_eq!(shown, expected_troncon(&section, track, post, rule));
                let differs = shown != expected_troncon(&section, track, post, other);
                otherwise[1] += usize::from(differs);
            }
        }
    }
    otherwise
}

#[test]
fn telephone_states_by_the_earlier_rule() {
    let telephone = |settings: &Settings| settings.form == TELEPHONE;
    let as_if_materialised: Watched = |section, track, post| {
        let mut section = *section;
        section.settings.form = MATERIALISED;
        rule_of_request_3(&section, track, post)
    };
    let otherwise = check_states(31, telephone, earlier_rule, as_if_materialised);
    println!("refusals, lamps that a materialised line would give otherwise: {otherwise:?}");
    assert!(otherwise.iter().all(|&count| count > 0));
}

#[test]
fn materialised_states_by_the_new_rule() {
    let materialised = |settings: &Settings| settings.form == MATERIALISED;
    let otherwise = check_states(32, materialised, rule_of_request_3, earlier_rule);
    println!("refusals, lamps that the earlier rule would give otherwise: {otherwise:?}");
    assert!(otherwise.iter().all(|&count| count > 0));
}

/// There a part is one block section.
#[test]
fn with_every_post_signalled_nothing_changes() {
    let every_post = |settings: &Settings| {
        settings.form == MATERIALISED && settings.mask.count_ones() == u32::from(settings.n)
    };
    let otherwise = check_states(33, every_post, earlier_rule, rule_of_request_3);
    assert_eq!(otherwise, [0, 0]);
}

// The reply "Voie occupée".

/// "For an announcement by such a post, the signalled post before has seen the section free in
/// its stead, and it still is": at every announcement of a random day the announcer's block
/// section ahead, the rest of its part and all before it are free.
#[test]
fn voie_occupee_is_never_said() {
    let mut rng = Rng::new(34);
    // Announcements with trains still on the track: by signalled posts, by the others.
    let mut behind_trains = [0; 2];
    for _ in 0..3_000 {
        let settings = generate::random_settings(&mut rng);
        let mut section = Section::fresh(settings);
        for _ in 0..40 * usize::from(settings.n) {
            let step = match rng.chance(1, 2) {
                true => generate::sensible_step(&mut rng, &section),
                false => {
                    let track = rng.flag();
                    generate::furthering_step(&mut rng, &section, track)
                }
            };
            section = judge(&section, &step).section;
            for track in [A, B] {
                check_announcement(&section, track, &mut behind_trains);
            }
        }
    }
    println!("announcements due behind trains, by signalled posts and others: {behind_trains:?}");
    assert!(behind_trains.iter().all(|&count| count > 0));
}

fn check_announcement(section: &Section, track: u8, behind_trains: &mut [usize; 2]) {
    let kept = &section.tracks[usize::from(track)];
    if kept.act != ANNOUNCE {
        return;
    }
    let line = Line::of(*section, track);
    let rank = line.way.rank(kept.turn);
    let end_of_part = (rank + 1..=line.last_rank())
        .find(|&next| line.signalled(next))
        .unwrap();
    let free_up_to = match section.settings.form {
        TELEPHONE => line.last_rank(),
        _ => end_of_part,
    };
    for rank in 0..free_up_to {
        let block_section = line.way.ahead(line.post(rank)).unwrap();
        assert_eq!(kept.trains[block_section], 0, "{section:?}");
    }
    let trains = section.trains(usize::from(track));
    if trains.iter().any(|&train| train != 0) {
        behind_trains[usize::from(!line.signalled(rank))] += 1;
    }
}
