//! Sentences of request 6 of document 02, "The lamp table as a constant", and of "What a post
//! shows" of document 01.

use reference::dayfile;
use reference::engine::judge_in_place;
use reference::generate::{self, Rng};
use reference::indications::indications;
use reference::lamps::{entry, index, table, taken_apart};
use reference::section::{Section, Track};
use reference::settings::{Settings, MATERIALISED, NO_CROSSINGS, TELEPHONE};
use reference::step::{encode, pass, start, Step};
use std::collections::BTreeSet;
use std::process::Command;

const A: u8 = 0;
const B: u8 = 1;

/// What the eight bits of an index say.
#[derive(Clone, Copy, Debug)]
struct Bits {
    materialised: bool,
    device_cvt: bool,
    previous_set_and_this_not: bool,
    fault_1: bool,
    fault_3: bool,
    part_occupied: bool,
    commands_part: bool,
    permission: bool,
}

impl Bits {
    /// "the index adds 1 for materialised, 2 for device CVT, 4 ..."
    fn index(&self) -> u8 {
        let mut index = 0;
        if self.materialised {
            index += 1;
        }
        if self.device_cvt {
            index += 2;
        }
        if self.previous_set_and_this_not {
            index += 4;
        }
        if self.fault_1 {
            index += 8;
        }
        if self.fault_3 {
            index += 16;
        }
        if self.part_occupied {
            index += 32;
        }
        if self.commands_part {
            index += 64;
        }
        if self.permission {
            index += 128;
        }
        index
    }

    /// "0 dark (fault 3), else 3 VNS or 4 CVT flashing, the direction its device does not stand
    /// at, in the materialised form when the post before has set in this reversal and this one
    /// hasn't, else 1 VNS or 2 CVT as the device stands."
    fn circulation(&self) -> u8 {
        if self.fault_3 {
            return 0;
        }
        if self.materialised && self.previous_set_and_this_not {
            return if self.device_cvt { 3 } else { 4 };
        }
        if self.device_cvt {
            2
        } else {
            1
        }
    }

    /// "0 none at the receiving end; else 2 red if fault 1 or the block section ahead holds a
    /// train; else 1 white", by parts since request 3.
    fn troncon(&self) -> u8 {
        match (self.commands_part, self.fault_1 || self.part_occupied) {
            (false, _) => 0,
            (true, true) => 2,
            (true, false) => 1,
        }
    }

    fn shown(&self) -> (u8, u8, u8) {
        (
            self.circulation(),
            self.troncon(),
            u8::from(self.permission),
        )
    }
}

fn all_bits() -> Vec<Bits> {
    let both = [false, true];
    let mut all = Vec::new();
    for permission in both {
        for commands_part in both {
            for part_occupied in both {
                for fault_3 in both {
                    for fault_1 in both {
                        for previous_set_and_this_not in both {
                            for device_cvt in both {
                                for materialised in both {
                                    all.push(Bits {
                                        materialised,
                                        device_cvt,
                                        previous_set_and_this_not,
                                        fault_1,
                                        fault_3,
                                        part_occupied,
                                        commands_part,
                                        permission,
                                    });
                                }
                            }
                        }
                    }
                }
            }
        }
    }
    all
}

// The entries.

#[test]
fn every_entry_by_the_sentences() {
    let all = all_bits();
    assert_eq!(all.len(), 256);
    for (place, bits) in all.iter().enumerate() {
        assert_eq!(usize::from(bits.index()), place);
        let (circulation, troncon, permission) = bits.shown();
        let expected = circulation + 5 * troncon + 15 * permission;
        assert_eq!(entry(bits.index()), expected, "{bits:?}");
        assert_eq!(taken_apart(expected), bits.shown(), "{bits:?}");
    }
}

/// Reckoned by hand.
#[test]
fn some_entries_by_hand() {
    for (index, expected) in [
        (0, 1),
        (1, 1),
        (2, 2),
        (3, 2),
        (4, 1),
        (5, 4),
        (6, 2),
        (7, 3),
        (8, 1),
        (16, 0),
        (21, 0),
        (32, 1),
        (40, 1),
        (64, 6),
        (72, 11),
        (80, 5),
        (96, 11),
        (104, 11),
        (128, 16),
        (192, 21),
        (193, 21),
        (194, 22),
        (197, 24),
        (199, 23),
        (224, 26),
        (237, 29),
        (239, 28),
        (255, 25),
    ] {
        assert_eq!(entry(index), expected, "{index}");
    }
}

#[test]
fn table_holds_the_entries_in_order() {
    let table = table();
    for index in 0..=255u8 {
        assert_eq!(table[usize::from(index)], entry(index));
    }
}

/// How often each lamp is in the table.
#[test]
fn counts_of_the_table() {
    let count = |holds: fn((u8, u8, u8)) -> bool| {
        let entries = table().map(taken_apart);
        entries.into_iter().filter(|&shown| holds(shown)).count()
    };
    // Half of all has fault 3; an eighth of all flashes, each direction half of it.
    assert_eq!(count(|shown| shown.0 == 0), 128);
    assert_eq!(count(|shown| shown.0 == 1), 48);
    assert_eq!(count(|shown| shown.0 == 2), 48);
    assert_eq!(count(|shown| shown.0 == 3), 16);
    assert_eq!(count(|shown| shown.0 == 4), 16);
    // Half commands no part; of the rest a quarter is free and without fault 1.
    assert_eq!(count(|shown| shown.1 == 0), 128);
    assert_eq!(count(|shown| shown.1 == 1), 32);
    assert_eq!(count(|shown| shown.1 == 2), 96);
    assert_eq!(count(|shown| shown.2 == 1), 128);
    assert_eq!(count(|shown| shown.2 == 0), 128);
    let numbers: BTreeSet<u8> = table().into_iter().collect();
    assert_eq!(numbers, (0..30).collect());
}

#[test]
fn generator_prints_one_decimal_number_a_line() {
    let output = Command::new(env!("CARGO_BIN_EXE_lamps")).output().unwrap();
    assert!(output.status.success());
    let text = String::from_utf8(output.stdout).unwrap();
    let expected: String = all_bits()
        .iter()
        .map(|bits| {
            let (circulation, troncon, permission) = bits.shown();
            format!("{}\n", circulation + 5 * troncon + 15 * permission)
        })
        .collect();
    assert_eq!(text, expected);
    assert_eq!(text.lines().count(), 256);
}

// The index of a post's state.

/// From the fields of the state, by the papers' words.
fn bits_of(section: &Section, track: u8, post: u8) -> Bits {
    let kept = &section.tracks[usize::from(track)];
    let record = &kept.posts[usize::from(post)];
    let settings = &section.settings;
    let upward = (track == A) == (kept.direction == 0);
    let part = part_of(settings, upward, post);
    Bits {
        materialised: settings.form == MATERIALISED,
        device_cvt: record.device == 1,
        previous_set_and_this_not: previous(settings.n, upward, post)
            .is_some_and(|previous| has_set(kept, upward, previous))
            && !has_set(kept, upward, post),
        fault_1: record.faults & 1 != 0,
        fault_3: record.faults & 4 != 0,
        part_occupied: part.iter().any(|&i| kept.trains[i] != 0),
        commands_part: !part.is_empty(),
        permission: record.permission == 1,
    }
}

fn previous(n: u8, upward: bool, post: u8) -> Option<u8> {
    match upward {
        true => post.checked_sub(1),
        false => (post + 1 < n).then_some(post + 1),
    }
}

/// "In a reversal the posts before the turn's post have set, and that post too when its act is
/// announce."
fn has_set(kept: &Track, upward: bool, post: u8) -> bool {
    const NO_REVERSAL: u8 = 0;
    const ANNOUNCE: u8 = 2;
    let before_the_turn = match upward {
        true => post < kept.turn,
        false => post > kept.turn,
    };
    kept.act != NO_REVERSAL && (before_the_turn || post == kept.turn && kept.act == ANNOUNCE)
}

/// The block sections of the part that the post commands; none where it commands no part.
fn part_of(settings: &Settings, upward: bool, post: u8) -> Vec<usize> {
    let signalled = |post: u8| settings.mask & 1 << post != 0;
    let ahead: Vec<u8> = match upward {
        true => (post + 1..settings.n).collect(),
        false => (0..post).rev().collect(),
    };
    if settings.form == MATERIALISED && !signalled(post) {
        return Vec::new();
    }
    let reach = match settings.form {
        TELEPHONE => ahead.len().min(1),
        _ => match ahead.iter().position(|&post| signalled(post)) {
            Some(place) => place + 1,
            None => 0,
        },
    };
    ahead[..reach]
        .iter()
        .map(|&next| usize::from(if upward { next - 1 } else { next }))
        .collect()
}

/// All posts of both tracks; the indexes that were met.
fn check_section(section: &Section, met: &mut BTreeSet<u8>) {
    for track in [A, B] {
        for post in 0..section.settings.n {
            let index = index(section, track, post);
            let bits = bits_of(section, track, post);
            assert_eq!(index, bits.index(), "{track} {post} {section:?}");
            let shown = indications(section, track, post);
            assert_eq!(
                taken_apart(entry(index)),
                shown,
                "{track} {post} {section:?}"
            );
            assert_eq!(shown, bits.shown());
            met.insert(index);
        }
    }
}

/// Over drawn states, telephone and materialised: every index that a post can have is met. A post
/// that commands no part has none that is occupied.
#[test]
fn indications_are_the_entry_at_the_index() {
    let mut rng = Rng::new(61);
    let mut met = BTreeSet::new();
    for _ in 0..20_000 {
        let section = generate::random_in_range_section(&mut rng);
        check_section(&section, &mut met);
    }
    let possible = all_bits()
        .into_iter()
        .filter(|bits| bits.commands_part || !bits.part_occupied)
        .map(|bits| bits.index())
        .collect::<BTreeSet<u8>>();
    assert_eq!(possible.len(), 192);
    assert_eq!(met, possible);
}

/// After every step of drawn days.
#[test]
fn indications_of_reached_states_are_the_entry_at_the_index() {
    let mut rng = Rng::new(62);
    let mut met = BTreeSet::new();
    for _ in 0..200 {
        let file = generate::random_day(&mut rng, 150);
        let day = dayfile::read(&file).unwrap();
        let mut section = Section::fresh(day.settings);
        check_section(&section, &mut met);
        for step in day.steps.chunks(8) {
            judge_in_place(&mut section, step);
            check_section(&section, &mut met);
        }
    }
    let shown: BTreeSet<(u8, u8, u8)> = met.iter().map(|&i| taken_apart(entry(i))).collect();
    for circulation in 0..=4 {
        assert!(shown.iter().any(|shown| shown.0 == circulation));
    }
    // Permission is at the sending end only, which commands a part.
    let others: BTreeSet<(u8, u8)> = shown.iter().map(|shown| (shown.1, shown.2)).collect();
    assert_eq!(
        Vec::from_iter(others),
        [(0, 0), (1, 0), (1, 1), (2, 0), (2, 1)]
    );
}

/// By hand: three posts, ends signalled, on both tracks and by both forms.
#[test]
fn indexes_by_hand() {
    let settings = |form| Settings {
        n: 3,
        form,
        mask: 5,
        line: 1,
        crossings: NO_CROSSINGS,
    };
    let indexes = |section: &Section, track| [0, 1, 2].map(|post| index(section, track, post));
    let accept = |section: &mut Section, track: u8, step: Step| {
        assert_eq!(
            judge_in_place(section, &encode(track, &step)).0,
            0,
            "{step:?}"
        );
    };

    let mut section = Section::fresh(settings(TELEPHONE));
    assert_eq!(indexes(&section, A), [192, 64, 0]);
    assert_eq!(indexes(&section, B), [0, 64, 192]);
    accept(&mut section, B, start(2, 59_999));
    assert_eq!(indexes(&section, B), [0, 64, 224]);
    accept(&mut section, B, pass(1, 59_999));
    assert_eq!(indexes(&section, B), [0, 96, 192]);
    accept(&mut section, B, Step::FaultOn { post: 0, fault: 1 });
    accept(&mut section, B, Step::FaultOn { post: 1, fault: 3 });
    assert_eq!(indexes(&section, B), [8, 112, 192]);
    for post in 0..3 {
        accept(&mut section, A, Step::MeasuresOn { post });
    }
    accept(&mut section, A, Step::Order { post: 0 });
    assert_eq!(indexes(&section, A), [64, 64, 0]);
    accept(&mut section, A, Step::Set { post: 0 });
    assert_eq!(indexes(&section, A), [66, 68, 0]);

    let mut section = Section::fresh(settings(MATERIALISED));
    assert_eq!(indexes(&section, A), [193, 1, 1]);
    accept(&mut section, A, start(0, 1));
    accept(&mut section, A, pass(1, 1));
    assert_eq!(indexes(&section, A), [225, 1, 1]);
    assert_eq!(indexes(&section, B), [1, 1, 193]);
    for post in 0..3 {
        accept(&mut section, B, Step::MeasuresOn { post });
    }
    accept(&mut section, B, Step::Order { post: 2 });
    accept(&mut section, B, Step::Set { post: 2 });
    assert_eq!(indexes(&section, B), [1, 5, 67]);
    accept(&mut section, B, Step::Announce { post: 2 });
    accept(&mut section, B, Step::Acknowledge { post: 1 });
    accept(&mut section, B, Step::Set { post: 1 });
    assert_eq!(indexes(&section, B), [5, 3, 67]);
    accept(&mut section, B, Step::Announce { post: 1 });
    accept(&mut section, B, Step::Acknowledge { post: 0 });
    accept(&mut section, B, Step::Set { post: 0 });
    assert_eq!(indexes(&section, B), [195, 3, 3]);
}
