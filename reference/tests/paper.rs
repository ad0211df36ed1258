//! The worked listing, the ten marked instances and other sentences of document 01.

use reference::dayfile::{self, Refusal, GREATEST_LENGTH};
use reference::engine::{judge, Answer};
use reference::generate::{self, Rng};
use reference::indications::indications;
use reference::listing::{listing, panel};
use reference::section::Section;
use reference::settings::{Settings, NO_CROSSINGS};
use reference::step::{decode, encode, leave, pass, release, start, Step};

const A: u8 = 0;
const B: u8 = 1;

fn settings(n: u8, form: u8, mask: u16) -> Settings {
    Settings {
        n,
        form,
        mask,
        line: 1,
        crossings: NO_CROSSINGS,
    }
}

fn two_posts() -> Settings {
    settings(2, 0, 3)
}

fn offer(section: &Section, track: u8, step: Step) -> Answer {
    judge(section, &encode(track, &step))
}

fn accept(section: &mut Section, track: u8, step: Step) -> u8 {
    let answer = offer(section, track, step);
    assert_eq!(answer.refusal, 0, "{step:?}");
    *section = answer.section;
    answer.said
}

fn refusal(section: &Section, track: u8, step: Step) -> u8 {
    let answer = offer(section, track, step);
    assert_eq!((answer.said, answer.section), (0, *section));
    answer.refusal
}

fn worked_day() -> Vec<u8> {
    let steps = [
        encode(A, &Step::MeasuresOn { post: 0 }),
        encode(A, &Step::MeasuresOn { post: 1 }),
        encode(A, &Step::Order { post: 0 }),
        encode(A, &Step::Set { post: 0 }),
        encode(A, &Step::Announce { post: 0 }),
        encode(A, &Step::Acknowledge { post: 1 }),
        encode(A, &Step::Set { post: 1 }),
        encode(B, &Step::Order { post: 1 }),
        encode(A, &start(1, 2417)),
        encode(A, &leave(0, 2417)),
    ];
    dayfile::file_of(&two_posts(), &steps.concat()).unwrap()
}

#[test]
fn worked_listing() {
    let expected = "posts 2 steps 10\n\
        0 0 - V V\n1 0 - V V\n2 0 - c V\n3 0 - c V\n4 0 CVT c V\n5 0 CVTz c V\n\
        6 0 - C V\n7 14 - C V\n8 0 - C V\n9 0 - C V\n";
    assert_eq!(String::from_utf8(listing(&worked_day())).unwrap(), expected);
}

#[test]
fn worked_panel() {
    let expected = "posts 2 steps 10\n\
        0 A 1/1/1 1/0/0\n1 A 1/1/1 1/0/0\n2 A 1/1/0 1/0/0\n3 A 2/1/0 1/0/0\n\
        4 A 2/1/0 1/0/0\n5 A 2/1/0 1/0/0\n6 A 2/0/0 2/1/1\n7 B 1/0/0 1/1/1\n\
        8 A 2/0/0 2/2/1\n9 A 2/0/0 2/1/1\n";
    assert_eq!(String::from_utf8(panel(&worked_day())).unwrap(), expected);
}

#[test]
fn instance_1_empty_file() {
    assert_eq!(
        dayfile::read(&[]),
        Err(Refusal {
            number: 1,
            index: 0
        })
    );
    assert_eq!(listing(&[]), b"refused 1 0\n");
    assert_eq!(panel(&[]), b"refused 1 0\n");
}

const LEAST_FILE: [u8; 24] = [
    2, 0, 3, 0, 1, 0, 0, 0, b'B', b'S', b'R', b'1', 24, 0, 0, 0, 24, 0, 0, 0, 0, 0, 0, 0,
];

#[test]
fn instance_2_least_file() {
    let day = dayfile::read(&LEAST_FILE).unwrap();
    assert_eq!(
        (day.settings, day.count, day.steps),
        (two_posts(), 0, &[][..])
    );
    assert_eq!(listing(&LEAST_FILE), b"posts 2 steps 0\n");
}

#[test]
fn instance_3_seventeen_posts() {
    let mut file = LEAST_FILE;
    file[0] = 17;
    assert_eq!(
        dayfile::read(&file),
        Err(Refusal {
            number: 3,
            index: 0
        })
    );
}

#[test]
fn instance_4_train_numbers() {
    let fresh = Section::fresh(two_posts());
    assert_eq!(offer(&fresh, A, start(0, 59_999)).refusal, 0);
    assert_eq!(refusal(&fresh, A, start(0, 60_000)), 4);
}

#[test]
fn instances_5_and_6_second_start() {
    let mut section = Section::fresh(settings(3, 0, 7));
    accept(&mut section, A, start(0, 5));
    assert_eq!(refusal(&section, A, start(0, 6)), 13);
    assert_eq!(refusal(&section, A, start(0, 5)), 17);
}

#[test]
fn instance_7_order_by_post_1() {
    let fresh = Section::fresh(two_posts());
    assert_eq!(refusal(&fresh, A, Step::Order { post: 1 }), 12);
    assert_eq!(offer(&fresh, B, Step::Order { post: 1 }).refusal, 0);
}

#[test]
fn instance_8_set_without_measures() {
    let mut section = Section::fresh(two_posts());
    accept(&mut section, A, Step::Order { post: 0 });
    assert_eq!(refusal(&section, A, Step::Set { post: 0 }), 16);
}

#[test]
fn instance_9_train_in_block_section_1() {
    for (form, expected) in [(0, 13), (1, 0)] {
        let mut section = Section::fresh(settings(3, form, 7));
        accept(&mut section, A, start(0, 5));
        accept(&mut section, A, pass(1, 5));
        assert_eq!(section.tracks[0].trains[..2], [0, 5]);
        assert_eq!(
            offer(&section, A, Step::Order { post: 0 }).refusal,
            expected
        );
    }
}

#[test]
fn instance_10_seal_count() {
    for (seals, expected) in [(998, 0), (999, 20)] {
        let mut section = Section::fresh(two_posts());
        section.tracks[0].posts[0].seals = seals;
        accept(&mut section, A, Step::MeasuresOn { post: 0 });
        accept(&mut section, A, Step::FaultOn { post: 0, fault: 2 });
        accept(&mut section, A, Step::Order { post: 0 });
        assert_eq!(refusal(&section, A, Step::Set { post: 0 }), 19);
        let answer = offer(&section, A, Step::Key { post: 0 });
        assert_eq!(answer.refusal, expected);
        assert_eq!(answer.section.tracks[0].posts[0].seals, 999);
        assert_eq!(answer.section.tracks[0].posts[0].faults, 2);
    }
}

#[test]
fn permission_comes_with_the_last_set() {
    let mut section = Section::fresh(two_posts());
    for post in [0, 1] {
        accept(&mut section, B, Step::MeasuresOn { post });
    }
    accept(&mut section, B, Step::Order { post: 1 });
    accept(&mut section, B, Step::Set { post: 1 });
    assert_eq!(accept(&mut section, B, Step::Announce { post: 1 }), 1);
    assert_eq!(accept(&mut section, B, Step::Acknowledge { post: 0 }), 2);
    assert_eq!(indications(&section, B, 0).2, 0);
    accept(&mut section, B, Step::Set { post: 0 });
    assert_eq!(indications(&section, B, 0).2, 1);
    assert_eq!(refusal(&section, B, Step::MeasuresOff { post: 0 }), 16);
    accept(&mut section, B, Step::Order { post: 0 });
    accept(&mut section, B, Step::Set { post: 0 });
    assert_eq!(accept(&mut section, B, Step::Announce { post: 0 }), 3);
    assert_eq!(accept(&mut section, B, Step::Acknowledge { post: 1 }), 4);
    accept(&mut section, B, Step::Set { post: 1 });
    for post in [0, 1] {
        accept(&mut section, B, Step::MeasuresOff { post });
    }
    assert_eq!(section, Section::fresh(two_posts()));
}

#[test]
fn fault_1_needs_release() {
    let mut section = Section::fresh(two_posts());
    accept(&mut section, A, Step::FaultOn { post: 0, fault: 1 });
    assert_eq!(refusal(&section, A, start(0, 7)), 18);
    assert_eq!(refusal(&section, A, release(0, 1)), 17);
    assert_eq!(refusal(&section, A, release(1, 0)), 15);
    accept(&mut section, A, release(0, 0));
    accept(&mut section, A, release(0, 0));
    accept(&mut section, A, start(0, 7));
    assert_eq!(refusal(&section, A, release(0, 7)), 13);
    accept(&mut section, A, leave(1, 7));
    accept(&mut section, A, Step::MeasuresOn { post: 0 });
    accept(&mut section, A, Step::FaultOn { post: 0, fault: 2 });
    accept(&mut section, A, Step::Order { post: 0 });
    assert_eq!(refusal(&section, A, Step::Key { post: 0 }), 18);
    assert_eq!(refusal(&section, A, Step::Set { post: 0 }), 18);
    accept(&mut section, A, release(0, 7));
    accept(&mut section, A, Step::Key { post: 0 });
    assert_eq!(section.tracks[0].posts[0].mark, 0);
    accept(&mut section, A, Step::Announce { post: 0 });
    accept(&mut section, A, Step::FaultOn { post: 1, fault: 1 });
    assert_eq!(refusal(&section, A, release(1, 0)), 15);
    accept(&mut section, A, Step::Acknowledge { post: 1 });
    assert_eq!(refusal(&section, A, release(1, 0)), 12);
    accept(&mut section, A, Step::MeasuresOn { post: 1 });
    accept(&mut section, A, Step::Set { post: 1 });
}

#[test]
fn counter_direction_stretch() {
    let mut section = Section::fresh(settings(4, 0, 0b1001));
    section.tracks[0].direction = 1;
    accept(&mut section, A, start(3, 1));
    accept(&mut section, A, pass(2, 1));
    assert_eq!(refusal(&section, A, start(3, 2)), 13);
    accept(&mut section, A, pass(1, 1));
    assert_eq!(refusal(&section, A, start(3, 2)), 13);
    assert_eq!(refusal(&section, A, pass(0, 1)), 12);
    accept(&mut section, A, leave(0, 1));
    accept(&mut section, A, start(3, 2));
}

#[test]
fn flashing_where_the_post_before_has_set() {
    let mut section = Section::fresh(settings(3, 1, 7));
    let shown = |section: &Section| [0, 1, 2].map(|post| indications(section, A, post).0);
    for post in 0..3 {
        accept(&mut section, A, Step::MeasuresOn { post });
    }
    accept(&mut section, A, Step::Order { post: 0 });
    assert_eq!(shown(&section), [1, 1, 1]);
    accept(&mut section, A, Step::Set { post: 0 });
    assert_eq!(shown(&section), [2, 4, 1]);
    accept(&mut section, A, Step::Announce { post: 0 });
    assert_eq!(shown(&section), [2, 4, 1]);
    accept(&mut section, A, Step::Acknowledge { post: 1 });
    assert_eq!(shown(&section), [2, 4, 1]);
    accept(&mut section, A, Step::Set { post: 1 });
    assert_eq!(shown(&section), [2, 2, 4]);
    accept(&mut section, A, Step::FaultOn { post: 2, fault: 3 });
    assert_eq!(shown(&section), [2, 2, 0]);
    assert_eq!(indications(&section, 2, 0), (0, 0, 0));
    assert_eq!(indications(&section, A, 3), (0, 0, 0));
    section.tracks[1].posts[2].seals = 1_000;
    assert_eq!(indications(&section, A, 0), (0, 0, 0));
}

#[test]
fn reader_refusals_in_order() {
    let read = |file: &[u8]| {
        dayfile::read(file)
            .map(|_| ())
            .map_err(|r| (r.number, r.index))
    };
    let worked = worked_day();
    assert!(read(&worked).is_ok());
    for length in [0, 8, 16, 23, 25, 31, worked.len() - 1] {
        assert_eq!(read(&worked[..length]), Err((1, 0)));
    }
    for place in worked.len() - 16..worked.len() {
        let mut file = worked.clone();
        file[place] ^= 1;
        file[worked.len() - 24] = 1;
        assert_eq!(read(&file), Err((2, 0)));
    }
    let mut file = worked.clone();
    file[16] = 0;
    file[8] = 99;
    assert_eq!(read(&file), Err((4, 1)));
    file[worked.len() - 17] = 1;
    assert_eq!(read(&file), Err((3, 0)));
    assert_eq!(read(&vec![0; GREATEST_LENGTH]), Err((2, 0)));
    assert_eq!(read(&vec![0; GREATEST_LENGTH + 8]), Err((1, 0)));
}

#[test]
fn writer_refusals_in_order() {
    let good = encode(A, &Step::Order { post: 0 });
    let bad_settings = settings(2, 0, 1);
    let write = |settings: &Settings, steps: &[u8], room: usize| {
        let mut buffer = vec![0xa5; room];
        let outcome = dayfile::write(settings, steps, &mut buffer);
        let written = outcome.unwrap_or(0);
        assert!(buffer[written..].iter().all(|&byte| byte == 0xa5));
        outcome.map_err(|r| (r.number, r.index))
    };
    assert_eq!(write(&bad_settings, &[1], 0), Err((3, 0)));
    assert_eq!(write(&two_posts(), &good[..7], 0), Err((4, 0)));
    assert_eq!(
        write(&two_posts(), &[&good[..], &good[..1]].concat(), 0),
        Err((4, 1))
    );
    assert_eq!(write(&two_posts(), &good, 31), Err((5, 0)));
    assert_eq!(write(&two_posts(), &good, 32), Ok(32));
    assert_eq!(write(&two_posts(), &good, 40), Ok(32));
    assert_eq!(write(&two_posts(), &good.repeat(4_096), 40_000), Ok(32_792));
    assert_eq!(
        write(&two_posts(), &good.repeat(4_097), 40_000),
        Err((5, 0))
    );
    let mut past = good.repeat(5_000);
    past.push(1);
    assert_eq!(write(&two_posts(), &past, 50_000), Err((4, 5_000)));
    past[8 * 4_999] = 0;
    assert_eq!(write(&two_posts(), &past, 50_000), Err((4, 4_999)));
}

#[test]
fn round_trips_both_ways() {
    let mut rng = Rng::new(11);
    let mut still_read = 0;
    for round in 0..2_000 {
        let mut file = generate::random_day(&mut rng, round % 60);
        check_round_trip(&file);
        generate::damage(&mut rng, &mut file);
        if dayfile::read(&file).is_ok() {
            still_read += 1;
            check_round_trip(&file);
        }
    }
    println!("damaged files still read: {still_read} of 2000");
    assert!(still_read > 0, "every damaged file was refused");
}

/// File to day to file, and settings and steps to file and back.
fn check_round_trip(file: &[u8]) {
    let day = dayfile::read(file).unwrap();
    assert_eq!(day.steps.as_ptr(), file.as_ptr());
    assert_eq!(day.steps.len(), day.count * 8);
    let mut buffer = vec![0x5a; file.len() + 3];
    assert_eq!(
        dayfile::write(&day.settings, day.steps, &mut buffer),
        Ok(file.len())
    );
    assert_eq!(&buffer[..file.len()], file);
    assert_eq!(&buffer[file.len()..], [0x5a; 3]);
    assert_eq!(dayfile::read(&buffer[..file.len()]), Ok(day));
    for bytes in day.steps.chunks(8) {
        let (track, step) = decode(bytes, day.settings.n).unwrap();
        assert_eq!(encode(track, &step), bytes);
    }
}
