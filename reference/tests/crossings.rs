//! Sentences of request 1 of document 02, "Level crossings in the settings".

use reference::dayfile::{self, Mark, GREATEST_LENGTH, LEAST_LENGTH};
use reference::engine::{judge, Answer};
use reference::generate::{self, Rng};
use reference::indications::indications;
use reference::listing::listing;
use reference::section::Section;
use reference::settings::{Crossings, Settings, NO_CROSSINGS};
use reference::step::{decode, encode, form, leave, pass, start, Step};

const A: u8 = 0;
const B: u8 = 1;

/// Three posts, telephone, every post signalled.
fn three_posts(used: &[u8]) -> Settings {
    let mut crossings = NO_CROSSINGS;
    crossings[..used.len()].copy_from_slice(used);
    Settings {
        n: 3,
        form: 0,
        mask: 7,
        line: 1,
        crossings,
    }
}

fn offer(section: &Section, track: u8, step: Step) -> Answer {
    judge(section, &encode(track, &step))
}

fn accept(section: &mut Section, track: u8, step: Step) {
    let answer = offer(section, track, step);
    assert_eq!(answer.refusal, 0, "{step:?}");
    *section = answer.section;
}

fn refusal(section: &Section, track: u8, step: Step) -> u8 {
    let answer = offer(section, track, step);
    assert_eq!((answer.said, answer.section), (0, *section));
    answer.refusal
}

fn fault_4(section: &mut Section, track: u8, post: u8) {
    accept(section, track, Step::FaultOn { post, fault: 4 });
}

fn form_at(section: &Section, track: u8, post: u8) -> u16 {
    section.tracks[usize::from(track)].posts[usize::from(post)].form_for
}

/// All devices as the running direction, measures in place.
fn settled_on_cvt(settings: Settings, track: u8) -> Section {
    let mut section = Section::fresh(settings);
    for post in 0..settings.n {
        accept(&mut section, track, Step::MeasuresOn { post });
    }
    reverse(&mut section, track);
    section
}

fn reverse(section: &mut Section, track: u8) {
    let way = section.way(usize::from(track));
    let mut post = way.sending_end();
    accept(section, track, Step::Order { post });
    while post != way.receiving_end() {
        accept(section, track, Step::Set { post });
        accept(section, track, Step::Announce { post });
        post = way.next_post(post);
        accept(section, track, Step::Acknowledge { post });
    }
    accept(section, track, Step::Set { post });
}

// Files.

fn read(file: &[u8]) -> Result<Settings, (u8, u32)> {
    dayfile::read(file)
        .map(|day| day.settings)
        .map_err(|refusal| (refusal.number, refusal.index))
}

/// Settings bytes, crossing bytes and the trailer of "BSR2" behind the steps.
fn bsr2_file(steps: &[u8], crossings: Crossings) -> Vec<u8> {
    let settings = [3, 0, 7, 0, 1, 0, 0, 0];
    let distance = 32u32;
    let to_steps = distance + steps.len() as u32;
    let count = steps.len() as u32 / 8;
    [
        steps,
        &settings,
        &crossings,
        b"BSR2",
        &distance.to_le_bytes(),
        &to_steps.to_le_bytes(),
        &count.to_le_bytes(),
    ]
    .concat()
}

fn used(bytes: &[u8]) -> Crossings {
    three_posts(bytes).crossings
}

#[test]
fn eight_more_bytes_between_settings_and_trailer() {
    let steps = encode(A, &form(0, 59_999)).repeat(3);
    let settings = three_posts(&[0, 128, 1]);
    let file = dayfile::file_of(&settings, &steps).unwrap();
    assert_eq!(file, bsr2_file(&steps, settings.crossings));
    assert_eq!(file.len(), 32 + 24);
    assert_eq!(
        file[24..40],
        [3, 0, 7, 0, 1, 0, 0, 0, 0, 128, 1, 255, 255, 255, 255, 255]
    );
    assert_eq!(
        file[40..],
        [b'B', b'S', b'R', b'2', 32, 0, 0, 0, 56, 0, 0, 0, 3, 0, 0, 0]
    );
    let day = dayfile::read(&file).unwrap();
    assert_eq!((day.settings, day.count), (settings, 3));
    assert_eq!((day.steps, day.steps.as_ptr()), (&steps[..], file.as_ptr()));
}

#[test]
fn a_section_without_crossings_stays_bsr1() {
    let steps = encode(A, &form(0, 1));
    let file = dayfile::file_of(&three_posts(&[]), &steps).unwrap();
    assert_eq!(file.len(), 32);
    assert_eq!(file[16..20], *b"BSR1");
    assert_eq!(Mark::of(&three_posts(&[])), Mark::Bsr1);
    assert_eq!(Mark::of(&three_posts(&[0])), Mark::Bsr2);
}

#[test]
fn lengths_of_either_mark() {
    assert_eq!((LEAST_LENGTH, GREATEST_LENGTH), (24, 32_800));
    let step = encode(A, &Step::Order { post: 0 });
    let day_of = |settings: &Settings, count: usize| {
        dayfile::file_of(settings, &step.repeat(count)).map_err(|r| (r.number, r.index))
    };
    let without = three_posts(&[]);
    let with = three_posts(&[1]);
    let longest = day_of(&with, 4_096).unwrap();
    assert_eq!(longest.len(), 32_800);
    assert_eq!(read(&longest), Ok(with));
    assert_eq!(day_of(&without, 4_096).unwrap().len(), 32_792);
    assert_eq!(day_of(&with, 4_097), Err((5, 0)));
    assert_eq!(day_of(&without, 4_097), Err((5, 0)));
    let too_long = bsr2_file(&step.repeat(4_097), with.crossings);
    assert_eq!(too_long.len(), 32_808);
    assert_eq!(read(&too_long), Err((1, 0)));
    assert_eq!(read(&longest[..32_799]), Err((1, 0)));
    assert_eq!(read(&vec![0; 32_800]), Err((2, 0)));
    assert_eq!(read(&vec![0; 32_801]), Err((1, 0)));
    assert_eq!(listing(&vec![0; 32_801]), b"refused 1 0\n");
}

#[test]
fn a_length_that_does_not_suit_its_mark_is_2() {
    let step = encode(A, &Step::Order { post: 0 });
    let bsr1_tail = |count: u32| {
        let mut tail = vec![3, 0, 7, 0, 1, 0, 0, 0];
        tail.extend_from_slice(b"BSR1");
        for number in [24, 24 + 8 * count, count] {
            tail.extend_from_slice(&number.to_le_bytes());
        }
        tail
    };
    let bsr1_file = |count: u32| [step.repeat(count as usize), bsr1_tail(count)].concat();
    assert!(read(&bsr1_file(4_096)).is_ok());
    assert_eq!(bsr1_file(4_097).len(), 32_800);
    assert_eq!(read(&bsr1_file(4_097)), Err((2, 0)));
    let mut shortest = bsr1_file(0);
    assert!(read(&shortest).is_ok());
    shortest[11] = b'2';
    for distances in [[24, 24], [32, 32], [24, 32]] {
        (shortest[12], shortest[16]) = (distances[0], distances[1]);
        assert_eq!(read(&shortest), Err((2, 0)));
    }
    let least = bsr2_file(&[], used(&[0]));
    assert_eq!(least.len(), 32);
    assert!(read(&least).is_ok());
    assert_eq!(read(&least[8..]), Err((2, 0)));
    for place in 16..32 {
        let mut file = least.clone();
        file[place] ^= 3;
        assert_eq!(read(&file), Err((2, 0)), "byte {place}");
    }
}

#[test]
fn crossing_bytes_of_a_file() {
    for good in [
        used(&[0]),
        used(&[129]),
        used(&[0, 0, 128, 128, 1, 129]),
        [0, 0, 128, 128, 1, 1, 129, 129],
    ] {
        assert_eq!(read(&bsr2_file(&[], good)).map(|s| s.crossings), Ok(good));
    }
    for bad in [
        NO_CROSSINGS,
        used(&[2]),
        used(&[130]),
        used(&[127]),
        used(&[254]),
        used(&[255, 0]),
        used(&[0, 255, 1]),
        used(&[1, 0]),
        used(&[1, 128]),
        used(&[129, 0]),
        used(&[128, 0]),
        used(&[0, 129, 1]),
    ] {
        assert_eq!(read(&bsr2_file(&[], bad)), Err((3, 0)), "{bad:?}");
        let malformed_step = [0; 8];
        assert_eq!(read(&bsr2_file(&malformed_step, bad)), Err((3, 0)));
    }
    assert_eq!(read(&bsr2_file(&[0; 8], used(&[0]))), Err((4, 0)));
}

#[test]
fn writer_refuses_wrong_crossings_before_steps_and_room() {
    let step = encode(A, &Step::Order { post: 0 });
    let write = |settings: &Settings, steps: &[u8], room: usize| {
        let mut buffer = vec![0xa5; room];
        let outcome = dayfile::write(settings, steps, &mut buffer);
        let written = outcome.unwrap_or(0);
        assert!(buffer[written..].iter().all(|&byte| byte == 0xa5));
        outcome.map_err(|refusal| (refusal.number, refusal.index))
    };
    assert_eq!(write(&three_posts(&[1, 0]), &[0; 8], 0), Err((3, 0)));
    assert_eq!(write(&three_posts(&[0]), &[0; 8], 0), Err((4, 0)));
    assert_eq!(write(&three_posts(&[0]), &step, 39), Err((5, 0)));
    assert_eq!(write(&three_posts(&[0]), &step, 40), Ok(40));
    assert_eq!(write(&three_posts(&[0]), &step, 50), Ok(40));
    assert_eq!(write(&three_posts(&[]), &step, 39), Ok(32));
}

#[test]
fn well_formed_under_either_mark() {
    for settings in [three_posts(&[]), three_posts(&[0])] {
        let steps = [
            encode(A, &form(2, 1)),
            encode(B, &form(0, 59_999)),
            encode(A, &Step::FaultOn { post: 2, fault: 4 }),
            encode(B, &Step::FaultOff { post: 1, fault: 4 }),
        ];
        let file = dayfile::file_of(&settings, &steps.concat()).unwrap();
        assert_eq!(read(&file), Ok(settings));
    }
    assert!(decode(&encode(A, &form(0, 60_000)), 3).is_none());
    assert!(decode(&[14, 0, 0, 0, 0, 0, 0, 0], 3).is_none());
    assert!(decode(&[14, 0, 0, 4, 1, 0, 0, 0], 3).is_none());
    assert!(decode(&[10, 0, 0, 5, 0, 0, 0, 0], 3).is_none());
}

#[test]
fn random_files_are_of_both_marks() {
    let mut rng = Rng::new(41);
    let mut refused = [0; 5];
    let mut of_mark = [0; 2];
    for round in 0..4_000 {
        let mut file = generate::random_day(&mut rng, round % 40);
        let mark = Mark::of(&read(&file).unwrap());
        assert!(file[file.len() - 16..].starts_with(&mark.bytes()));
        of_mark[usize::from(mark == Mark::Bsr2)] += 1;
        generate::damage(&mut rng, &mut file);
        let number = read(&file).map_or_else(|(number, _)| number, |_| 0);
        refused[usize::from(number)] += 1;
    }
    println!("files of mark 1 and 2: {of_mark:?}; damaged: read, refused 1 to 4: {refused:?}");
    assert!(of_mark.iter().chain(&refused).all(|&times| times > 100));
}

// Where a form is needed.

#[test]
fn fault_4_needs_a_form_in_either_direction() {
    for track in [A, B] {
        for counter in [false, true] {
            let settings = three_posts(&[0, 1]);
            let mut section = match counter {
                true => settled_on_cvt(settings, track),
                false => Section::fresh(settings),
            };
            let way = section.way(usize::from(track));
            let (sending, receiving) = (way.sending_end(), way.receiving_end());
            fault_4(&mut section, track, sending);
            assert_eq!(refusal(&section, track, start(sending, 7)), 22);
            accept(&mut section, track, form(sending, 7));
            accept(&mut section, track, start(sending, 7));
            let passing = section;
            accept(&mut section, track, pass(1, 7));
            section = passing;
            fault_4(&mut section, track, 1);
            assert_eq!(refusal(&section, track, pass(1, 7)), 22);
            accept(&mut section, track, form(1, 7));
            accept(&mut section, track, pass(1, 7));
            accept(&mut section, track, leave(receiving, 7));
            assert_eq!(refusal(&section, track, start(sending, 7)), 22);
            let off = Step::FaultOff {
                post: sending,
                fault: 4,
            };
            accept(&mut section, track, off);
            accept(&mut section, track, start(sending, 7));
        }
    }
}

#[test]
fn counter_direction_without_zones_needs_a_form() {
    for track in [A, B] {
        for (crossings, needed) in [
            (&[][..], false),
            (&[0, 1], false),
            (&[128, 129], true),
            (&[0, 128, 1, 129], true),
        ] {
            let mut section = Section::fresh(three_posts(crossings));
            let sending = section.way(usize::from(track)).sending_end();
            accept(&mut section, track, start(sending, 7));
            accept(&mut section, track, pass(1, 7));
            let mut section = settled_on_cvt(three_posts(crossings), track);
            let sending = 2 - sending;
            let answer = if needed { 22 } else { 0 };
            assert_eq!(offer(&section, track, start(sending, 7)).refusal, answer);
            section.tracks[usize::from(track)].posts[usize::from(sending)].form_for = 7;
            accept(&mut section, track, start(sending, 7));
            assert_eq!(offer(&section, track, pass(1, 7)).refusal, answer);
        }
    }
}

/// The crossing is of the block section, so the two tracks meet it from different posts.
#[test]
fn each_byte_is_for_both_tracks() {
    let mut section = Section::fresh(three_posts(&[0]));
    for (track, post, answer) in [
        (A, 0, 0),
        (A, 1, 12),
        (A, 2, 12),
        (B, 0, 12),
        (B, 1, 0),
        (B, 2, 12),
    ] {
        assert_eq!(offer(&section, track, form(post, 7)).refusal, answer);
        fault_4(&mut section, track, post);
    }
    assert_eq!(refusal(&section, A, start(0, 7)), 22);
    accept(&mut section, B, start(2, 7));
    assert_eq!(refusal(&section, B, pass(1, 7)), 22);
    accept(&mut section, A, form(0, 7));
    accept(&mut section, A, start(0, 7));
    accept(&mut section, A, pass(1, 7));
}

#[test]
fn no_crossing_no_form_even_under_fault_4() {
    let mut section = Section::fresh(three_posts(&[]));
    for post in 0..3 {
        fault_4(&mut section, A, post);
        assert_eq!(refusal(&section, A, form(post, 7)), 12);
    }
    accept(&mut section, A, start(0, 7));
    accept(&mut section, A, pass(1, 7));
    accept(&mut section, A, leave(2, 7));
}

#[test]
fn fault_4_stops_no_reversal_and_shows_on_no_lamp() {
    let mut section = Section::fresh(three_posts(&[0, 129]));
    let shown = |section: &Section| [0, 1, 2].map(|post| indications(section, A, post));
    let before = shown(&section);
    for post in 0..3 {
        fault_4(&mut section, A, post);
        accept(&mut section, A, Step::MeasuresOn { post });
    }
    assert_eq!(shown(&section), before);
    assert_eq!(
        refusal(&section, A, Step::FaultOn { post: 1, fault: 4 }),
        21
    );
    reverse(&mut section, A);
    assert!(section.tracks[0].posts[..3]
        .iter()
        .all(|post| post.faults == 8));
}

// What becomes of forms.

#[test]
fn a_form_is_for_one_train_at_one_post_of_one_track() {
    let mut section = Section::fresh(three_posts(&[0, 1]));
    for track in [A, B] {
        for post in 0..3 {
            fault_4(&mut section, track, post);
        }
    }
    accept(&mut section, A, form(0, 7));
    assert_eq!(refusal(&section, A, start(0, 8)), 22);
    assert_eq!(refusal(&section, B, start(2, 7)), 22);
    accept(&mut section, A, start(0, 7));
    assert_eq!(refusal(&section, A, pass(1, 7)), 22);
}

#[test]
fn used_up_by_that_trains_entry_needed_or_not() {
    let mut section = Section::fresh(three_posts(&[0, 1]));
    for post in [0, 1] {
        accept(&mut section, A, form(post, 7));
    }
    accept(&mut section, A, start(0, 7));
    assert_eq!((form_at(&section, A, 0), form_at(&section, A, 1)), (0, 7));
    accept(&mut section, A, pass(1, 7));
    assert_eq!(form_at(&section, A, 1), 0);
    accept(&mut section, A, form(0, 9));
    accept(&mut section, A, start(0, 8));
    assert_eq!(form_at(&section, A, 0), 9);
    accept(&mut section, A, leave(2, 7));
    accept(&mut section, A, form(1, 9));
    accept(&mut section, A, pass(1, 8));
    assert_eq!(form_at(&section, A, 1), 9);
    accept(&mut section, A, leave(2, 8));
    assert_eq!((form_at(&section, A, 0), form_at(&section, A, 1)), (9, 9));
}

#[test]
fn a_newer_form_replaces_the_older() {
    let mut section = Section::fresh(three_posts(&[0]));
    fault_4(&mut section, A, 0);
    for train in [7, 7, 8, 59_999] {
        accept(&mut section, A, form(0, train));
        assert_eq!(form_at(&section, A, 0), train);
    }
    assert_eq!(refusal(&section, A, start(0, 7)), 22);
    accept(&mut section, A, start(0, 59_999));
}

#[test]
fn set_or_key_removes_it() {
    for by_key in [false, true] {
        let mut section = Section::fresh(three_posts(&[0, 1]));
        for post in 0..3 {
            accept(&mut section, A, Step::MeasuresOn { post });
        }
        for post in [0, 1] {
            accept(&mut section, A, form(post, 7));
        }
        accept(&mut section, A, Step::Order { post: 0 });
        assert_eq!(form_at(&section, A, 0), 7);
        if by_key {
            accept(&mut section, A, Step::FaultOn { post: 0, fault: 2 });
            accept(&mut section, A, Step::Key { post: 0 });
        } else {
            accept(&mut section, A, Step::Set { post: 0 });
        }
        assert_eq!((form_at(&section, A, 0), form_at(&section, A, 1)), (0, 7));
        accept(&mut section, A, form(0, 8));
        accept(&mut section, A, Step::Announce { post: 0 });
        accept(&mut section, A, Step::Acknowledge { post: 1 });
        assert_eq!((form_at(&section, A, 0), form_at(&section, A, 1)), (8, 7));
    }
}

/// Handed out after the post's own set, it stays; the last set of the way back removes it.
#[test]
fn a_form_after_the_posts_own_set_stays() {
    let mut section = Section::fresh(three_posts(&[0, 1]));
    for post in 0..3 {
        accept(&mut section, A, Step::MeasuresOn { post });
    }
    accept(&mut section, A, Step::Order { post: 0 });
    for post in [0, 1] {
        accept(&mut section, A, Step::Set { post });
        accept(&mut section, A, form(post, 7));
        accept(&mut section, A, Step::Announce { post });
        accept(&mut section, A, Step::Acknowledge { post: post + 1 });
    }
    assert_eq!(refusal(&section, A, form(2, 7)), 12);
    accept(&mut section, A, Step::Set { post: 2 });
    assert_eq!(refusal(&section, A, form(0, 7)), 12);
    assert_eq!((form_at(&section, A, 0), form_at(&section, A, 1)), (7, 7));
    fault_4(&mut section, A, 1);
    accept(&mut section, A, start(2, 7));
    accept(&mut section, A, pass(1, 7));
    accept(&mut section, A, leave(0, 7));
    assert_eq!((form_at(&section, A, 0), form_at(&section, A, 1)), (7, 0));
    reverse(&mut section, A);
    assert_eq!(form_at(&section, A, 0), 0);
}

#[test]
fn ranges_of_the_new_fields() {
    let mut section = Section::fresh(three_posts(&[0]));
    section.tracks[1].posts[2].form_for = 59_999;
    section.tracks[1].posts[2].faults = 15;
    section.tracks[1].posts[3].form_for = 60_000;
    section.tracks[1].posts[3].faults = 16;
    assert!(section.in_range());
    let mut bad = section;
    bad.tracks[1].posts[2].form_for = 60_000;
    assert!(!bad.in_range());
    let mut bad = section;
    bad.tracks[1].posts[2].faults = 16;
    assert!(!bad.in_range());
    let mut bad = section;
    bad.settings.crossings[1] = 2;
    assert!(!bad.in_range());
    assert_eq!(refusal(&bad, A, Step::Order { post: 0 }), 6);
}
