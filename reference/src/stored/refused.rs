//! Files that the reader refuses, each for one reason, and some with a later reason beside it.

use super::bench::{Bench, A};
use super::trains;
use crate::dayfile::{self, Mark, Refusal, MOST_STEPS, TRAILER_LENGTH};
use crate::settings::{
    Crossings, Settings, MATERIALISED, MOST_CROSSINGS, NO_CROSSINGS, UNUSED, WITHOUT_ZONES,
};
use crate::step::{form, start, Step, STEP_LENGTH};

type Named = (&'static str, Vec<u8>);

pub fn files() -> Vec<Named> {
    [
        lengths(),
        trailers(),
        trailers_for_the_other_mark(),
        settings(),
        crossings(),
        steps(),
    ]
    .concat()
}

fn lengths() -> Vec<Named> {
    let files = vec![
        ("refused_1_empty", Vec::new()),
        ("refused_1_below_24_bytes", good_day()[..16].to_vec()),
        ("refused_1_not_a_multiple_of_8", good_day()[1..].to_vec()),
        (
            "refused_1_above_32800_bytes",
            one_step_too_many(with_crossings()),
        ),
        ("refused_1_before_2", good_day()[..25].to_vec()),
    ];
    demand_all(&files, 1);
    files
}

fn trailers() -> Vec<Named> {
    let files = vec![
        ("refused_2_mark", with_trailer_byte(3, b'3')),
        ("refused_2_distance_to_settings", with_trailer_byte(4, 16)),
        ("refused_2_distance_to_steps", with_trailer_byte(9, 1)),
        ("refused_2_count", with_trailer_byte(12, 3)),
        ("refused_2_before_3", with_mark_and_seventeen_posts()),
    ];
    demand_all(&files, 2);
    files
}

/// Lengths and distances that suit the other mark, or none.
fn trailers_for_the_other_mark() -> Vec<Named> {
    let bsr2 =
        |place, value| with_byte_from_end(day_with_crossings(), TRAILER_LENGTH - place, value);
    let files = vec![
        (
            "refused_2_bsr1_4097_steps",
            one_step_too_many(three_posts()),
        ),
        ("refused_2_bsr1_of_a_bsr2_file", bsr2(3, b'1')),
        ("refused_2_bsr2_of_a_bsr1_file", with_trailer_byte(3, b'2')),
        ("refused_2_bsr2_24_bytes", bsr2_of_24_bytes()),
        ("refused_2_bsr2_distance_to_settings", bsr2(4, 24)),
        ("refused_2_bsr2_distance_to_steps", bsr2(8, 24 + 40)),
        ("refused_2_bsr2_count", bsr2(12, 6)),
        ("refused_2_bsr3_of_a_bsr2_file", bsr2(3, b'3')),
        (
            "refused_2_bsr2_before_3",
            with_byte_from_end(bsr2(4, 24), 24, UNUSED),
        ),
    ];
    demand_all(&files, 2);
    files
}

fn settings() -> Vec<Named> {
    let files = vec![
        ("refused_3_one_post", with_settings(&[(0, 1), (2, 1)])),
        ("refused_3_seventeen_posts", with_settings(&[(0, 17)])),
        ("refused_3_form_2", with_settings(&[(1, 2)])),
        ("refused_3_mask_without_post_0", with_settings(&[(2, 6)])),
        ("refused_3_mask_without_last_post", with_settings(&[(2, 3)])),
        ("refused_3_mask_above_last_post", with_settings(&[(2, 15)])),
        ("refused_3_line_0", with_settings(&[(4, 0), (5, 0)])),
        ("refused_3_line_1000", with_settings(&[(4, 0xe8)])),
        ("refused_3_byte_6", with_settings(&[(6, 1)])),
        ("refused_3_byte_7", with_settings(&[(7, 1)])),
        ("refused_3_before_4", with_malformed_step_and_form()),
    ];
    demand_all(&files, 3);
    files
}

fn crossings() -> Vec<Named> {
    let used = |bytes: &[u8]| {
        let mut crossings = NO_CROSSINGS;
        crossings[..bytes.len()].copy_from_slice(bytes);
        crossings
    };
    let without_zones = |section: u8| section + WITHOUT_ZONES;
    let files = [
        ("refused_3_crossings_all_unused", NO_CROSSINGS),
        ("refused_3_crossing_in_section_2_of_2", used(&[0, 2])),
        (
            "refused_3_crossing_without_zones_in_section_2_of_2",
            used(&[0, without_zones(2)]),
        ),
        ("refused_3_crossing_byte_127", used(&[127])),
        ("refused_3_crossing_byte_254", used(&[254])),
        ("refused_3_crossings_unused_first", used(&[UNUSED, 0])),
        ("refused_3_crossings_unused_between", used(&[0, UNUSED, 1])),
        (
            "refused_3_crossings_unused_before_the_last",
            [0, 0, 0, 0, 0, 0, UNUSED, 1],
        ),
        ("refused_3_crossings_falling", used(&[1, 0])),
        (
            "refused_3_crossings_falling_without_zones",
            used(&[without_zones(1), without_zones(0)]),
        ),
        (
            "refused_3_crossings_falling_behind_the_128",
            used(&[1, without_zones(0)]),
        ),
        (
            "refused_3_crossings_falling_at_the_last",
            [0, 0, 1, 1, 1, 1, 1, 0],
        ),
        (
            "refused_3_crossing_without_zones_stands_first",
            used(&[without_zones(1), 1]),
        ),
    ]
    .map(|(name, bytes)| (name, day_of_crossing_bytes(bytes)));
    let mut files = files.to_vec();
    files.push((
        "refused_3_bsr2_byte_6",
        with_byte_from_end(day_with_crossings(), 26, 1),
    ));
    files.push((
        "refused_3_crossings_before_4",
        malformed_step_and_crossing(),
    ));
    files.push((
        "refused_3_bsr2_over_a_bsr1_file",
        under(Mark::Bsr2, good_day()),
    ));
    files.push((
        "refused_3_bsr1_over_a_bsr2_file",
        under(Mark::Bsr1, day_with_crossings()),
    ));
    demand_all(&files, 3);
    files
}

fn steps() -> Vec<Named> {
    [
        ("refused_4_first_step_kind_15", malformed(0, 0, 15)),
        ("refused_4_form_without_number", malformed(0, 0, 14)),
        ("refused_4_fault_in_a_form", malformed_form(3, 4)),
        ("refused_4_byte_6_of_a_form", malformed_form(6, 1)),
        ("refused_4_kind_0", malformed(1, 0, 0)),
        ("refused_4_track_2", malformed(2, 1, 2)),
        ("refused_4_post_3_of_3", malformed(2, 2, 3)),
        ("refused_4_fault_5", malformed(2, 3, 5)),
        ("refused_4_fault_in_a_start", malformed(1, 3, 1)),
        ("refused_4_number_in_an_order", malformed(3, 4, 1)),
        ("refused_4_byte_6", malformed(3, 6, 1)),
        ("refused_4_byte_7", malformed(0, 7, 1)),
        ("refused_4_step_4095", last_step_malformed(three_posts())),
        (
            "refused_4_step_4095_crossings",
            last_step_malformed(with_crossings()),
        ),
        ("refused_4_train_60000_form", with_number(0, 60_000)),
        ("refused_4_train_60000_start", with_number(1, 60_000)),
        ("refused_4_train_60000_pass", with_number(2, 60_000)),
        ("refused_4_train_60000_leave", with_number(3, 60_000)),
        ("refused_4_train_60000_release", with_number(5, 60_000)),
        ("refused_4_train_65535_form", with_number(0, 65_535)),
        ("refused_4_train_65535_start", with_number(1, 65_535)),
        ("refused_4_train_65535_pass", with_number(2, 65_535)),
        ("refused_4_train_65535_leave", with_number(3, 65_535)),
        ("refused_4_train_65535_release", with_number(5, 65_535)),
        ("refused_4_train_59999_in_a_fault", with_number(4, 59_999)),
    ]
    .into_iter()
    .map(|(name, (file, index))| {
        demand(name, &file, Refusal { number: 4, index });
        (name, file)
    })
    .collect()
}

fn demand_all(files: &[Named], number: u8) {
    for (name, file) in files {
        demand(name, file, Refusal { number, index: 0 });
    }
}

fn demand(name: &str, file: &[u8], refusal: Refusal) {
    assert_eq!(dayfile::read(file), Err(refusal), "{name}");
}

/// Four steps, three posts, a byte or two away from most of the refused files.
fn good_day() -> Vec<u8> {
    let mut bench = Bench::new(three_posts(), A);
    bench.accept(Step::MeasuresOn { post: 0 });
    bench.accept(start(0, 9_984));
    bench.accept(Step::FaultOn { post: 2, fault: 1 });
    bench.refuse(Step::Order { post: 0 }, 13);
    bench.day()
}

fn three_posts() -> Settings {
    Settings {
        n: 3,
        form: MATERIALISED,
        mask: 7,
        line: 999,
        crossings: NO_CROSSINGS,
    }
}

/// Six of the eight bytes used.
fn with_crossings() -> Settings {
    Settings {
        crossings: [0, 0, 128, 1, 129, 129, UNUSED, UNUSED],
        ..three_posts()
    }
}

/// Five steps, the last a form.
fn day_with_crossings() -> Vec<u8> {
    let mut bench = Bench::new(with_crossings(), A);
    bench.accept(Step::FaultOn { post: 0, fault: 4 });
    bench.accept(Step::FaultOn { post: 1, fault: 4 });
    bench.refuse(start(0, 9_984), 22);
    bench.accept(form(1, 9_984));
    bench.accept(form(0, 9_984));
    bench.day()
}

fn day_of_crossing_bytes(bytes: Crossings) -> Vec<u8> {
    let mut file = day_with_crossings();
    let place = file.len() - TRAILER_LENGTH - MOST_CROSSINGS;
    file[place..place + MOST_CROSSINGS].copy_from_slice(&bytes);
    file
}

fn malformed_step_and_crossing() -> Vec<u8> {
    let mut file = day_of_crossing_bytes(NO_CROSSINGS);
    file[0] = 15;
    file
}

/// The day's last form with one byte changed, and its index.
fn malformed_form(place: usize, value: u8) -> (Vec<u8>, u32) {
    let mut file = day_with_crossings();
    file[4 * STEP_LENGTH + place] = value;
    (file, 4)
}

/// The day of each kind with another number in a step, and the step's index.
fn with_number(index: usize, number: u16) -> (Vec<u8>, u32) {
    let mut file = trains::each_kind();
    let place = index * STEP_LENGTH + 4;
    file[place..place + 2].copy_from_slice(&number.to_le_bytes());
    (file, index as u32)
}

/// The bytes before the trailer stay, the trailer is what the length demands under the mark.
fn under(mark: Mark, mut file: Vec<u8>) -> Vec<u8> {
    let count = (file.len() - mark.tail_length()) / STEP_LENGTH;
    file.truncate(file.len() - TRAILER_LENGTH);
    file.extend_from_slice(&mark.trailer(count));
    file
}

/// No steps and no crossing bytes, with the distances of a file that has these.
fn bsr2_of_24_bytes() -> Vec<u8> {
    let mut file = three_posts().encode().to_vec();
    file.extend_from_slice(&Mark::Bsr2.trailer(0));
    file
}

fn with_byte_from_end(mut file: Vec<u8>, from_end: usize, value: u8) -> Vec<u8> {
    let place = file.len() - from_end;
    file[place] = value;
    file
}

fn most_steps(settings: Settings) -> Vec<u8> {
    let mut bench = Bench::new(settings, A);
    for _ in 0..MOST_STEPS {
        bench.refuse(Step::Announce { post: 0 }, 15);
    }
    bench.day()
}

/// 4,097 well-formed steps, and a trailer that says so.
fn one_step_too_many(settings: Settings) -> Vec<u8> {
    let mut file = most_steps(settings);
    let step = file[..STEP_LENGTH].to_vec();
    file.splice(0..0, step);
    under(Mark::of(&settings), file)
}

fn with_trailer_byte(place: usize, value: u8) -> Vec<u8> {
    with_byte_from_end(good_day(), TRAILER_LENGTH - place, value)
}

fn with_settings(changes: &[(usize, u8)]) -> Vec<u8> {
    let mut file = good_day();
    let settings = file.len() - Mark::Bsr1.tail_length();
    for &(place, value) in changes {
        file[settings + place] = value;
    }
    file
}

fn with_mark_and_seventeen_posts() -> Vec<u8> {
    let file = with_trailer_byte(3, b'3');
    with_byte_from_end(file, Mark::Bsr1.tail_length(), 17)
}

/// The good day with one byte of a step changed, and the step's index.
fn malformed(index: usize, place: usize, value: u8) -> (Vec<u8>, u32) {
    let mut file = good_day();
    file[index * STEP_LENGTH + place] = value;
    (file, index as u32)
}

fn with_malformed_step_and_form() -> Vec<u8> {
    let mut file = with_settings(&[(1, 2)]);
    file[0] = 15;
    file
}

fn last_step_malformed(settings: Settings) -> (Vec<u8>, u32) {
    let mut file = most_steps(settings);
    let index = MOST_STEPS - 1;
    file[index * STEP_LENGTH] = 0;
    (file, index as u32)
}
