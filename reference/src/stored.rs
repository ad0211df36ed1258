//! The stored days of `crates/days/data`: day files that each show what their name says, made
//! and answered by this implementation.

mod bench;
mod coverage;
mod crossings;
mod every_refusal;
mod lengths;
mod parts;
mod refused;
mod stretches;
pub mod table;
mod trains;
mod written;

use crate::dayfile::MOST_STEPS;
use crate::generate::Rng;
use crate::listing::{listing, panel};
use crate::settings::{Settings, MATERIALISED, NO_CROSSINGS, TELEPHONE};
use bench::{A, B};

pub struct StoredDay {
    pub name: String,
    pub file: Vec<u8>,
}

impl StoredDay {
    /// Its three files: name and bytes.
    pub fn files(&self) -> [(String, Vec<u8>); 3] {
        let named = |ending: &str| format!("{}.{ending}", self.name);
        [
            (named("day"), self.file.clone()),
            (named("listing"), listing(&self.file)),
            (named("panel"), panel(&self.file)),
        ]
    }
}

const FORMS: [(u8, &str); 2] = [(TELEPHONE, "telephone"), (MATERIALISED, "materialised")];
const TRACKS: [(u8, &str); 2] = [(A, "a"), (B, "b")];

/// Days kept as text in the folder `days`.
const WRITTEN: [(&str, &str); 14] = [
    ("worked_example", include_str!("../days/worked_example.txt")),
    ("annex_1", include_str!("../days/annex_1.txt")),
    ("annex_2", include_str!("../days/annex_2.txt")),
    ("annex_3", include_str!("../days/annex_3.txt")),
    ("annex_5", include_str!("../days/annex_5.txt")),
    ("annex_6", include_str!("../days/annex_6.txt")),
    (
        "fault_1_release",
        include_str!("../days/fault_1_release.txt"),
    ),
    ("fault_2_key", include_str!("../days/fault_2_key.txt")),
    ("fault_3_dark", include_str!("../days/fault_3_dark.txt")),
    ("fault_4_form", include_str!("../days/fault_4_form.txt")),
    (
        "form_through_every_step",
        include_str!("../days/form_through_every_step.txt"),
    ),
    (
        "release_mark_through_every_step",
        include_str!("../days/release_mark_through_every_step.txt"),
    ),
    (
        "last_train_survives_reversal",
        include_str!("../days/last_train_survives_reversal.txt"),
    ),
    (
        "same_number_on_both_tracks",
        include_str!("../days/same_number_on_both_tracks.txt"),
    ),
];

/// All of them. Panics where this implementation does not answer as a day demands, or where
/// the days together do not show what `coverage` lists.
pub fn days() -> Vec<StoredDay> {
    let mut days = Vec::new();
    add_written(&mut days);
    add_every_refusal(&mut days);
    add_stretches(&mut days);
    add_parts(&mut days);
    add_crossings(&mut days);
    add_trains(&mut days);
    add_drawn(&mut days);
    add_drawn_of_five_figures(&mut days);
    add_lengths(&mut days);
    for (name, file) in refused::files() {
        add(&mut days, name, file);
    }
    coverage::demand(&days);
    days
}

fn add(days: &mut Vec<StoredDay>, name: &str, file: Vec<u8>) {
    let name = name.to_string();
    assert!(days.iter().all(|day| day.name != name), "{name} twice");
    days.push(StoredDay { name, file });
}

fn add_written(days: &mut Vec<StoredDay>) {
    for (name, text) in WRITTEN {
        add(days, name, written::day(text));
    }
}

fn add_every_refusal(days: &mut Vec<StoredDay>) {
    for n in [2, 3, 16] {
        for (form, form_name) in FORMS {
            for (track, track_name) in TRACKS {
                let name = format!("every_refusal_{n}_{form_name}_{track_name}");
                add(days, &name, every_refusal::day(n, form, track));
            }
        }
    }
}

fn add_stretches(days: &mut Vec<StoredDay>) {
    for (name, form, mask, track) in [
        ("stretches_ends_only_a", TELEPHONE, 0x8001, A),
        ("stretches_every_post_b", MATERIALISED, 0xffff, B),
        ("stretches_some_posts_a", MATERIALISED, 0x8421, A),
        ("stretches_some_posts_b", TELEPHONE, 0x8421, B),
    ] {
        add(days, name, stretches::day(form, mask, track));
    }
}

fn add_parts(days: &mut Vec<StoredDay>) {
    for (track, track_name) in TRACKS {
        for (line, n, mask) in parts::LINES_WITH_TRAINS {
            let name = format!("parts_behind_trains_{line}_{track_name}");
            add(days, &name, parts::behind_trains(n, mask, track));
        }
        for (line, n, mask) in parts::LINES_WITH_FAULTS {
            let name = format!("parts_fault_1_{line}_{track_name}");
            add(days, &name, parts::fault_1(n, mask, track));
        }
        let name = format!("parts_telephone_{track_name}");
        add(days, &name, parts::telephone(track));
    }
}

fn add_crossings(days: &mut Vec<StoredDay>) {
    for (form, form_name) in FORMS {
        for (track, track_name) in TRACKS {
            let place = format!("{form_name}_{track_name}");
            for n in [2, 3, 16] {
                let name = format!("crossings_every_answer_{n}_{place}");
                add(days, &name, crossings::every_answer(n, form, track));
            }
            for (name, file) in [
                ("crossings_zones", crossings::zones(form, track)),
                ("crossings_eight", crossings::eight(form, track)),
                ("crossings_fault_4", crossings::fault_4(form, track)),
                ("crossings_forms", crossings::forms(form, track)),
                (
                    "crossings_set_removes_form",
                    crossings::set_and_key(form, track, false),
                ),
                (
                    "crossings_key_removes_form",
                    crossings::set_and_key(form, track, true),
                ),
            ] {
                add(days, &format!("{name}_{place}"), file);
            }
        }
    }
    for (track, track_name) in TRACKS {
        let name = format!("crossings_forms_behind_trains_{track_name}");
        add(days, &name, crossings::forms_behind_trains(track));
    }
}

fn add_trains(days: &mut Vec<StoredDay>) {
    for (form, form_name) in FORMS {
        for (track, track_name) in TRACKS {
            let name = format!("trains_five_figures_{form_name}_{track_name}");
            add(days, &name, trains::five_figures(form, track));
        }
    }
    add(days, "trains_five_figures_each_kind", trains::each_kind());
}

/// The masks leave posts without signals, so that passes go on inside a stretch too.
fn add_drawn(days: &mut Vec<StoredDay>) {
    for (n, mask) in [(2, 0x3), (3, 0x5), (7, 0x49), (16, 0x9249)] {
        for (form, form_name) in FORMS {
            let name = format!("drawn_{n}_{form_name}");
            let settings = settings(n, form, mask);
            let seed = u64::from(n) * 2 + u64::from(form);
            let rng = Rng::of_four_figures(seed);
            add(days, &name, lengths::drawn(settings, 250, rng));
            let name = format!("drawn_{n}_{form_name}_crossings");
            let settings = with_crossings(settings);
            let rng = Rng::of_four_figures(seed + 100);
            add(days, &name, lengths::drawn(settings, 250, rng));
        }
    }
}

fn add_drawn_of_five_figures(days: &mut Vec<StoredDay>) {
    for (n, mask) in [(2, 0x3), (3, 0x5), (7, 0x49), (16, 0x9249)] {
        for (form, form_name) in FORMS {
            let without = settings(n, form, mask);
            for (settings, ending, more) in [
                (without, "", 200),
                (with_crossings(without), "_crossings", 300),
            ] {
                let name = format!("drawn_five_figures_{n}_{form_name}{ending}");
                let rng = Rng::new(u64::from(n) * 2 + u64::from(form) + more);
                add(days, &name, lengths::drawn(settings, 250, rng));
            }
        }
    }
}

fn add_lengths(days: &mut Vec<StoredDay>) {
    let two = settings(2, TELEPHONE, 0x3);
    let sixteen = settings(16, MATERIALISED, 0x8421);
    for (settings, n, ending) in [
        (two, 2, ""),
        (sixteen, 16, ""),
        (with_crossings(two), 2, "_crossings"),
        (with_crossings(sixteen), 16, "_crossings"),
    ] {
        let name = format!("no_steps_{n}{ending}");
        add(days, &name, lengths::without_steps(settings));
    }
    for (settings, ending, seed) in [
        (sixteen, "", 4_096),
        (with_crossings(sixteen), "_crossings", 4_097),
    ] {
        let name = format!("steps_4096_16{ending}");
        let rng = Rng::of_four_figures(seed);
        add(days, &name, lengths::drawn(settings, MOST_STEPS, rng));
    }
    add(days, "steps_4096_819_seals", lengths::seals_819());
}

/// Both kinds in the first, the middle and the last block section.
fn with_crossings(settings: Settings) -> Settings {
    Settings {
        crossings: crossings::both_kinds(settings.n),
        ..settings
    }
}

fn settings(n: u8, form: u8, mask: u16) -> Settings {
    Settings {
        n,
        form,
        mask,
        line: 1,
        crossings: NO_CROSSINGS,
    }
}
