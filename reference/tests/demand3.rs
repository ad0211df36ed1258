//! Demand 3, from "The words of demand 3": lists of offered steps from the fresh section.

use reference::engine::judge;
use reference::generate::{self, Rng};
use reference::run::{run, Outcome};
use reference::section::{holds_train, Section};
use reference::settings::{Settings, MATERIALISED};
use reference::step::{decode, encode, Step};
use reference::{dayfile, stored};
use std::collections::BTreeMap;

const DAYS: usize = 6_000;
const DAYS_WITHOUT_SIGNALS: usize = 4_000;
const DAYS_IN_RUNS: usize = 1_500;

/// One accepted step with its place in the list and what it said.
#[derive(Clone, Copy, Debug, PartialEq, Eq)]
struct Accepted {
    place: usize,
    track: usize,
    step: Step,
    said: u8,
}

/// A train's run on a track: the posts of its start, passes and leave.
#[derive(Clone, Debug)]
struct Run {
    track: usize,
    train: u16,
    start: u8,
    passes: Vec<u8>,
    leave: Option<u8>,
}

#[derive(Default)]
struct Tally {
    offered: usize,
    accepted: usize,
    runs: usize,
    ended_runs: usize,
    reversals: usize,
    days_at_rest: usize,
    reordered: usize,
    days_with_crossings: usize,
    forms: usize,
    forms_used: usize,
    faults_4: usize,
    days_with_forms_moved: usize,
    orders_behind_trains: usize,
    sets_without_signals: usize,
    sets_without_signals_behind_trains: usize,
    reordered_without_signals: usize,
}

#[test]
fn demand_3() {
    let mut rng = Rng::new(3);
    let mut tally = Tally::default();
    for _ in 0..DAYS {
        check_day(&mut rng, &mut tally);
    }
    println!(
        "days {DAYS}, steps offered {}, accepted {}, runs {} (ended {}), reversals ended {}, \
         days at rest in the end {}, days that needed a reordering {}",
        tally.offered,
        tally.accepted,
        tally.runs,
        tally.ended_runs,
        tally.reversals,
        tally.days_at_rest,
        tally.reordered
    );
    println!(
        "days with crossings {}, forms {} (used {}), fault 4 declared {}, \
         reordered days in which forms moved {}",
        tally.days_with_crossings,
        tally.forms,
        tally.forms_used,
        tally.faults_4,
        tally.days_with_forms_moved
    );
    assert!(tally.ended_runs > 0, "no run ended");
    assert!(tally.runs > tally.ended_runs, "every run ended");
    assert!(tally.reversals > 0, "no reversal ended");
    assert!(tally.reordered > 0, "no day needed a reordering");
    assert!(
        tally.days_at_rest > tally.reordered,
        "every day needed a reordering"
    );
    assert!(tally.days_with_crossings > 0, "no day had crossings");
    assert!(tally.days_with_crossings < DAYS, "every day had crossings");
    assert!(tally.forms > tally.forms_used, "every form was used");
    assert!(tally.forms_used > 0, "no form was used");
    assert!(tally.faults_4 > 0, "no fault 4");
    assert!(
        tally.days_with_forms_moved > 0,
        "no reordering moved a form"
    );
}

/// Materialised days with posts without signals: "a reversal must still find its track empty
/// after reordering".
#[test]
fn demand_3_with_posts_without_signals() {
    let mut rng = Rng::new(33);
    let mut tally = Tally::default();
    for _ in 0..DAYS_WITHOUT_SIGNALS {
        let settings = settings_without_signals(&mut rng);
        let list = random_list(&mut rng, settings);
        check_list(&list, settings, &mut tally);
    }
    println!(
        "days {DAYS_WITHOUT_SIGNALS}, at rest in the end {}, reversals ended {}, orders behind \
         trains {}, sets at posts without signals {} (behind trains {}), days that needed a \
         reordering {} (with such a set {})",
        tally.days_at_rest,
        tally.reversals,
        tally.orders_behind_trains,
        tally.sets_without_signals,
        tally.sets_without_signals_behind_trains,
        tally.reordered,
        tally.reordered_without_signals
    );
    assert!(tally.orders_behind_trains > 0, "no order behind a train");
    assert!(
        tally.sets_without_signals > tally.sets_without_signals_behind_trains,
        "every set at a post without signals was behind a train"
    );
    assert!(
        tally.reordered_without_signals > 0,
        "no reordered day had a set at a post without signals behind a train"
    );
}

/// Days offered as runs of steps (request 4). What a refused call holds is offered by the next
/// ones, up to its malformed step and after it.
#[test]
fn demand_3_of_days_offered_as_runs() {
    let mut rng = Rng::new(34);
    let mut tally = Tally::default();
    let (mut calls, mut refused_calls) = (0, 0);
    for _ in 0..DAYS_IN_RUNS {
        let settings = generate::random_settings(&mut rng);
        let mut list = random_list(&mut rng, settings);
        list.retain(|step| step.len() == 8);
        let mut accepted = Vec::new();
        let mut section = Section::fresh(settings);
        let mut place = 0;
        while place < list.len() {
            let length = rng.between(0, 60).min(list.len() - place);
            calls += 1;
            let first_malformed = take_run(&mut section, &list, place, length, &mut accepted);
            place += match first_malformed {
                None => length,
                Some(index) => {
                    refused_calls += 1;
                    take_run(&mut section, &list, place, index, &mut accepted);
                    index + 1
                }
            };
        }
        assert_eq!((accepted.clone(), section), walk(&list, settings));
        tally.offered += list.len();
        check_walked(accepted, section, &mut tally);
    }
    println!(
        "days {DAYS_IN_RUNS}, calls {calls} (refused {refused_calls}), steps offered {}, accepted \
         {}, days at rest in the end {}, days that needed a reordering {}",
        tally.offered, tally.accepted, tally.days_at_rest, tally.reordered
    );
    assert!(calls > 2 * DAYS_IN_RUNS, "too few calls a day");
    assert!(refused_calls > 0, "no call was refused");
    assert!(tally.accepted < tally.offered, "every step was accepted");
    assert!(tally.ended_runs > 0, "no train's run ended");
    assert!(tally.reordered > 0, "no day needed a reordering");
}

/// Offers as many steps of the list in one call; the index in the call of its first malformed
/// step if it is refused.
fn take_run(
    section: &mut Section,
    list: &[Vec<u8>],
    place: usize,
    length: usize,
    accepted: &mut Vec<Accepted>,
) -> Option<usize> {
    let steps = &list[place..place + length];
    let mut answers = vec![0; 2 * length];
    match run(section, &steps.concat(), &mut answers) {
        Outcome::Refused { refusal, index } => {
            assert_eq!(refusal, 4);
            return Some(index);
        }
        Outcome::Done(count) => assert_eq!(count, length),
    }
    for (i, answer) in answers.chunks(2).enumerate() {
        if answer[0] == 0 {
            let (track, step) = decode(&steps[i], section.settings.n).unwrap();
            accepted.push(Accepted {
                place: place + i,
                track: track.into(),
                step,
                said: answer[1],
            });
        }
    }
    None
}

/// Materialised, three posts or more, at least one between the ends without signals.
fn settings_without_signals(rng: &mut Rng) -> Settings {
    loop {
        let settings = Settings {
            form: MATERIALISED,
            ..generate::random_settings(rng)
        };
        if settings.mask.count_ones() < u32::from(settings.n) {
            return settings;
        }
    }
}

/// The stored days in which forms are handed out to trains ahead of a reversal.
#[test]
fn forms_behind_trains_are_put_in_another_order() {
    let tally = tally_of_stored("crossings_forms_behind_trains");
    assert_eq!((tally.days_at_rest, tally.reordered), (2, 2));
    assert_eq!(tally.days_with_forms_moved, 2);
}

/// The stored days in which reversals are ordered behind a train that has left the first part;
/// with only the ends signalled none is.
#[test]
fn reversals_behind_trains_are_put_in_another_order() {
    let ends_only = tally_of_stored("parts_behind_trains_ends_only");
    assert_eq!((ends_only.days_at_rest, ends_only.reordered), (2, 0));
    let some_posts = tally_of_stored("parts_behind_trains_some_posts");
    assert_eq!((some_posts.days_at_rest, some_posts.reordered), (2, 2));
    assert_eq!(some_posts.reordered_without_signals, 2);
    let every_post = tally_of_stored("parts_behind_trains_every_post");
    assert_eq!((every_post.days_at_rest, every_post.reordered), (2, 2));
    assert_eq!(every_post.sets_without_signals, 0);
}

/// Of the stored days whose names begin so.
fn tally_of_stored(beginning: &str) -> Tally {
    let mut tally = Tally::default();
    let days = stored::days();
    for day in days.iter().filter(|day| day.name.starts_with(beginning)) {
        let day = dayfile::read(&day.file).unwrap();
        let list: Vec<Vec<u8>> = day.steps.chunks(8).map(<[u8]>::to_vec).collect();
        check_list(&list, day.settings, &mut tally);
    }
    tally
}

fn check_day(rng: &mut Rng, tally: &mut Tally) {
    let settings = generate::random_settings(rng);
    let list = random_list(rng, settings);
    check_list(&list, settings, tally);
}

fn check_list(list: &[Vec<u8>], settings: Settings, tally: &mut Tally) {
    let (accepted, end) = walk(list, settings);
    tally.offered += list.len();
    check_walked(accepted, end, tally);
}

fn check_walked(accepted: Vec<Accepted>, end: Section, tally: &mut Tally) {
    let settings = end.settings;
    tally.accepted += accepted.len();
    count_forms(&accepted, settings, tally);
    count_reversing(&accepted, settings, tally);
    check_runs(&accepted, &end, tally);
    check_starters(&end);
    if at_rest(&end) {
        tally.days_at_rest += 1;
        check_order_without_trains_in_reversals(&accepted, &end, tally);
    }
}

fn at_rest(section: &Section) -> bool {
    let mut tracks = section.tracks.iter();
    tracks.all(|track| !track.reversal_under_way())
}

// The lists.

/// Mostly sensible steps, with malformed ones between; near the end mostly such as bring
/// the section to rest.
fn random_list(rng: &mut Rng, settings: Settings) -> Vec<Vec<u8>> {
    let mut section = Section::fresh(settings);
    let mut list = Vec::new();
    let posts = u64::from(settings.n);
    let length = rng.below(40 * posts) as usize;
    let closing = if rng.chance(4, 5) {
        60 * posts as usize
    } else {
        0
    };
    let keen = rng.chance(1, 2);
    for place in 0..length + closing {
        if place >= length && at_rest(&section) {
            break;
        }
        let furthering = place >= length || keen && rng.chance(1, 2);
        let step = offered_step(rng, &section, furthering);
        section = judge(&section, &step).section;
        list.push(step);
    }
    list
}

fn offered_step(rng: &mut Rng, section: &Section, furthering: bool) -> Vec<u8> {
    if rng.chance(1, 30) {
        return malformed_step(rng, section);
    }
    if !furthering || rng.chance(1, 8) {
        return generate::sensible_step(rng, section).to_vec();
    }
    let track = rng.flag();
    generate::furthering_step(rng, section, track).to_vec()
}

fn malformed_step(rng: &mut Rng, section: &Section) -> Vec<u8> {
    let mut step = generate::sensible_step(rng, section).to_vec();
    match rng.below(7) {
        0 => step.truncate(rng.below(8) as usize),
        1 => step.push(0),
        2 => step[0] = rng.pick(&[0, 15, 255]),
        3 => step[1] = 2,
        4 => step[2] = section.settings.n,
        5 => step[4..6].copy_from_slice(&rng.pick(&[60_000u16, 65_535]).to_le_bytes()),
        _ => step[6 + rng.below(2) as usize] = 1,
    }
    assert_eq!(judge(section, &step).refusal, 4);
    step
}

/// Offers the list anew, from the fresh section.
fn walk(list: &[Vec<u8>], settings: Settings) -> (Vec<Accepted>, Section) {
    let mut section = Section::fresh(settings);
    let mut accepted = Vec::new();
    for (place, bytes) in list.iter().enumerate() {
        let answer = judge(&section, bytes);
        if answer.refusal == 0 {
            let (track, step) = decode(bytes, settings.n).unwrap();
            accepted.push(Accepted {
                place,
                track: track.into(),
                step,
                said: answer.said,
            });
        } else {
            assert_eq!(answer.section, section);
        }
        section = answer.section;
    }
    (accepted, section)
}

fn count_forms(accepted: &[Accepted], settings: Settings, tally: &mut Tally) {
    tally.days_with_crossings += usize::from(settings.has_crossings());
    let mut section = Section::fresh(settings);
    for one in accepted {
        let before = section.tracks[one.track].posts[usize::from(post_of(&one.step))].form_for;
        section = judge(&section, &encode(one.track as u8, &one.step)).section;
        match one.step {
            Step::Form { .. } => tally.forms += 1,
            Step::FaultOn { fault: 4, .. } => tally.faults_4 += 1,
            Step::Start { train, .. } | Step::Pass { train, .. } if before == train => {
                tally.forms_used += 1;
            }
            _ => {}
        }
    }
}

fn count_reversing(accepted: &[Accepted], settings: Settings, tally: &mut Tally) {
    let mut section = Section::fresh(settings);
    for one in accepted {
        let behind_trains = usize::from(holds_train(section.trains(one.track)));
        match one.step {
            Step::Order { .. } => tally.orders_behind_trains += behind_trains,
            step if turns_without_signals(&step, &settings) => {
                tally.sets_without_signals += 1;
                tally.sets_without_signals_behind_trains += behind_trains;
            }
            _ => {}
        }
        section = judge(&section, &encode(one.track as u8, &one.step)).section;
    }
}

/// A set or key at a post without signals.
fn turns_without_signals(step: &Step, settings: &Settings) -> bool {
    match *step {
        Step::Set { post } | Step::Key { post } => !settings.signalled(post),
        _ => false,
    }
}

// Runs.

fn check_runs(accepted: &[Accepted], end: &Section, tally: &mut Tally) {
    let runs = gather_runs(accepted);
    tally.runs += runs.len();
    tally.ended_runs += runs.iter().filter(|run| run.leave.is_some()).count();
    for run in &runs {
        check_far_end(run, end.settings.n);
    }
    for track in 0..2 {
        let on_track: Vec<&Run> = runs
            .iter()
            .filter(|run| run.track == track && run.leave.is_none())
            .collect();
        check_positions(&on_track, end, track);
        check_one_way(&on_track, end, track);
    }
}

fn gather_runs(accepted: &[Accepted]) -> Vec<Run> {
    let mut runs = Vec::new();
    let mut open = BTreeMap::<(usize, u16), Run>::new();
    for one in accepted {
        let track = one.track;
        match one.step {
            Step::Start { post, train } => {
                let run = Run {
                    track,
                    train,
                    start: post,
                    passes: Vec::new(),
                    leave: None,
                };
                assert!(open.insert((track, train), run).is_none(), "started twice");
            }
            Step::Pass { post, train } => {
                open.get_mut(&(track, train))
                    .expect("pass without run")
                    .passes
                    .push(post);
            }
            Step::Leave { post, train } => {
                let mut run = open.remove(&(track, train)).expect("leave without run");
                run.leave = Some(post);
                runs.push(run);
            }
            _ => {}
        }
    }
    runs.extend(open.into_values());
    runs
}

/// A run that ended passed each post between the ends in turn and left at the other end.
fn check_far_end(run: &Run, n: u8) {
    let Some(leave) = run.leave else { return };
    let mut between: Vec<u8> = (1..n - 1).collect();
    if run.start != 0 {
        assert_eq!(run.start, n - 1);
        between.reverse();
    }
    assert_eq!(run.passes, between, "{run:?}");
    assert_eq!(leave, n - 1 - run.start, "{run:?}");
}

fn check_positions(on_track: &[&Run], end: &Section, track: usize) {
    let n = end.settings.n;
    let mut expected = vec![0; usize::from(n) - 1];
    for run in on_track {
        let moved = run.passes.len();
        let block_section = if run.start == 0 {
            moved
        } else {
            usize::from(run.start) - 1 - moved
        };
        assert_eq!(expected[block_section], 0, "two trains in a block section");
        expected[block_section] = run.train;
    }
    assert_eq!(end.tracks[track].trains[..expected.len()], expected);
}

fn check_one_way(on_track: &[&Run], end: &Section, track: usize) {
    let upward = (track == 0) == (end.tracks[track].direction == 0);
    let sending_end = if upward { 0 } else { end.settings.n - 1 };
    assert!(on_track.iter().all(|run| run.start == sending_end));
}

/// At most one post of each track has permission or would have a start accepted.
fn check_starters(end: &Section) {
    for track in 0..2u8 {
        let starters = (0..end.settings.n)
            .filter(|&post| {
                let kept = &end.tracks[usize::from(track)].posts[usize::from(post)];
                kept.permission == 1 || start_is_accepted(end, track, post)
            })
            .count();
        assert!(starters <= 1, "{starters} posts may start trains");
    }
}

/// Fifteen block sections hold at most fifteen numbers, so sixteen tell for all where no form
/// is needed, and the form's own where one is; some others are tried all the same.
fn start_is_accepted(section: &Section, track: u8, post: u8) -> bool {
    let form_for = section.tracks[usize::from(track)].posts[usize::from(post)].form_for;
    (1..=16)
        .chain([500, 9_999, 10_000, 59_999, form_for])
        .any(|train| judge(section, &encode(track, &Step::Start { post, train })).refusal == 0)
}

// The new order.

fn check_order_without_trains_in_reversals(
    accepted: &[Accepted],
    end: &Section,
    tally: &mut Tally,
) {
    let needed = meets_train_in_reversal(accepted, end.settings);
    tally.reversals += reversals(accepted, end.settings).len();
    let new_order = trains_out_of_the_way(accepted, end.settings);
    if needed {
        tally.reordered += 1;
        let without_signals = sets_without_signals_behind_a_train(accepted, end.settings);
        tally.reordered_without_signals += usize::from(without_signals);
        tally.days_with_forms_moved += usize::from(form_moved_ahead(&new_order, accepted));
        assert_eq!(end.settings.form, MATERIALISED);
    } else {
        check_new_order(accepted, accepted, end);
    }
    check_new_order(&new_order, accepted, end);
}

fn sets_without_signals_behind_a_train(accepted: &[Accepted], settings: Settings) -> bool {
    let mut tally = Tally::default();
    count_reversing(accepted, settings, &mut tally);
    tally.sets_without_signals_behind_trains > 0
}

fn form_moved_ahead(new_order: &[Accepted], accepted: &[Accepted]) -> bool {
    let is_form = |one: &Accepted| matches!(one.step, Step::Form { .. });
    let mut both = new_order.iter().zip(accepted);
    both.any(|(new, old)| is_form(new) && new.place > old.place)
}

fn meets_train_in_reversal(accepted: &[Accepted], settings: Settings) -> bool {
    let mut section = Section::fresh(settings);
    accepted.iter().any(|one| {
        section = judge(&section, &encode(one.track as u8, &one.step)).section;
        train_in_reversal(&section)
    })
}

fn train_in_reversal(section: &Section) -> bool {
    (0..2).any(|track| {
        let reversing = section.tracks[track].reversal_under_way();
        reversing && holds_train(section.trains(track))
    })
}

/// Track, first place and last place (in `accepted`) of each reversal that ended.
fn reversals(accepted: &[Accepted], settings: Settings) -> Vec<(usize, usize, usize)> {
    let mut section = Section::fresh(settings);
    let mut begun = [None; 2];
    let mut found = Vec::new();
    for (place, one) in accepted.iter().enumerate() {
        section = judge(&section, &encode(one.track as u8, &one.step)).section;
        let runs = section.tracks[one.track].reversal_under_way();
        match (begun[one.track], runs) {
            (None, true) => begun[one.track] = Some(place),
            (Some(first), false) => {
                found.push((one.track, first, place));
                begun[one.track] = None;
            }
            _ => {}
        }
    }
    found
}

/// In each reversal the track's train movements, with all that their posts did before them,
/// go ahead of the order; the rest of the track's steps follow. The other track's steps stay
/// where they are.
fn trains_out_of_the_way(accepted: &[Accepted], settings: Settings) -> Vec<Accepted> {
    let mut order = accepted.to_vec();
    for (track, first, last) in reversals(accepted, settings) {
        let places: Vec<usize> = (first..=last)
            .filter(|&i| order[i].track == track)
            .collect();
        let steps: Vec<Accepted> = places.iter().map(|&i| order[i]).collect();
        let (early, late): (Vec<_>, Vec<_>) = steps
            .iter()
            .enumerate()
            .partition(|&(i, one)| post_moves_train_later(&steps[i..], post_of(&one.step)));
        for (&place, (_, one)) in places.iter().zip(early.into_iter().chain(late)) {
            order[place] = *one;
        }
    }
    order
}

fn post_moves_train_later(steps: &[Accepted], post: u8) -> bool {
    steps
        .iter()
        .any(|one| train_of(&one.step).is_some() && post_of(&one.step) == post)
}

fn check_new_order(new_order: &[Accepted], accepted: &[Accepted], end: &Section) {
    let mut places: Vec<usize> = new_order.iter().map(|one| one.place).collect();
    places.sort_unstable();
    assert!(places
        .iter()
        .copied()
        .eq(accepted.iter().map(|one| one.place)));
    check_own_sequences(new_order);
    let mut section = Section::fresh(end.settings);
    for one in new_order {
        let answer = judge(&section, &encode(one.track as u8, &one.step));
        assert_eq!((answer.refusal, answer.said), (0, one.said), "{one:?}");
        section = answer.section;
        assert!(!train_in_reversal(&section), "{one:?}");
    }
    assert_eq!(section, *end);
}

/// Each post's own steps and each train's own steps keep the old sequence.
fn check_own_sequences(new_order: &[Accepted]) {
    let mut of_post = BTreeMap::<(usize, u8), usize>::new();
    let mut of_train = BTreeMap::<(usize, u16), usize>::new();
    for one in new_order {
        let before = of_post.insert((one.track, post_of(&one.step)), one.place);
        assert!(
            before.is_none_or(|place| place < one.place),
            "post's own steps"
        );
        if let Some(train) = train_of(&one.step) {
            let before = of_train.insert((one.track, train), one.place);
            assert!(
                before.is_none_or(|place| place < one.place),
                "train's own steps"
            );
        }
    }
}

fn post_of(step: &Step) -> u8 {
    match *step {
        Step::Order { post }
        | Step::Set { post }
        | Step::Announce { post }
        | Step::Acknowledge { post }
        | Step::Start { post, .. }
        | Step::Pass { post, .. }
        | Step::Leave { post, .. }
        | Step::MeasuresOn { post }
        | Step::MeasuresOff { post }
        | Step::FaultOn { post, .. }
        | Step::FaultOff { post, .. }
        | Step::Release { post, .. }
        | Step::Key { post }
        | Step::Form { post, .. } => post,
    }
}

/// A train's own steps are its starts, passes and leaves.
fn train_of(step: &Step) -> Option<u16> {
    match *step {
        Step::Start { train, .. } | Step::Pass { train, .. } | Step::Leave { train, .. } => {
            Some(train)
        }
        _ => None,
    }
}
