//! The bench listing and the panel listing of a day file.

use crate::dayfile::{self, Day, Refusal};
use crate::engine;
use crate::indications::indications;
use crate::section::{Section, Track};
use crate::step::STEP_LENGTH;
use crate::way::VNS;

/// Room for the longest usual line of a listing: `4095 21 CVTz c V`.
const LINE_LENGTH: usize = 18;

/// A step of the day, its answer, and the section after it.
struct Judged<'a> {
    step: &'a [u8],
    refusal: u8,
    said: u8,
    section: &'a Section,
}

pub fn listing(file: &[u8]) -> Vec<u8> {
    lines(file, push_answer)
}

pub fn panel(file: &[u8]) -> Vec<u8> {
    lines(file, push_panel_of_track)
}

/// The header and a line a step, each with the step's index in front.
fn lines(file: &[u8], push_rest: impl Fn(&mut Vec<u8>, &Judged)) -> Vec<u8> {
    let day = match dayfile::read(file) {
        Ok(day) => day,
        Err(refusal) => return refused(refusal),
    };
    let mut out = Vec::with_capacity(LINE_LENGTH * (day.count + 2));
    push_header(&mut out, &day);
    let mut section = Section::fresh(day.settings);
    for (index, step) in day.steps.chunks_exact(STEP_LENGTH).enumerate() {
        let (refusal, said) = engine::judge_in_place(&mut section, step);
        push_number(&mut out, index);
        let judged = Judged {
            step,
            refusal,
            said,
            section: &section,
        };
        push_rest(&mut out, &judged);
        out.push(b'\n');
    }
    out
}

fn push_answer(out: &mut Vec<u8>, judged: &Judged) {
    out.push(b' ');
    push_number(out, usize::from(judged.refusal));
    out.push(b' ');
    out.extend_from_slice(said_text(judged.said));
    for track in &judged.section.tracks {
        out.push(b' ');
        out.push(direction_letter(track));
    }
}

fn push_panel_of_track(out: &mut Vec<u8>, judged: &Judged) {
    let track = judged.step[1];
    out.push(b' ');
    out.push(b'A' + track);
    for post in 0..judged.section.settings.n {
        let (circulation, troncon, permission) = indications(judged.section, track, post);
        out.extend_from_slice(&[
            b' ',
            b'0' + circulation,
            b'/',
            b'0' + troncon,
            b'/',
            b'0' + permission,
        ]);
    }
}

fn refused(refusal: Refusal) -> Vec<u8> {
    format!("refused {} {}\n", refusal.number, refusal.index).into_bytes()
}

fn push_header(out: &mut Vec<u8>, day: &Day) {
    out.extend_from_slice(b"posts ");
    push_number(out, usize::from(day.settings.n));
    out.extend_from_slice(b" steps ");
    push_number(out, day.count);
    out.push(b'\n');
}

fn said_text(said: u8) -> &'static [u8] {
    match said {
        engine::SAID_CVT => b"CVT",
        engine::SAID_CVTZ => b"CVTz",
        engine::SAID_VNS => b"VNS",
        engine::SAID_VNSZ => b"VNSz",
        _ => b"-",
    }
}

/// Capital for a settled track; small for the direction a reversal leads to.
pub fn direction_letter(track: &Track) -> u8 {
    match (track.reversal_under_way(), track.direction == VNS) {
        (false, true) => b'V',
        (false, false) => b'C',
        (true, true) => b'c',
        (true, false) => b'v',
    }
}

/// Decimal without the formatting machinery, which would dominate the listing's time.
fn push_number(out: &mut Vec<u8>, number: usize) {
    if number >= 10 {
        push_number(out, number / 10);
    }
    out.push(b'0' + (number % 10) as u8);
}
