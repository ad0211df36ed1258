//! What a post shows: CIRCULATION, TRONÇON and the start permission.

use crate::section::{holds_train, Post, Section, Track, ANNOUNCE, FAULT_1, FAULT_3};
use crate::settings::MATERIALISED;
use crate::way::{Way, VNS};

pub const DARK: u8 = 0;
pub const STEADY_VNS: u8 = 1;
pub const STEADY_CVT: u8 = 2;
pub const FLASHING_VNS: u8 = 3;
pub const FLASHING_CVT: u8 = 4;

pub const NO_LAMP: u8 = 0;
pub const WHITE: u8 = 1;
pub const RED: u8 = 2;

/// CIRCULATION, TRONÇON and the start permission; all 0 for a state out of range
/// or a track or post that the section hasn't.
pub fn indications(section: &Section, track: u8, post: u8) -> (u8, u8, u8) {
    if track > 1 || post >= section.settings.n || !section.in_range() {
        return (0, 0, 0);
    }
    let way = section.way(usize::from(track));
    let kept = &section.tracks[usize::from(track)];
    let record = &kept.posts[usize::from(post)];
    let part = way.part(&section.settings, post);
    let trains = part.map(|part| &kept.trains[part]);
    let awaited = section.settings.form == MATERIALISED && awaits_set(kept, way, post);
    (
        circulation(record, awaited),
        troncon(record, trains),
        record.permission,
    )
}

fn circulation(post: &Post, awaited: bool) -> u8 {
    let at_vns = post.device == VNS;
    match (post.faults & FAULT_3 != 0, awaited, at_vns) {
        (true, _, _) => DARK,
        (false, true, true) => FLASHING_CVT,
        (false, true, false) => FLASHING_VNS,
        (false, false, true) => STEADY_VNS,
        (false, false, false) => STEADY_CVT,
    }
}

/// The post before has set in this reversal and this one hasn't.
pub(crate) fn awaits_set(track: &Track, way: Way, post: u8) -> bool {
    let set = posts_that_have_set(track, way);
    let rank = way.rank(post);
    set > 0 && rank == set
}

/// As many posts, from the old sending end on, have set in the reversal under way.
fn posts_that_have_set(track: &Track, way: Way) -> u8 {
    if !track.reversal_under_way() {
        0
    } else if track.act == ANNOUNCE {
        way.rank(track.turn) + 1
    } else {
        way.rank(track.turn)
    }
}

/// By the trains of the part that the post commands. One that commands none shows nothing, fault
/// 1 or not.
fn troncon(post: &Post, trains: Option<&[u16]>) -> u8 {
    match trains {
        None => NO_LAMP,
        Some(trains) if post.faults & FAULT_1 != 0 || holds_train(trains) => RED,
        Some(_) => WHITE,
    }
}
