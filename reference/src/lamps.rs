//! The lamp table that panel builders wire from: an entry for each index of eight bits.

use crate::indications::{
    awaits_set, DARK, FLASHING_CVT, FLASHING_VNS, NO_LAMP, RED, STEADY_CVT, STEADY_VNS, WHITE,
};
use crate::section::{holds_train, Section, FAULT_1, FAULT_3};
use crate::settings::MATERIALISED;
use crate::way::CVT;

pub const ENTRIES: usize = 256;

/// The bits of an index.
pub const ON_MATERIALISED: u8 = 1;
pub const DEVICE_CVT: u8 = 2;
/// The previous post has set in this reversal and this one hasn't.
pub const AWAITS_SET: u8 = 4;
pub const HAS_FAULT_1: u8 = 8;
pub const HAS_FAULT_3: u8 = 16;
pub const PART_OCCUPIED: u8 = 32;
/// By telephone, any post but the receiving end.
pub const COMMANDS_PART: u8 = 64;
pub const HAS_PERMISSION: u8 = 128;

/// CIRCULATION has five values and TRONÇON three.
const TRONCON_UNIT: u8 = 5;
const PERMISSION_UNIT: u8 = 15;

pub fn table() -> [u8; ENTRIES] {
    std::array::from_fn(|index| entry(index as u8))
}

/// CIRCULATION + 5 x TRONÇON + 15 x permission, by the bits of the index alone.
pub fn entry(index: u8) -> u8 {
    let permission = u8::from(index & HAS_PERMISSION != 0);
    circulation(index) + TRONCON_UNIT * troncon(index) + PERMISSION_UNIT * permission
}

/// The three things that an entry holds: CIRCULATION, TRONÇON and the start permission.
pub fn taken_apart(entry: u8) -> (u8, u8, u8) {
    (
        entry % TRONCON_UNIT,
        entry % PERMISSION_UNIT / TRONCON_UNIT,
        entry / PERMISSION_UNIT,
    )
}

fn circulation(index: u8) -> u8 {
    let flashing = ON_MATERIALISED | AWAITS_SET;
    let at_cvt = index & DEVICE_CVT != 0;
    if index & HAS_FAULT_3 != 0 {
        DARK
    } else if index & flashing == flashing {
        // The direction that the device does not stand at.
        if at_cvt {
            FLASHING_VNS
        } else {
            FLASHING_CVT
        }
    } else if at_cvt {
        STEADY_CVT
    } else {
        STEADY_VNS
    }
}

fn troncon(index: u8) -> u8 {
    if index & COMMANDS_PART == 0 {
        NO_LAMP
    } else if index & (HAS_FAULT_1 | PART_OCCUPIED) != 0 {
        RED
    } else {
        WHITE
    }
}

/// The index of a post's state; for a section in range and a track and post that it has.
pub fn index(section: &Section, track: u8, post: u8) -> u8 {
    let way = section.way(usize::from(track));
    let kept = &section.tracks[usize::from(track)];
    let record = &kept.posts[usize::from(post)];
    let part = way.part(&section.settings, post);
    let commands_part = part.is_some();
    let occupied = part.is_some_and(|part| holds_train(&kept.trains[part]));
    [
        (ON_MATERIALISED, section.settings.form == MATERIALISED),
        (DEVICE_CVT, record.device == CVT),
        (AWAITS_SET, awaits_set(kept, way, post)),
        (HAS_FAULT_1, record.faults & FAULT_1 != 0),
        (HAS_FAULT_3, record.faults & FAULT_3 != 0),
        (PART_OCCUPIED, occupied),
        (COMMANDS_PART, commands_part),
        (HAS_PERMISSION, record.permission == 1),
    ]
    .into_iter()
    .map(|(bit, holds)| if holds { bit } else { 0 })
    .sum()
}
