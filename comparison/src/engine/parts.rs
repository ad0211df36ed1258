//! Where the part that a post commands decided otherwise than the block section ahead would have (document 02, request 3).

use reference::section::{Section, FAULT_1};
use reference::settings::MATERIALISED;
use reference::step::{decode, Step};

const OUT_OF_RANGE: u8 = 6;
const NOT_AT_THIS_POST: u8 = 12;
const OCCUPIED: u8 = 13;

/// TRONÇON.
const NONE: u8 = 0;
const RED: u8 = 2;

#[derive(Clone, Copy, PartialEq)]
pub enum ByPart {
    OrderSeesFartherOn,
    SetSeesFartherOn,
    ReleaseSeesFartherOn,
    /// At a post without signals; no state reached from a fresh section gives it.
    SetWithATrainAhead,
    SetUnderFault1,
    ReleaseWithoutAPart,
    RedByATrainFartherOn,
    NoTronconWithoutSignals,
}

pub const OF_SECTIONS: [ByPart; 8] = [
    ByPart::OrderSeesFartherOn,
    ByPart::SetSeesFartherOn,
    ByPart::ReleaseSeesFartherOn,
    ByPart::SetWithATrainAhead,
    ByPart::SetUnderFault1,
    ByPart::ReleaseWithoutAPart,
    ByPart::RedByATrainFartherOn,
    ByPart::NoTronconWithoutSignals,
];

pub const OF_DAYS: [ByPart; 7] = [
    ByPart::OrderSeesFartherOn,
    ByPart::SetSeesFartherOn,
    ByPart::ReleaseSeesFartherOn,
    ByPart::SetUnderFault1,
    ByPart::ReleaseWithoutAPart,
    ByPart::RedByATrainFartherOn,
    ByPart::NoTronconWithoutSignals,
];

impl ByPart {
    /// By the answer to a step on that section; `None` where it is out of range.
    pub fn of(before: &Section, step: &[u8], refusal: u8) -> Option<ByPart> {
        if refusal == OUT_OF_RANGE {
            return None;
        }
        let (track, taken) = decode(step, before.settings.n)?;
        let (Step::Order { post }
        | Step::Set { post }
        | Step::Key { post }
        | Step::Release { post, .. }) = taken
        else {
            return None;
        };
        let site = Site::of(before, usize::from(track), post)?;
        match (taken, refusal) {
            (Step::Order { .. }, OCCUPIED) if !site.train_ahead => Some(ByPart::OrderSeesFartherOn),
            (Step::Set { .. } | Step::Key { .. }, OCCUPIED) if !site.train_ahead => {
                Some(ByPart::SetSeesFartherOn)
            }
            (Step::Release { .. }, OCCUPIED) if !site.train_ahead => {
                Some(ByPart::ReleaseSeesFartherOn)
            }
            (Step::Release { .. }, NOT_AT_THIS_POST) if site.without_signals => {
                Some(ByPart::ReleaseWithoutAPart)
            }
            (Step::Set { .. } | Step::Key { .. }, 0) if site.without_signals => {
                site.of_accepted_set()
            }
            _ => None,
        }
    }

    /// By what a post of a section in range shows.
    pub fn shown(section: &Section, track: u8, post: u8, troncon: u8) -> Option<ByPart> {
        let site = Site::of(section, usize::from(track), post)?;
        match troncon {
            NONE if site.without_signals => Some(ByPart::NoTronconWithoutSignals),
            RED if !site.train_ahead && !site.fault_1 => Some(ByPart::RedByATrainFartherOn),
            _ => None,
        }
    }

    pub fn name(self) -> &'static str {
        match self {
            ByPart::OrderSeesFartherOn => "order 13 by a train farther on",
            ByPart::SetSeesFartherOn => "set or key 13 by a train farther on",
            ByPart::ReleaseSeesFartherOn => "release 13 by a train farther on",
            ByPart::SetWithATrainAhead => "set or key without signals, a train ahead",
            ByPart::SetUnderFault1 => "set or key without signals under fault 1",
            ByPart::ReleaseWithoutAPart => "release 12 without signals",
            ByPart::RedByATrainFartherOn => "TRONÇON red by a train farther on",
            ByPart::NoTronconWithoutSignals => "TRONÇON 0 without signals",
        }
    }
}

/// A post of a materialised line.
struct Site {
    train_ahead: bool,
    /// An intermediate post.
    without_signals: bool,
    fault_1: bool,
    mark: bool,
}

impl Site {
    fn of(section: &Section, track: usize, post: u8) -> Option<Site> {
        if section.settings.form != MATERIALISED {
            return None;
        }
        let ahead = section.way(track).ahead(post);
        let record = section.tracks[track].posts[usize::from(post)];
        Some(Site {
            train_ahead: ahead.is_some_and(|ahead| section.tracks[track].trains[ahead] != 0),
            without_signals: !section.settings.signalled(post),
            fault_1: record.faults & FAULT_1 != 0,
            mark: record.mark != 0,
        })
    }

    fn of_accepted_set(&self) -> Option<ByPart> {
        if self.train_ahead {
            return Some(ByPart::SetWithATrainAhead);
        }
        (self.fault_1 && !self.mark).then_some(ByPart::SetUnderFault1)
    }
}
