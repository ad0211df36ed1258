//! The judging of single steps: the checks in the order of the table, then the effect.

use crate::section::{
    holds_train, Post, Section, Track, ACKNOWLEDGE, ANNOUNCE, FAULT_1, FAULT_2, FAULT_4,
    MOST_SEALS, NO_REVERSAL, SET,
};
use crate::settings::{Settings, TELEPHONE};
use crate::step::{self, Step, STEP_LENGTH};
use crate::way::{ends_stretch, opposite, Way, CVT, VNS};

pub const SAID_NOTHING: u8 = 0;
pub const SAID_CVT: u8 = 1;
pub const SAID_CVTZ: u8 = 2;
pub const SAID_VNS: u8 = 3;
pub const SAID_VNSZ: u8 = 4;

#[derive(Clone, Copy, Debug, PartialEq, Eq)]
pub struct Answer {
    /// 0 for an accepted step.
    pub refusal: u8,
    pub said: u8,
    pub section: Section,
}

pub fn judge(section: &Section, step_bytes: &[u8]) -> Answer {
    let mut after = *section;
    let (refusal, said) = judge_in_place(&mut after, step_bytes);
    Answer {
        refusal,
        said,
        section: after,
    }
}

/// The refusal (0 for none) and what is said; a refused step leaves the section as it was.
pub fn judge_in_place(section: &mut Section, step_bytes: &[u8]) -> (u8, u8) {
    if !section.in_range() {
        return (6, SAID_NOTHING);
    }
    judge_in_range(section, step_bytes)
}

/// The same, for a section that is known to be in range, as every one that is reached from fresh.
pub fn judge_in_range(section: &mut Section, step_bytes: &[u8]) -> (u8, u8) {
    match step::decode(step_bytes, section.settings.n) {
        Some((track, step)) => take(section, track, step),
        None => (4, SAID_NOTHING),
    }
}

/// The same, for a step that is known to be well-formed in that section too.
#[inline]
pub fn judge_well_formed(section: &mut Section, step_bytes: &[u8; STEP_LENGTH]) -> (u8, u8) {
    let (track, step) = step::decode_well_formed(step_bytes);
    take(section, track, step)
}

#[inline]
fn take(section: &mut Section, track: u8, step: Step) -> (u8, u8) {
    match JudgedTrack::of(section, usize::from(track)).take(step) {
        Ok(said) => (0, said),
        Err(refusal) => (refusal, SAID_NOTHING),
    }
}

fn refuse_if(hindered: bool, refusal: u8) -> Result<(), u8> {
    if hindered {
        Err(refusal)
    } else {
        Ok(())
    }
}

/// The track a step is for, with what its checks need beside it.
struct JudgedTrack<'a> {
    settings: Settings,
    way: Way,
    other_settled_on_vns: bool,
    track: &'a mut Track,
}

impl JudgedTrack<'_> {
    fn of(section: &mut Section, track: usize) -> JudgedTrack<'_> {
        JudgedTrack {
            settings: section.settings,
            way: section.way(track),
            other_settled_on_vns: section.tracks[1 - track].settled_on(VNS),
            track: &mut section.tracks[track],
        }
    }

    fn take(&mut self, step: Step) -> Result<u8, u8> {
        match step {
            Step::Order { post } => self.order(post)?,
            Step::Set { post } => self.set(post)?,
            Step::Announce { post } => return self.announce(post),
            Step::Acknowledge { post } => return self.acknowledge(post),
            Step::Start { post, train } => self.start(post, train)?,
            Step::Pass { post, train } => self.pass(post, train)?,
            Step::Leave { post, train } => self.leave(post, train)?,
            Step::MeasuresOn { post } => self.measures_on(post)?,
            Step::MeasuresOff { post } => self.measures_off(post)?,
            Step::FaultOn { post, fault } => self.fault_on(post, fault)?,
            Step::FaultOff { post, fault } => self.fault_off(post, fault)?,
            Step::Release { post, train } => self.release(post, train)?,
            Step::Key { post } => self.key(post)?,
            Step::Form { post, train } => self.form(post, train)?,
        }
        Ok(SAID_NOTHING)
    }

    // The reversal.

    fn order(&mut self, post: u8) -> Result<(), u8> {
        refuse_if(self.track.reversal_under_way(), 11)?;
        refuse_if(post != self.way.sending_end(), 12)?;
        refuse_if(
            self.new_direction() == CVT && !self.other_settled_on_vns,
            14,
        )?;
        refuse_if(self.order_finds_train(post), 13)?;
        self.track.act = SET;
        self.track.turn = post;
        self.post(post).permission = 0;
        Ok(())
    }

    fn set(&mut self, post: u8) -> Result<(), u8> {
        refuse_if(!self.is_turn(post, SET), 15)?;
        refuse_if(self.train_in_part(post), 13)?;
        refuse_if(self.unconfirmed_fault_1(post), 18)?;
        refuse_if(self.measures_missing(post), 16)?;
        refuse_if(self.has_fault(post, FAULT_2), 19)?;
        self.turn_device(post);
        Ok(())
    }

    fn key(&mut self, post: u8) -> Result<(), u8> {
        refuse_if(!self.is_turn(post, SET), 15)?;
        refuse_if(!self.has_fault(post, FAULT_2), 21)?;
        refuse_if(self.train_in_part(post), 13)?;
        refuse_if(self.unconfirmed_fault_1(post), 18)?;
        refuse_if(self.measures_missing(post), 16)?;
        refuse_if(self.post(post).seals == MOST_SEALS, 20)?;
        self.turn_device(post);
        self.post(post).seals += 1;
        Ok(())
    }

    fn announce(&mut self, post: u8) -> Result<u8, u8> {
        refuse_if(!self.is_turn(post, ANNOUNCE), 15)?;
        self.track.turn = self.way.next_post(post);
        self.track.act = ACKNOWLEDGE;
        Ok(if self.new_direction() == CVT {
            SAID_CVT
        } else {
            SAID_VNS
        })
    }

    fn acknowledge(&mut self, post: u8) -> Result<u8, u8> {
        refuse_if(!self.is_turn(post, ACKNOWLEDGE), 15)?;
        self.track.act = SET;
        Ok(if self.new_direction() == CVT {
            SAID_CVTZ
        } else {
            SAID_VNSZ
        })
    }

    /// The effect of set and key.
    fn turn_device(&mut self, post: u8) {
        let direction = self.new_direction();
        let is_last = post == self.way.receiving_end();
        let record = self.post(post);
        record.device = direction;
        record.mark = 0;
        record.form_for = 0;
        if is_last {
            record.permission = 1;
            self.track.direction = direction;
            self.track.act = NO_REVERSAL;
            self.track.turn = 0;
        } else {
            self.track.act = ANNOUNCE;
        }
    }

    // Trains.

    fn start(&mut self, post: u8, train: u16) -> Result<(), u8> {
        refuse_if(self.track.reversal_under_way(), 11)?;
        refuse_if(post != self.way.sending_end(), 12)?;
        refuse_if(self.trains().contains(&train), 17)?;
        refuse_if(self.train_in_stretch(post), 13)?;
        refuse_if(self.unconfirmed_fault_1(post), 18)?;
        refuse_if(self.form_missing(post, train), 22)?;
        self.enter_ahead(post, train);
        self.post(post).mark = 0;
        Ok(())
    }

    fn pass(&mut self, post: u8, train: u16) -> Result<(), u8> {
        refuse_if(self.way.is_end(post), 12)?;
        refuse_if(!self.train_before(post, train), 17)?;
        refuse_if(self.begins_stretch(post) && self.train_in_stretch(post), 13)?;
        refuse_if(self.form_missing(post, train), 22)?;
        self.clear_before(post);
        self.enter_ahead(post, train);
        Ok(())
    }

    fn leave(&mut self, post: u8, train: u16) -> Result<(), u8> {
        refuse_if(post != self.way.receiving_end(), 12)?;
        refuse_if(!self.train_before(post, train), 17)?;
        self.clear_before(post);
        Ok(())
    }

    // Measures, faults, the release mark and the form.

    fn measures_on(&mut self, post: u8) -> Result<(), u8> {
        refuse_if(self.post(post).measures == 1, 21)?;
        self.post(post).measures = 1;
        Ok(())
    }

    fn measures_off(&mut self, post: u8) -> Result<(), u8> {
        refuse_if(self.post(post).measures == 0, 21)?;
        refuse_if(self.post(post).device == CVT, 16)?;
        self.post(post).measures = 0;
        Ok(())
    }

    fn fault_on(&mut self, post: u8, fault: u8) -> Result<(), u8> {
        let bit = fault_bit(fault);
        refuse_if(self.has_fault(post, bit), 21)?;
        self.post(post).faults |= bit;
        Ok(())
    }

    fn fault_off(&mut self, post: u8, fault: u8) -> Result<(), u8> {
        let bit = fault_bit(fault);
        refuse_if(!self.has_fault(post, bit), 21)?;
        let record = self.post(post);
        record.faults &= !bit;
        if bit == FAULT_1 {
            record.mark = 0;
        }
        Ok(())
    }

    fn release(&mut self, post: u8, train: u16) -> Result<(), u8> {
        refuse_if(!self.in_turn_for_release(post), 15)?;
        refuse_if(!self.commands_part(post), 12)?;
        refuse_if(!self.has_fault(post, FAULT_1), 21)?;
        refuse_if(self.train_in_part(post), 13)?;
        refuse_if(!self.last_train_ahead(post, train), 17)?;
        self.post(post).mark = 1;
        Ok(())
    }

    fn form(&mut self, post: u8, train: u16) -> Result<(), u8> {
        refuse_if(!self.crossing_ahead(post), 12)?;
        self.post(post).form_for = train;
        Ok(())
    }

    // What the checks look at.

    fn post(&mut self, post: u8) -> &mut Post {
        &mut self.track.posts[usize::from(post)]
    }

    fn has_fault(&self, post: u8, bit: u8) -> bool {
        self.track.posts[usize::from(post)].faults & bit != 0
    }

    /// The direction a reversal, under way or ordered now, leads to.
    fn new_direction(&self) -> u8 {
        opposite(self.track.direction)
    }

    fn is_turn(&self, post: u8, act: u8) -> bool {
        self.track.act == act && self.track.turn == post
    }

    fn in_turn_for_release(&self, post: u8) -> bool {
        if self.track.reversal_under_way() {
            self.is_turn(post, SET)
        } else {
            post == self.way.sending_end()
        }
    }

    /// Fault 1 without a mark. The last post has nothing to control, and a post of a
    /// materialised line "without signals ... disregards fault 1".
    fn unconfirmed_fault_1(&self, post: u8) -> bool {
        let marked = self.track.posts[usize::from(post)].mark == 1;
        self.has_fault(post, FAULT_1) && !marked && self.commands_part(post)
    }

    fn measures_missing(&self, post: u8) -> bool {
        self.new_direction() == CVT && self.track.posts[usize::from(post)].measures == 0
    }

    fn trains(&self) -> &[u16] {
        &self.track.trains[..usize::from(self.settings.n) - 1]
    }

    fn order_finds_train(&self, post: u8) -> bool {
        if self.settings.form == TELEPHONE {
            holds_train(self.trains())
        } else {
            self.train_in_part(post)
        }
    }

    fn commands_part(&self, post: u8) -> bool {
        self.way.commands_part(&self.settings, post)
    }

    /// A post that commands no part "checks no track".
    fn train_in_part(&self, post: u8) -> bool {
        self.way
            .part(&self.settings, post)
            .is_some_and(|part| holds_train(&self.track.trains[part]))
    }

    fn last_train_ahead(&self, post: u8, train: u16) -> bool {
        self.way
            .ahead(post)
            .is_some_and(|ahead| self.track.last[ahead] == train)
    }

    fn train_before(&self, post: u8, train: u16) -> bool {
        self.way
            .before(post)
            .is_some_and(|before| self.track.trains[before] == train)
    }

    fn begins_stretch(&self, post: u8) -> bool {
        ends_stretch(&self.settings, self.track.direction, post)
    }

    fn train_in_stretch(&self, post: u8) -> bool {
        let stretch = self.way.stretch(&self.settings, self.track.direction, post);
        holds_train(&self.track.trains[stretch])
    }

    fn form_missing(&self, post: u8, train: u16) -> bool {
        self.form_needed(post) && self.track.posts[usize::from(post)].form_for != train
    }

    fn form_needed(&self, post: u8) -> bool {
        let zones_not_adapted = self.has_fault(post, FAULT_4) && self.crossing_ahead(post);
        zones_not_adapted || self.track.direction == CVT && self.crossing_without_zones_ahead(post)
    }

    fn crossing_ahead(&self, post: u8) -> bool {
        self.way
            .ahead(post)
            .is_some_and(|ahead| self.settings.crossing_in(ahead))
    }

    fn crossing_without_zones_ahead(&self, post: u8) -> bool {
        self.way
            .ahead(post)
            .is_some_and(|ahead| self.settings.crossing_without_zones_in(ahead))
    }

    /// The train's form at the post is used up, needed or not.
    fn enter_ahead(&mut self, post: u8, train: u16) {
        if let Some(ahead) = self.way.ahead(post) {
            self.track.trains[ahead] = train;
            self.track.last[ahead] = train;
        }
        let record = self.post(post);
        if record.form_for == train {
            record.form_for = 0;
        }
    }

    fn clear_before(&mut self, post: u8) {
        if let Some(before) = self.way.before(post) {
            self.track.trains[before] = 0;
        }
    }
}

fn fault_bit(fault: u8) -> u8 {
    1 << (fault - 1)
}
