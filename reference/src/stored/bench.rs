//! A section on the bench: steps are offered to it, kept, and must be answered as demanded.

use crate::dayfile;
use crate::engine;
use crate::indications::indications;
use crate::section::{Section, Track};
use crate::settings::Settings;
use crate::step::{self, Step, STEP_LENGTH};
use crate::way::{Way, CVT, VNS};

pub const A: u8 = 0;
pub const B: u8 = 1;

/// CIRCULATION, TRONÇON and the start permission of a post.
pub type Lamps = (u8, u8, u8);

pub struct Bench {
    pub section: Section,
    /// The track that steps are offered to.
    pub track: u8,
    steps: Vec<u8>,
}

impl Bench {
    pub fn new(settings: Settings, track: u8) -> Bench {
        Bench {
            section: Section::fresh(settings),
            track,
            steps: Vec::new(),
        }
    }

    pub fn n(&self) -> u8 {
        self.section.settings.n
    }

    pub fn kept(&self) -> &Track {
        &self.section.tracks[usize::from(self.track)]
    }

    pub fn way(&self) -> Way {
        self.section.way(usize::from(self.track))
    }

    pub fn to_cvt(&self) -> bool {
        self.kept().direction == VNS
    }

    /// The post that trains reach after as many others.
    pub fn post_at(&self, rank: u8) -> u8 {
        self.way().rank(rank)
    }

    pub fn train_ahead(&self, post: u8) -> bool {
        let ahead = self.way().ahead(post);
        ahead.is_some_and(|block_section| self.kept().trains[block_section] != 0)
    }

    /// The last train that entered the block section ahead, 0 for none yet.
    pub fn last_ahead(&self, post: u8) -> u16 {
        let ahead = self.way().ahead(post);
        ahead.map_or(0, |block_section| self.kept().last[block_section])
    }

    /// Keeps the step; its refusal, 0 for none, and what is said.
    pub fn offer(&mut self, step: Step) -> (u8, u8) {
        self.offer_bytes(step::encode(self.track, &step))
    }

    pub fn offer_bytes(&mut self, bytes: [u8; STEP_LENGTH]) -> (u8, u8) {
        self.steps.extend_from_slice(&bytes);
        engine::judge_in_place(&mut self.section, &bytes)
    }

    pub fn demand(&mut self, step: Step, refusal: u8) {
        let index = self.steps.len() / STEP_LENGTH;
        let given = self.offer(step).0;
        let track = self.track;
        assert_eq!(given, refusal, "step {index}, track {track}: {step:?}");
    }

    pub fn accept(&mut self, step: Step) {
        self.demand(step, 0);
    }

    pub fn refuse(&mut self, step: Step, refusal: u8) {
        assert_ne!(refusal, 0);
        self.demand(step, refusal);
    }

    /// Every post's lamps on the track, from post 0 on.
    pub fn lamps(&self) -> Vec<Lamps> {
        (0..self.n())
            .map(|post| indications(&self.section, self.track, post))
            .collect()
    }

    /// The other direction, by plain steps; measures stand already, or lie at VNS.
    pub fn reverse(&mut self) {
        self.reverse_by(|post| Step::Set { post });
    }

    /// The same by key; fault 2 stands at every post.
    pub fn reverse_by_key(&mut self) {
        self.reverse_by(|post| Step::Key { post });
    }

    fn reverse_by(&mut self, turn: fn(u8) -> Step) {
        let way = self.way();
        let last = way.receiving_end();
        let mut post = way.sending_end();
        self.accept(Step::Order { post });
        while post != last {
            self.accept(turn(post));
            self.accept(Step::Announce { post });
            post = way.next_post(post);
            self.accept(Step::Acknowledge { post });
        }
        self.accept(turn(post));
    }

    pub fn measures_on_everywhere(&mut self) {
        for post in 0..self.n() {
            self.accept(Step::MeasuresOn { post });
        }
    }

    pub fn measures_off_everywhere(&mut self) {
        for post in 0..self.n() {
            self.accept(Step::MeasuresOff { post });
        }
    }

    pub fn settled_on_cvt(&self) -> bool {
        self.kept().settled_on(CVT)
    }

    /// The file of the steps offered so far.
    pub fn day(&self) -> Vec<u8> {
        dayfile::file_of(&self.section.settings, &self.steps).expect("the day can be written")
    }
}
