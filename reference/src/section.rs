//! The state of a section: what each post, block section and track keeps.

use crate::settings::{Settings, MOST_POSTS};
use crate::step::GREATEST_TRAIN;
use crate::way::{Way, CVT};

pub const MOST_SECTIONS: usize = MOST_POSTS - 1;
pub const MOST_SEALS: u16 = 999;

/// What `Track::act` holds.
pub const NO_REVERSAL: u8 = 0;
pub const SET: u8 = 1;
pub const ANNOUNCE: u8 = 2;
pub const ACKNOWLEDGE: u8 = 3;

/// Bits of `Post::faults`.
pub const FAULT_1: u8 = 1;
pub const FAULT_2: u8 = 2;
pub const FAULT_3: u8 = 4;
pub const FAULT_4: u8 = 8;
const ALL_FAULTS: u8 = FAULT_1 | FAULT_2 | FAULT_3 | FAULT_4;

#[derive(Clone, Copy, Debug, Default, PartialEq, Eq, Hash)]
pub struct Post {
    pub device: u8,
    pub permission: u8,
    pub measures: u8,
    pub faults: u8,
    pub mark: u8,
    pub seals: u16,
    /// The train that the E.S. 379 form handed out here is for, 0 for no form.
    pub form_for: u16,
}

#[derive(Clone, Copy, Debug, Default, PartialEq, Eq, Hash)]
pub struct Track {
    pub direction: u8,
    pub act: u8,
    /// The post whose turn it is; without meaning when no reversal is under way.
    pub turn: u8,
    pub posts: [Post; MOST_POSTS],
    pub trains: [u16; MOST_SECTIONS],
    pub last: [u16; MOST_SECTIONS],
}

/// Cells past post n-1 or block section n-2 are neither tested nor changed.
#[derive(Clone, Copy, Debug, PartialEq, Eq, Hash)]
pub struct Section {
    pub settings: Settings,
    pub tracks: [Track; 2],
}

impl Section {
    /// All zero, which is VNS throughout, but for permission at the VNS sending ends.
    pub fn fresh(settings: Settings) -> Section {
        let mut section = Section {
            settings,
            tracks: [Track::default(); 2],
        };
        section.tracks[0].posts[0].permission = 1;
        let top_post = usize::from(settings.n).wrapping_sub(1);
        if let Some(post) = section.tracks[1].posts.get_mut(top_post) {
            post.permission = 1;
        }
        section
    }

    /// The range test of refusal 6.
    pub fn in_range(&self) -> bool {
        self.settings.well_formed()
            && self.tracks[0].in_range(0, self.settings.n)
            && self.tracks[1].in_range(1, self.settings.n)
    }

    pub fn way(&self, track: usize) -> Way {
        Way::of(track, self.tracks[track].direction, self.settings.n)
    }

    /// The train in each block section of the track, 0 for none; n from 2 to 16.
    pub fn trains(&self, track: usize) -> &[u16] {
        &self.tracks[track].trains[..usize::from(self.settings.n) - 1]
    }
}

impl Track {
    pub fn reversal_under_way(&self) -> bool {
        self.act != NO_REVERSAL
    }

    pub fn settled_on(&self, direction: u8) -> bool {
        !self.reversal_under_way() && self.direction == direction
    }

    /// n from 2 to 16.
    fn in_range(&self, track: usize, n: u8) -> bool {
        let posts = usize::from(n);
        self.direction <= CVT
            && self.turn_in_range(Way::of(track, self.direction, n))
            && posts_in_range(&self.posts[..posts])
            && trains_in_range(&self.trains[..posts - 1])
            && trains_in_range(&self.last[..posts - 1])
    }

    fn turn_in_range(&self, way: Way) -> bool {
        match self.act {
            NO_REVERSAL => true,
            SET => self.turn < way.n,
            ANNOUNCE => self.turn < way.n && self.turn != way.receiving_end(),
            ACKNOWLEDGE => self.turn < way.n && self.turn != way.sending_end(),
            _ => false,
        }
    }
}

/// One of the block sections has a train in it.
pub fn holds_train(trains: &[u16]) -> bool {
    trains.iter().any(|&train| train != 0)
}

// Both tests below gather first and compare once: they run before every step.

fn posts_in_range(posts: &[Post]) -> bool {
    let mut two_valued = 0;
    let mut faults = 0;
    let mut most_seals = 0;
    let mut greatest_form = 0;
    for post in posts {
        two_valued |= post.device | post.permission | post.measures | post.mark;
        faults |= post.faults;
        most_seals = most_seals.max(post.seals);
        greatest_form = greatest_form.max(post.form_for);
    }
    two_valued <= 1
        && faults <= ALL_FAULTS
        && most_seals <= MOST_SEALS
        && greatest_form <= GREATEST_TRAIN
}

fn trains_in_range(trains: &[u16]) -> bool {
    trains
        .iter()
        .fold(0, |greatest, &train| train.max(greatest))
        <= GREATEST_TRAIN
}
