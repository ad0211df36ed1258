//! What became of caution forms (E.S. 379).

use reference::engine::judge_in_place;
use reference::section::Section;
use reference::step::{decode, Step};

const NO_FORM: u8 = 22;

#[derive(Clone, Copy)]
pub enum Fate {
    HandedOut,
    Replaced,
    UsedUp,
    UsedUpUnneeded,
    /// No crossing lies in the block section that is entered.
    UsedUpElsewhere,
    LeftByAnotherTrain,
    RemovedBySet,
    RemovedByKey,
}

pub const FATES: [Fate; 8] = [
    Fate::HandedOut,
    Fate::Replaced,
    Fate::UsedUp,
    Fate::UsedUpUnneeded,
    Fate::UsedUpElsewhere,
    Fate::LeftByAnotherTrain,
    Fate::RemovedBySet,
    Fate::RemovedByKey,
];

impl Fate {
    /// By an accepted step on that section; `None` where no form lies at its post nor is handed out there.
    pub fn of(before: &Section, step: &[u8]) -> Option<Fate> {
        let (track, taken) = decode(step, before.settings.n)?;
        let posts = &before.tracks[usize::from(track)].posts;
        let lies_at = |post: u8| posts[usize::from(post)].form_for;
        match taken {
            Step::Form { post, .. } if lies_at(post) == 0 => Some(Fate::HandedOut),
            Step::Form { .. } => Some(Fate::Replaced),
            Step::Set { post } if lies_at(post) != 0 => Some(Fate::RemovedBySet),
            Step::Key { post } if lies_at(post) != 0 => Some(Fate::RemovedByKey),
            Step::Start { post, train } | Step::Pass { post, train } => match lies_at(post) {
                0 => None,
                number if number != train => Some(Fate::LeftByAnotherTrain),
                _ if is_needed(before, track, post, step) => Some(Fate::UsedUp),
                _ if lies_before_crossing(before, track, post) => Some(Fate::UsedUpUnneeded),
                _ => Some(Fate::UsedUpElsewhere),
            },
            _ => None,
        }
    }

    pub fn name(self) -> &'static str {
        match self {
            Fate::HandedOut => "handed out",
            Fate::Replaced => "replaced",
            Fate::UsedUp => "used up",
            Fate::UsedUpUnneeded => "used up unneeded",
            Fate::UsedUpElsewhere => "used up with no crossing ahead",
            Fate::LeftByAnotherTrain => "left by another train",
            Fate::RemovedBySet => "removed by set",
            Fate::RemovedByKey => "removed by key",
        }
    }
}

fn lies_before_crossing(section: &Section, track: u8, post: u8) -> bool {
    let ahead = section.way(usize::from(track)).ahead(post);
    ahead.is_some_and(|ahead| section.settings.crossing_in(ahead))
}

/// The step would be refused without the form at the post.
fn is_needed(before: &Section, track: u8, post: u8, step: &[u8]) -> bool {
    let mut without = *before;
    without.tracks[usize::from(track)].posts[usize::from(post)].form_for = 0;
    judge_in_place(&mut without, step).0 == NO_FORM
}
