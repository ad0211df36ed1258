//! Which way trains run on a track, and what is ahead of or before a post.

use crate::settings::{Settings, TELEPHONE};
use std::ops::Range;

pub const VNS: u8 = 0;
pub const CVT: u8 = 1;

pub fn opposite(direction: u8) -> u8 {
    if direction == VNS {
        CVT
    } else {
        VNS
    }
}

#[derive(Clone, Copy, Debug, PartialEq, Eq)]
pub struct Way {
    pub upward: bool,
    pub n: u8,
}

impl Way {
    /// VNS runs upward on track A (0) and downward on B (1); CVT is the reverse.
    pub fn of(track: usize, direction: u8, n: u8) -> Way {
        let on_track_a = track == 0;
        Way {
            upward: on_track_a == (direction == VNS),
            n,
        }
    }

    pub fn sending_end(self) -> u8 {
        if self.upward {
            0
        } else {
            self.n - 1
        }
    }

    pub fn receiving_end(self) -> u8 {
        self.n - 1 - self.sending_end()
    }

    pub fn is_end(self, post: u8) -> bool {
        post == 0 || post == self.n - 1
    }

    /// How many posts a train has behind it at this post.
    pub fn rank(self, post: u8) -> u8 {
        if self.upward {
            post
        } else {
            self.n - 1 - post
        }
    }

    /// The next post; not for the receiving end.
    pub fn next_post(self, post: u8) -> u8 {
        if self.upward {
            post + 1
        } else {
            post - 1
        }
    }

    /// The block section ahead of the post; the receiving end has none.
    pub fn ahead(self, post: u8) -> Option<usize> {
        if post == self.receiving_end() {
            None
        } else if self.upward {
            Some(usize::from(post))
        } else {
            Some(usize::from(post) - 1)
        }
    }

    /// The block section before the post; the sending end has none.
    pub fn before(self, post: u8) -> Option<usize> {
        if post == self.sending_end() {
            None
        } else if self.upward {
            Some(usize::from(post) - 1)
        } else {
            Some(usize::from(post))
        }
    }

    /// The block sections of the stretch that begins at the post; not for the receiving end.
    pub fn stretch(self, settings: &Settings, direction: u8, post: u8) -> Range<usize> {
        self.sections_up_to(post, |end| ends_stretch(settings, direction, end))
    }

    /// The block sections that the post watches: "all block sections up to the next signalled
    /// post ahead" where the line is materialised, the one ahead by telephone. `None` for a post
    /// that commands no part.
    pub fn part(self, settings: &Settings, post: u8) -> Option<Range<usize>> {
        self.commands_part(settings, post)
            .then(|| self.sections_up_to(post, |end| ends_part(settings, end)))
    }

    /// By telephone any post but the receiving end; of a materialised line only those that are
    /// signalled.
    pub fn commands_part(self, settings: &Settings, post: u8) -> bool {
        post != self.receiving_end() && ends_part(settings, post)
    }

    /// The block sections from the post to the nearest end ahead; the receiving end has to be one.
    fn sections_up_to(self, post: u8, is_end: impl Fn(u8) -> bool) -> Range<usize> {
        let mut end = self.next_post(post);
        while !is_end(end) {
            end = self.next_post(end);
        }
        usize::from(post.min(end))..usize::from(post.max(end))
    }
}

/// A stretch ends, and the next one begins, at every post for VNS and at signalled posts for CVT.
pub fn ends_stretch(settings: &Settings, direction: u8, post: u8) -> bool {
    direction == VNS || settings.signalled(post)
}

/// A part ends, and the next one begins, at every post by telephone and at signalled posts of a
/// materialised line, in either direction.
fn ends_part(settings: &Settings, post: u8) -> bool {
    settings.form == TELEPHONE || settings.signalled(post)
}

#[cfg(test)]
mod tests {
    use super::*;
    use crate::settings::{MATERIALISED, NO_CROSSINGS};

    /// Posts 0, 2 and 5 of six are signalled.
    fn six_posts(form: u8) -> Settings {
        Settings {
            n: 6,
            form,
            mask: 0b100101,
            line: 1,
            crossings: NO_CROSSINGS,
        }
    }

    #[test]
    fn track_b_runs_the_other_way() {
        assert!(Way::of(0, VNS, 5).upward);
        assert!(!Way::of(0, CVT, 5).upward);
        assert!(!Way::of(1, VNS, 5).upward);
        assert!(Way::of(1, CVT, 5).upward);
    }

    #[test]
    fn sections_around_posts() {
        let up = Way { upward: true, n: 4 };
        let down = Way {
            upward: false,
            n: 4,
        };
        let ahead = |way: Way| (0..4).map(|p| way.ahead(p)).collect::<Vec<_>>();
        let before = |way: Way| (0..4).map(|p| way.before(p)).collect::<Vec<_>>();
        assert_eq!(ahead(up), [Some(0), Some(1), Some(2), None]);
        assert_eq!(before(up), [None, Some(0), Some(1), Some(2)]);
        assert_eq!(ahead(down), [None, Some(0), Some(1), Some(2)]);
        assert_eq!(before(down), [Some(0), Some(1), Some(2), None]);
    }

    #[test]
    fn stretches() {
        let settings = six_posts(TELEPHONE);
        let up = Way { upward: true, n: 6 };
        let down = Way {
            upward: false,
            n: 6,
        };
        assert_eq!(up.stretch(&settings, VNS, 0), 0..1);
        assert_eq!(up.stretch(&settings, CVT, 0), 0..2);
        assert_eq!(up.stretch(&settings, CVT, 2), 2..5);
        assert_eq!(down.stretch(&settings, VNS, 5), 4..5);
        assert_eq!(down.stretch(&settings, CVT, 5), 2..5);
        assert_eq!(down.stretch(&settings, CVT, 2), 0..2);
    }

    #[test]
    fn parts() {
        let up = Way { upward: true, n: 6 };
        let down = Way {
            upward: false,
            n: 6,
        };
        let parts = |way: Way, form| [0, 1, 2, 3, 4, 5].map(|p| way.part(&six_posts(form), p));
        assert_eq!(
            parts(up, MATERIALISED),
            [Some(0..2), None, Some(2..5), None, None, None]
        );
        assert_eq!(
            parts(down, MATERIALISED),
            [None, None, Some(0..2), None, None, Some(2..5)]
        );
        for way in [up, down] {
            let ahead = [0, 1, 2, 3, 4, 5].map(|p| way.ahead(p).map(|i| i..i + 1));
            assert_eq!(parts(way, TELEPHONE), ahead);
        }
    }
}
