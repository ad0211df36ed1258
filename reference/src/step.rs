//! One step of a day: fourteen kinds, eight bytes each.

pub const STEP_LENGTH: usize = 8;
pub const GREATEST_TRAIN: u16 = 59_999;
pub const GREATEST_FAULT: u8 = 4;

#[derive(Clone, Copy, Debug, PartialEq, Eq, Hash)]
pub enum Step {
    Order { post: u8 },
    Set { post: u8 },
    Announce { post: u8 },
    Acknowledge { post: u8 },
    Start { post: u8, train: u16 },
    Pass { post: u8, train: u16 },
    Leave { post: u8, train: u16 },
    MeasuresOn { post: u8 },
    MeasuresOff { post: u8 },
    FaultOn { post: u8, fault: u8 },
    FaultOff { post: u8, fault: u8 },
    Release { post: u8, train: u16 },
    Key { post: u8 },
    Form { post: u8, train: u16 },
}

pub fn start(post: u8, train: u16) -> Step {
    Step::Start { post, train }
}

pub fn pass(post: u8, train: u16) -> Step {
    Step::Pass { post, train }
}

pub fn leave(post: u8, train: u16) -> Step {
    Step::Leave { post, train }
}

pub fn release(post: u8, train: u16) -> Step {
    Step::Release { post, train }
}

/// An E.S. 379 form for the train, handed out at the post.
pub fn form(post: u8, train: u16) -> Step {
    Step::Form { post, train }
}

/// The track and the step, or `None` for a malformed step of a section of n posts.
pub fn decode(bytes: &[u8], n: u8) -> Option<(u8, Step)> {
    let bytes = <&[u8; STEP_LENGTH]>::try_from(bytes).ok()?;
    well_formed(bytes, n).then(|| decode_well_formed(bytes))
}

/// The index of the first malformed step; an incomplete one at the end is malformed too.
pub fn first_malformed(steps: &[u8], n: u8) -> Option<usize> {
    let (complete, incomplete) = steps.as_chunks();
    let malformed = complete.iter().position(|bytes| !well_formed(bytes, n));
    malformed.or((!incomplete.is_empty()).then_some(complete.len()))
}

/// The papers' ranges for a step of a section of n posts. Every field is tested, without a branch
/// for each: most steps are well-formed.
#[inline]
pub fn well_formed(bytes: &[u8; STEP_LENGTH], n: u8) -> bool {
    let &[kind, track, post, fault, train_low, train_high, zero_6, zero_7] = bytes;
    let train = u16::from_le_bytes([train_low, train_high]);
    let Some(ranges) = RANGES.get(usize::from(kind)) else {
        return false;
    };
    (track <= 1)
        & (post < n)
        & (ranges.least_fault <= fault)
        & (fault <= ranges.greatest_fault)
        & (ranges.least_train <= train)
        & (train <= ranges.greatest_train)
        & (zero_6 | zero_7 == 0)
}

/// What the fault and the number of a kind may be.
struct Ranges {
    least_fault: u8,
    greatest_fault: u8,
    least_train: u16,
    greatest_train: u16,
}

const NO_FIELDS: Ranges = Ranges {
    least_fault: 0,
    greatest_fault: 0,
    least_train: 0,
    greatest_train: 0,
};
const WITH_FAULT: Ranges = Ranges {
    least_fault: 1,
    greatest_fault: GREATEST_FAULT,
    ..NO_FIELDS
};
const WITH_TRAIN: Ranges = Ranges {
    least_train: 1,
    greatest_train: GREATEST_TRAIN,
    ..NO_FIELDS
};
const WITH_TRAIN_OR_0: Ranges = Ranges {
    greatest_train: GREATEST_TRAIN,
    ..NO_FIELDS
};
/// No fault is at least 1 and at most 0.
const NO_SUCH_KIND: Ranges = Ranges {
    least_fault: 1,
    ..NO_FIELDS
};

/// By kind.
static RANGES: [Ranges; 15] = [
    NO_SUCH_KIND,
    NO_FIELDS,
    NO_FIELDS,
    NO_FIELDS,
    NO_FIELDS,
    WITH_TRAIN,
    WITH_TRAIN,
    WITH_TRAIN,
    NO_FIELDS,
    NO_FIELDS,
    WITH_FAULT,
    WITH_FAULT,
    WITH_TRAIN_OR_0,
    NO_FIELDS,
    WITH_TRAIN,
];

/// The track and the step of well-formed bytes; no range is tested again.
#[inline]
pub fn decode_well_formed(bytes: &[u8; STEP_LENGTH]) -> (u8, Step) {
    let &[kind, track, post, fault, train_low, train_high, _, _] = bytes;
    let train = u16::from_le_bytes([train_low, train_high]);
    let step = match kind {
        1 => Step::Order { post },
        2 => Step::Set { post },
        3 => Step::Announce { post },
        4 => Step::Acknowledge { post },
        5 => Step::Start { post, train },
        6 => Step::Pass { post, train },
        7 => Step::Leave { post, train },
        8 => Step::MeasuresOn { post },
        9 => Step::MeasuresOff { post },
        10 => Step::FaultOn { post, fault },
        11 => Step::FaultOff { post, fault },
        12 => Step::Release { post, train },
        13 => Step::Key { post },
        14 => Step::Form { post, train },
        _ => unreachable!("the kind of a well-formed step"),
    };
    (track, step)
}

pub fn encode(track: u8, step: &Step) -> [u8; STEP_LENGTH] {
    let (kind, post, fault, train) = match *step {
        Step::Order { post } => (1, post, 0, 0),
        Step::Set { post } => (2, post, 0, 0),
        Step::Announce { post } => (3, post, 0, 0),
        Step::Acknowledge { post } => (4, post, 0, 0),
        Step::Start { post, train } => (5, post, 0, train),
        Step::Pass { post, train } => (6, post, 0, train),
        Step::Leave { post, train } => (7, post, 0, train),
        Step::MeasuresOn { post } => (8, post, 0, 0),
        Step::MeasuresOff { post } => (9, post, 0, 0),
        Step::FaultOn { post, fault } => (10, post, fault, 0),
        Step::FaultOff { post, fault } => (11, post, fault, 0),
        Step::Release { post, train } => (12, post, 0, train),
        Step::Key { post } => (13, post, 0, 0),
        Step::Form { post, train } => (14, post, 0, train),
    };
    let [train_low, train_high] = u16::to_le_bytes(train);
    [kind, track, post, fault, train_low, train_high, 0, 0]
}

#[cfg(test)]
mod tests {
    use super::*;

    /// The papers' sentences about the fault and the number of a kind.
    fn fields_fit(kind: u8, fault: u8, train: u16) -> bool {
        let fault_fits = match kind {
            10 | 11 => (1..=4).contains(&fault),
            _ => fault == 0,
        };
        let train_fits = match kind {
            5..=7 | 14 => (1..=59_999).contains(&train),
            12 => train <= 59_999,
            _ => train == 0,
        };
        (1..=14).contains(&kind) && fault_fits && train_fits
    }

    #[test]
    fn every_kind_goes_there_and_back() {
        for kind in 0..=255u8 {
            for fault in (0..=5u8).chain([128, 255]) {
                for train in [
                    0u16, 1, 255, 256, 9_999, 10_000, 32_768, 59_999, 60_000, 65_535,
                ] {
                    let [low, high] = train.to_le_bytes();
                    let bytes = [kind, 1, 4, fault, low, high, 0, 0];
                    let decoded = decode(&bytes, 5);
                    let expected = fields_fit(kind, fault, train);
                    assert_eq!(decoded.is_some(), expected, "{bytes:?}");
                    if let Some((track, step)) = decoded {
                        assert_eq!(encode(track, &step), bytes);
                    }
                }
            }
        }
    }

    #[test]
    fn first_malformed_of_several() {
        let good = [1, 0, 1, 0, 0, 0, 0, 0];
        let bad = [1, 0, 2, 0, 0, 0, 0, 0];
        let first = |steps: &[[u8; 8]], more: &[u8]| {
            first_malformed(&[steps.as_flattened(), more].concat(), 2)
        };
        assert_eq!(first(&[], &[]), None);
        assert_eq!(first(&[good, good], &[]), None);
        assert_eq!(first(&[good, bad, good, bad], &[]), Some(1));
        assert_eq!(first(&[good, good], &good[..1]), Some(2));
        assert_eq!(first(&[bad, good], &good[..7]), Some(0));
        assert_eq!(first(&[], &good[..7]), Some(0));
    }

    #[test]
    fn malformed() {
        let good = [1, 0, 1, 0, 0, 0, 0, 0];
        assert!(decode(&good, 2).is_some());
        assert!(decode(&good[..7], 2).is_none());
        assert!(decode(&[1, 0, 1, 0, 0, 0, 0, 0, 0], 2).is_none());
        assert!(decode(&[], 2).is_none());
        for bad in [
            [0, 0, 0, 0, 0, 0, 0, 0],
            [14, 0, 0, 0, 0, 0, 0, 0],
            [14, 0, 0, 1, 1, 0, 0, 0],
            [14, 0, 0, 0, 0x60, 0xea, 0, 0],
            [15, 0, 0, 0, 0, 0, 0, 0],
            [15, 0, 0, 0, 1, 0, 0, 0],
            [1, 2, 0, 0, 0, 0, 0, 0],
            [1, 0, 2, 0, 0, 0, 0, 0],
            [1, 0, 0, 1, 0, 0, 0, 0],
            [1, 0, 0, 0, 1, 0, 0, 0],
            [1, 0, 0, 0, 0, 0, 1, 0],
            [1, 0, 0, 0, 0, 0, 0, 1],
            [5, 0, 0, 0, 0, 0, 0, 0],
            [5, 0, 0, 0, 0x60, 0xea, 0, 0],
            [10, 0, 0, 0, 0, 0, 0, 0],
            [11, 0, 0, 5, 0, 0, 0, 0],
            [12, 0, 0, 0, 0x60, 0xea, 0, 0],
        ] {
            assert!(decode(&bad, 2).is_none(), "{bad:?}");
        }
    }
}
