//! Document 01's table of steps with what request 1 of document 02 adds, as data.

/// What a step of each kind, 1 to 14, may be answered: 0 for accepted, then the refusals in the
/// order of the checks. Kind 0 stands for bytes that are no step.
pub const ANSWERS_BY_KIND: [&[u8]; 15] = [
    &[],
    &[0, 11, 12, 14, 13],
    &[0, 15, 13, 18, 16, 19],
    &[0, 15],
    &[0, 15],
    &[0, 11, 12, 17, 13, 18, 22],
    &[0, 12, 17, 13, 22],
    &[0, 12, 17],
    &[0, 21],
    &[0, 21, 16],
    &[0, 21],
    &[0, 21],
    &[0, 15, 12, 21, 13, 17],
    &[0, 15, 21, 13, 18, 16, 20],
    &[0, 12],
];
