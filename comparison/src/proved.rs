//! The C interface of the proved implementation. It takes settings in a day file's bytes.

pub mod books;
pub mod engine;
pub mod files;
pub mod listing;

/// The refusal (0 for none) of a call, and how much was done or the refusal's index.
fn outcome(answer: u64) -> (u64, u64) {
    (answer & 0xff, answer >> 8)
}
