//! The comparison of the proved implementation with the second one, and their timing.
//!
//! README.md says how to run the programs. The exit status is 1 for a difference, for an answer
//! of documents 01 and 02 that never came up, and for one that they do not give.

pub mod books;
pub mod engine;
pub mod files;
pub mod image;
pub mod lent;
pub mod listings;
pub mod proved;
pub mod report;
pub mod timing;
