//! The engine, on sections of any kind and along days.

pub mod cautions;
pub mod days;
pub mod judging;
pub mod lamps;
pub mod notes;
pub mod numbers;
pub mod offers;
pub mod parts;
pub mod preview_cases;
pub mod previews;
pub mod run_calls;
pub mod run_cases;
pub mod run_inputs;
pub mod runs;
pub mod sections;
pub mod tally;
