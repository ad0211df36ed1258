//! Direction blocking between two end stations: a second implementation, written from
//! document 01, requests 1 to 6 and 9 of document 02 and the readings that AMBIGUITIES.md names as
//! given beforehand.

pub mod books;
pub mod dayfile;
pub mod engine;
pub mod generate;
pub mod indications;
pub mod lamps;
pub mod listing;
pub mod preview;
pub mod program;
pub mod run;
pub mod section;
pub mod settings;
pub mod step;
pub mod stored;
pub mod way;
