//! The lamp table, and the indications as they are read from it.

use crate::proved::engine::lamp_entry;
use crate::report::{fail_if_any, same, Outcome};
use reference::lamps::{index, table, taken_apart, COMMANDS_PART, ENTRIES, PART_OCCUPIED};
use reference::section::Section;

/// Every entry against the second implementation's rule.
pub fn same_table() -> Outcome {
    for (index, entry) in table().into_iter().enumerate() {
        let input = || format!("index {index}");
        same(
            "entry of the lamp table",
            lamp_entry(index as u8),
            entry,
            &input,
        )?;
    }
    Ok(())
}

/// Which entries states gave, by a post's bits in the second implementation.
pub struct Entries {
    times: [u64; ENTRIES],
}

impl Default for Entries {
    fn default() -> Entries {
        Entries {
            times: [0; ENTRIES],
        }
    }
}

impl Entries {
    /// What a post shows is the proved table's entry at the second implementation's index, taken apart.
    pub fn look_up(&mut self, section: &Section, track: u8, post: u8) -> (u8, u8, u8) {
        let index = index(section, track, post);
        self.times[usize::from(index)] += 1;
        taken_apart(lamp_entry(index))
    }

    /// Every index that some state gives: a part is occupied only where the post commands one.
    pub fn fit_states(&self, part: &str) -> Outcome {
        let (mut missing, mut strange) = (Vec::new(), Vec::new());
        for (index, &times) in self.times.iter().enumerate() {
            let occupied_alone = index as u8 & (PART_OCCUPIED | COMMANDS_PART) == PART_OCCUPIED;
            match (occupied_alone, times) {
                (false, 0) => missing.push(format!("index {index}")),
                (true, 1..) => strange.push(format!("index {index}")),
                _ => {}
            }
        }
        fail_if_any(&format!("NEVER SEEN, {part}"), &missing)?;
        fail_if_any(&format!("GIVEN BY NO STATE, {part}"), &strange)
    }

    pub fn total(&self) -> u64 {
        self.times.iter().sum()
    }
}
