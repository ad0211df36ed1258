//! Buffers lent to a call.

use crate::report::{same_bytes_of_sides, Outcome};

const GUARD: usize = 16;

/// A buffer between guards that no call may touch.
#[derive(Clone, PartialEq)]
pub struct Lent {
    bytes: Vec<u8>,
}

impl Lent {
    /// Filled with bytes that differ from their neighbours.
    pub fn patterned(length: usize) -> Lent {
        let bytes = (0..length + 2 * GUARD)
            .map(|place| (place as u8).wrapping_mul(29) ^ 0xa5)
            .collect();
        Lent { bytes }
    }

    pub fn holding(content: &[u8]) -> Lent {
        let mut lent = Lent::patterned(content.len());
        lent.part().copy_from_slice(content);
        lent
    }

    /// The part that is lent.
    pub fn part(&mut self) -> &mut [u8] {
        let end = self.bytes.len() - GUARD;
        &mut self.bytes[GUARD..end]
    }

    /// The text at the front, where there is room; 1 + its length, or 0.
    pub fn take_text(&mut self, text: &[u8]) -> u64 {
        match self.part().get_mut(..text.len()) {
            Some(front) => {
                front.copy_from_slice(text);
                1 + text.len() as u64
            }
            None => 0,
        }
    }

    pub fn content(&self) -> &[u8] {
        &self.bytes[GUARD..self.bytes.len() - GUARD]
    }
}

/// A failure unless both implementations left the same buffer, guards included.
pub fn same_buffers(
    what: &str,
    proved: &Lent,
    second: &Lent,
    input: &dyn Fn() -> String,
) -> Outcome {
    same_buffers_of_sides(what, [("proved", proved), ("second", second)], input)
}

/// A failure unless both sides left the same buffer, guards included; each has its name.
pub fn same_buffers_of_sides(
    what: &str,
    sides: [(&str, &Lent); 2],
    input: &dyn Fn() -> String,
) -> Outcome {
    if sides[0].1 == sides[1].1 {
        return Ok(());
    }
    let what = format!("{what} ({GUARD} bytes of guard first)");
    let sides = sides.map(|(side, lent)| (side, lent.bytes.as_slice()));
    same_bytes_of_sides(&what, sides, input)
}
