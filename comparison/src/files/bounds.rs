//! Settings and steps with each field at and beside its bounds.

use reference::settings::{Crossings, Settings, MOST_CROSSINGS, NO_CROSSINGS, WITHOUT_ZONES};

const COUNTS_OF_POSTS: [u8; 10] = [0, 1, 2, 3, 8, 15, 16, 17, 18, 255];
const FORMS: [u8; 4] = [0, 1, 2, 255];
const LINES: [u16; 7] = [0, 1, 255, 256, 999, 1_000, 65_535];
const ZERO_BYTES: [[u8; 2]; 5] = [[0, 0], [1, 0], [0, 1], [128, 0], [0, 128]];

const KINDS: [u8; 18] = [
    0, 1, 2, 3, 4, 5, 6, 7, 8, 9, 10, 11, 12, 13, 14, 15, 128, 255,
];
const TRACKS: [u8; 4] = [0, 1, 2, 255];
const FAULTS: [u8; 7] = [0, 1, 2, 3, 4, 5, 255];
const NUMBERS: [u16; 8] = [0, 1, 256, 9_999, 10_000, 59_999, 60_000, 65_535];

/// All combinations, without crossings.
fn settings_at_bounds() -> Vec<Settings> {
    let mut all = Vec::new();
    for n in COUNTS_OF_POSTS {
        for mask in masks_for(n) {
            for form in FORMS {
                all.extend(LINES.map(|line| Settings {
                    n,
                    form,
                    mask,
                    line,
                    crossings: NO_CROSSINGS,
                }));
            }
        }
    }
    all
}

/// The same in a file's bytes, with the zero bytes set too; each of them alone and before crossings that suit two posts and more; and crossings
/// at their bounds behind settings that are right but for the number of posts.
pub fn settings_bytes_at_bounds() -> Vec<Vec<u8>> {
    let mut all = Vec::new();
    for settings in settings_at_bounds() {
        for bytes in with_zero_bytes(settings.encode()) {
            all.push(bytes.to_vec());
            all.push([bytes, [0, 128, 255, 255, 255, 255, 255, 255]].concat());
        }
    }
    for n in COUNTS_OF_POSTS {
        let settings = Settings {
            n,
            form: n % 2,
            mask: masks_for(n)[0],
            line: 1,
            crossings: NO_CROSSINGS,
        };
        let lists = crossings_at_bounds(n).into_iter();
        all.extend(lists.map(|crossings| [settings.encode(), crossings].concat()));
    }
    all
}

/// Every pair of values at and beside their bounds, at every two neighbouring places: behind crossings in the first block section and before unused bytes.
/// Among them are lists that fall, that pass block section n − 2, that have unused bytes before used ones, and the one of unused bytes alone.
pub fn crossings_at_bounds(n: u8) -> Vec<Crossings> {
    let values = crossings_beside(n);
    let mut all = Vec::new();
    for place in 0..MOST_CROSSINGS - 1 {
        for &one in &values {
            for &other in &values {
                let mut crossings = NO_CROSSINGS;
                crossings[..place].fill(0);
                crossings[place] = one;
                crossings[place + 1] = other;
                all.push(crossings);
            }
        }
    }
    all
}

/// The first and the last block sections, and the greatest number of seven bits, with zones and without.
fn crossings_beside(n: u8) -> Vec<u8> {
    let last = n.wrapping_sub(2);
    let mut values: Vec<u8> = [
        0,
        1,
        last.wrapping_sub(1),
        last,
        last.wrapping_add(1),
        126,
        127,
    ]
    .into_iter()
    .flat_map(|block_section| [block_section, block_section ^ WITHOUT_ZONES])
    .collect();
    values.sort();
    values.dedup();
    values
}

/// Both ends, all posts, an end missing, none, all sixteen, and each single bit above n−1.
fn masks_for(n: u8) -> Vec<u16> {
    let last = u32::from(n.clamp(1, 16)) - 1;
    let ends = 1 | 1 << last;
    let all = u16::MAX >> (15 - last);
    let mut masks = vec![ends, all, all & !1, all & !(1 << last), 0, u16::MAX];
    masks.extend((last + 1..16).map(|bit| ends | 1 << bit));
    masks
}

/// All combinations, for sections of the least and the most posts and one between, with the
/// number of posts.
pub fn steps_at_bounds() -> impl Iterator<Item = (u8, [u8; 8])> {
    [2, 3, 16]
        .into_iter()
        .flat_map(|n| steps_for(n).into_iter().map(move |step| (n, step)))
}

fn steps_for(n: u8) -> Vec<[u8; 8]> {
    let mut all = Vec::new();
    for kind in KINDS {
        for track in TRACKS {
            for post in [0, n - 1, n, 255] {
                for fault in FAULTS {
                    for number in NUMBERS {
                        let [low, high] = number.to_le_bytes();
                        let step = [kind, track, post, fault, low, high, 0, 0];
                        all.extend(with_zero_bytes(step));
                    }
                }
            }
        }
    }
    all
}

/// Bytes 6 and 7 zero, then one of them not.
fn with_zero_bytes(bytes: [u8; 8]) -> [[u8; 8]; 5] {
    let [a, b, c, d, e, f, _, _] = bytes;
    ZERO_BYTES.map(|[six, seven]| [a, b, c, d, e, f, six, seven])
}
