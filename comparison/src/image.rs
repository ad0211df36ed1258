//! The image of a section, 466 bytes, in which the proved engine takes and gives a state.

use reference::generate::Rng;
use reference::section::{Post, Section, Track, NO_REVERSAL};
use reference::settings::{Crossings, Settings};

pub const IMAGE_LENGTH: usize = 466;
/// The length of an image of layout 1.
pub const LENGTH_OF_LAYOUT_1: usize = 394;
/// The layout's number, in the first two bytes.
const LAYOUT: u16 = 2;
const SETTINGS: usize = 2;
const CROSSINGS: usize = 10;
const TRACKS: [usize; 2] = [18, 242];
const TURN: usize = 2;
const POSTS: usize = 4;
const TRAINS: usize = 164;
const LAST: usize = 194;
const POST_LENGTH: usize = 10;
const ALL_FAULTS: u8 = 15;
const GREATEST_ACT: u8 = 3;

pub fn image_of(section: &Section) -> [u8; IMAGE_LENGTH] {
    let mut image = [0; IMAGE_LENGTH];
    put_layout(LAYOUT, &mut image);
    image[SETTINGS..CROSSINGS].copy_from_slice(&section.settings.encode());
    image[CROSSINGS..TRACKS[0]].copy_from_slice(&section.settings.crossings);
    for (track, start) in section.tracks.iter().zip(TRACKS) {
        put_track(track, &mut image[start..]);
    }
    image
}

/// Makes an image one of another layout.
pub fn put_other_layout(rng: &mut Rng, image: &mut [u8; IMAGE_LENGTH]) {
    let number = match rng.below(4) {
        0 => 1,
        1 => rng.pick(&[0, LAYOUT + 1, LAYOUT << 8, LAYOUT | 1 << 8, u16::MAX]),
        2 => LAYOUT ^ 1 << rng.below(16),
        _ => LAYOUT.wrapping_add(1 + rng.below(u64::from(u16::MAX)) as u16),
    };
    put_layout(number, image);
}

pub fn put_layout(number: u16, image: &mut [u8; IMAGE_LENGTH]) {
    image[..SETTINGS].copy_from_slice(&number.to_le_bytes());
}

/// n, as the image's settings say it; 0 for an image that is too short.
pub fn posts_said(image: &[u8]) -> u8 {
    image.get(SETTINGS).copied().unwrap_or(0)
}

fn put_track(track: &Track, image: &mut [u8]) {
    image[0] = track.direction;
    image[1] = track.act;
    image[TURN] = track.turn;
    for (post, cell) in track
        .posts
        .iter()
        .zip(image[POSTS..].chunks_exact_mut(POST_LENGTH))
    {
        cell.copy_from_slice(&post_bytes(post));
    }
    put_trains(&track.trains, &mut image[TRAINS..]);
    put_trains(&track.last, &mut image[LAST..]);
}

fn post_bytes(post: &Post) -> [u8; POST_LENGTH] {
    let [seals_low, seals_high] = post.seals.to_le_bytes();
    let [caution_low, caution_high] = post.form_for.to_le_bytes();
    [
        post.device,
        post.permission,
        post.measures,
        post.faults,
        post.mark,
        0,
        seals_low,
        seals_high,
        caution_low,
        caution_high,
    ]
}

fn put_trains(trains: &[u16], image: &mut [u8]) {
    for (train, cell) in trains.iter().zip(image.chunks_exact_mut(2)) {
        cell.copy_from_slice(&train.to_le_bytes());
    }
}

/// `None` for a wrong length, another layout or a byte that stands for no value.
pub fn section_of(image: &[u8]) -> Option<Section> {
    if image.len() != IMAGE_LENGTH || word(image) != LAYOUT {
        return None;
    }
    if zero_places(image).iter().any(|&place| image[place] != 0) {
        return None;
    }
    let tracks = TRACKS.map(|start| track_of(&image[start..]));
    let settings = Settings {
        n: image[SETTINGS],
        form: image[SETTINGS + 1],
        mask: word(&image[SETTINGS + 2..]),
        line: word(&image[SETTINGS + 4..]),
        crossings: crossings_of(&image[CROSSINGS..]),
    };
    tracks
        .iter()
        .all(has_values)
        .then_some(Section { settings, tracks })
}

fn crossings_of(image: &[u8]) -> Crossings {
    std::array::from_fn(|place| image[place])
}

fn track_of(image: &[u8]) -> Track {
    let mut track = Track {
        direction: image[0],
        act: image[1],
        turn: image[TURN],
        ..Track::default()
    };
    for (post, cell) in track
        .posts
        .iter_mut()
        .zip(image[POSTS..].chunks_exact(POST_LENGTH))
    {
        *post = post_of(cell);
    }
    take_trains(&mut track.trains, &image[TRAINS..]);
    take_trains(&mut track.last, &image[LAST..]);
    track
}

fn post_of(cell: &[u8]) -> Post {
    Post {
        device: cell[0],
        permission: cell[1],
        measures: cell[2],
        faults: cell[3],
        mark: cell[4],
        seals: word(&cell[6..]),
        form_for: word(&cell[8..]),
    }
}

fn take_trains(trains: &mut [u16], image: &[u8]) {
    for (train, cell) in trains.iter_mut().zip(image.chunks_exact(2)) {
        *train = word(cell);
    }
}

fn word(bytes: &[u8]) -> u16 {
    u16::from_le_bytes([bytes[0], bytes[1]])
}

/// Looks at all sixteen posts.
fn has_values(track: &Track) -> bool {
    track.direction <= 1 && track.act <= GREATEST_ACT && track.posts.iter().all(post_has_values)
}

fn post_has_values(post: &Post) -> bool {
    (post.device | post.permission | post.measures | post.mark) <= 1 && post.faults <= ALL_FAULTS
}

/// Gives the posts past the last one values that an image can hold.
pub fn make_representable(section: &mut Section) {
    let n = usize::from(section.settings.n);
    for post in section
        .tracks
        .iter_mut()
        .flat_map(|track| track.posts.iter_mut().skip(n))
    {
        post.device &= 1;
        post.permission &= 1;
        post.measures &= 1;
        post.mark &= 1;
        post.faults &= ALL_FAULTS;
    }
}

/// Where the bytes stand that say nothing and are zero: of the settings, of a track's head, the
/// turn's post with no reversal, and of every post.
pub fn zero_places(image: &[u8]) -> Vec<usize> {
    let mut places = vec![SETTINGS + 6, SETTINGS + 7];
    for start in TRACKS {
        places.push(start + 3);
        if image[start + 1] == NO_REVERSAL {
            places.push(start + TURN);
        }
        places.extend((start + POSTS + 5..start + TRAINS).step_by(POST_LENGTH));
    }
    places
}

/// Puts anything but zero into one of those bytes.
pub fn spoil_zero(rng: &mut Rng, image: &mut [u8; IMAGE_LENGTH]) {
    let place = rng.pick(&zero_places(image));
    image[place] = 1 + rng.below(255) as u8;
}

/// Where in a section a byte of its image belongs.
pub fn cell_name(place: usize) -> String {
    let Some((track, start)) = ["A", "B"]
        .into_iter()
        .zip(TRACKS)
        .rfind(|&(_, start)| place >= start)
    else {
        return match place {
            0..SETTINGS => "layout's number".to_string(),
            SETTINGS..CROSSINGS => format!("settings byte {}", place - SETTINGS),
            _ => format!("crossing byte {}", place - CROSSINGS),
        };
    };
    let cell = match place - start {
        at @ 0..POSTS => ["direction", "act", "turn", "zero byte"][at].to_string(),
        at @ POSTS..TRAINS => post_cell_name(at - POSTS),
        at @ TRAINS..LAST => format!("train of block section {}", (at - TRAINS) / 2),
        at => format!("last train of block section {}", (at - LAST) / 2),
    };
    format!("track {track} {cell}")
}

fn post_cell_name(at: usize) -> String {
    let field = [
        "device",
        "permission",
        "measures",
        "faults",
        "mark",
        "zero byte",
        "seals",
        "seals",
        "caution form",
        "caution form",
    ][at % POST_LENGTH];
    format!("post {} {field}", at / POST_LENGTH)
}

#[cfg(test)]
mod tests {
    use super::*;
    use reference::generate::random_in_range_section;

    #[test]
    fn there_and_back() {
        let mut rng = Rng::new(1);
        for _ in 0..2_000 {
            let mut section = random_in_range_section(&mut rng);
            make_representable(&mut section);
            let image = image_of(&section);
            assert_eq!(section_of(&image), Some(section));
        }
    }

    #[test]
    fn zeros_are_tested() {
        let mut rng = Rng::new(3);
        for _ in 0..100 {
            let mut section = random_in_range_section(&mut rng);
            make_representable(&mut section);
            let image = image_of(&section);
            let settled = section
                .tracks
                .iter()
                .filter(|track| track.act == NO_REVERSAL);
            let places = zero_places(&image);
            assert_eq!(places.len(), 36 + settled.count());
            for place in places {
                let mut spoiled = image;
                spoiled[place] = 1;
                assert_eq!(section_of(&spoiled), None);
            }
        }
    }

    #[test]
    fn other_layouts_are_no_sections() {
        let mut rng = Rng::new(2);
        for _ in 0..2_000 {
            let mut section = random_in_range_section(&mut rng);
            make_representable(&mut section);
            let mut image = image_of(&section);
            put_other_layout(&mut rng, &mut image);
            assert_eq!(section_of(&image), None);
        }
    }

    #[test]
    fn names_of_cells() {
        for (place, name) in [
            (1, "layout's number"),
            (6, "settings byte 4"),
            (10, "crossing byte 0"),
            (17, "crossing byte 7"),
            (18, "track A direction"),
            (244, "track B turn"),
            (22 + 10 * 15 + 7, "track A post 15 seals"),
            (242 + 163, "track B post 15 caution form"),
            (242 + 164, "track B train of block section 0"),
            (465, "track B last train of block section 14"),
        ] {
            assert_eq!(cell_name(place), name);
        }
    }
}
