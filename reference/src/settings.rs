//! The settings of a section: its posts, form, signalled posts, line number and crossings.

pub const MOST_POSTS: usize = 16;
pub const TELEPHONE: u8 = 0;
pub const MATERIALISED: u8 = 1;

pub const MOST_CROSSINGS: usize = 8;
pub const UNUSED: u8 = 255;
/// Added to a crossing's block section where no counter-direction announcing zones exist.
pub const WITHOUT_ZONES: u8 = 128;
pub const NO_CROSSINGS: Crossings = [UNUSED; MOST_CROSSINGS];

/// Each byte is a block section, with or without the 128, or `UNUSED`; for both tracks.
pub type Crossings = [u8; MOST_CROSSINGS];

/// Values may be out of range; `well_formed` tells.
#[derive(Clone, Copy, Debug, PartialEq, Eq, Hash)]
pub struct Settings {
    pub n: u8,
    pub form: u8,
    pub mask: u16,
    pub line: u16,
    pub crossings: Crossings,
}

impl Settings {
    pub fn well_formed(&self) -> bool {
        (2..=MOST_POSTS as u8).contains(&self.n)
            && self.form <= MATERIALISED
            && self.mask_fits_posts()
            && (1..=999).contains(&self.line)
            && self.crossings_fit()
    }

    /// Only meaningful for n from 2 to 16.
    fn mask_fits_posts(&self) -> bool {
        let ends = 1 | 1 << (self.n - 1);
        let above = u32::from(self.mask) >> self.n;
        self.mask & ends == ends && above == 0
    }

    fn crossings_fit(&self) -> bool {
        let used = self.used_crossings();
        let rest = &self.crossings[used.len()..];
        rest.iter().all(|&byte| byte == UNUSED)
            && used.iter().all(|&byte| block_section(byte) + 1 < self.n)
            && used.is_sorted_by_key(|&byte| (block_section(byte), without_zones(byte)))
    }

    /// Those before the first unused one.
    fn used_crossings(&self) -> &[u8] {
        let mut bytes = self.crossings.split(|&byte| byte == UNUSED);
        bytes.next().unwrap_or_default()
    }

    pub fn signalled(&self, post: u8) -> bool {
        self.mask >> post & 1 == 1
    }

    pub fn has_crossings(&self) -> bool {
        self.crossings != NO_CROSSINGS
    }

    pub fn crossing_in(&self, section: usize) -> bool {
        self.used_crossings()
            .iter()
            .any(|&byte| usize::from(block_section(byte)) == section)
    }

    pub fn crossing_without_zones_in(&self, section: usize) -> bool {
        self.used_crossings()
            .iter()
            .any(|&byte| without_zones(byte) && usize::from(block_section(byte)) == section)
    }

    /// `None` if the settings are outside the papers' ranges; crossing bytes, where there are
    /// any, use at least one.
    pub fn decode(bytes: [u8; 8], crossings: Option<Crossings>) -> Option<Settings> {
        let [n, form, mask_low, mask_high, line_low, line_high, zero_6, zero_7] = bytes;
        let settings = Settings {
            n,
            form,
            mask: u16::from_le_bytes([mask_low, mask_high]),
            line: u16::from_le_bytes([line_low, line_high]),
            crossings: crossings.unwrap_or(NO_CROSSINGS),
        };
        let fits =
            zero_6 == 0 && zero_7 == 0 && crossings != Some(NO_CROSSINGS) && settings.well_formed();
        fits.then_some(settings)
    }

    /// Without the crossings.
    pub fn encode(&self) -> [u8; 8] {
        let [mask_low, mask_high] = self.mask.to_le_bytes();
        let [line_low, line_high] = self.line.to_le_bytes();
        [
            self.n, self.form, mask_low, mask_high, line_low, line_high, 0, 0,
        ]
    }
}

fn block_section(crossing: u8) -> u8 {
    crossing & !WITHOUT_ZONES
}

fn without_zones(crossing: u8) -> bool {
    crossing & WITHOUT_ZONES != 0
}

#[cfg(test)]
mod tests {
    use super::*;

    fn settings(n: u8, form: u8, mask: u16, line: u16) -> Settings {
        Settings {
            n,
            form,
            mask,
            line,
            crossings: NO_CROSSINGS,
        }
    }

    fn with_crossings(n: u8, crossings: Crossings) -> Settings {
        Settings {
            crossings,
            ..settings(n, 0, 1 | 1 << (n - 1), 1)
        }
    }

    #[test]
    fn ranges() {
        assert!(settings(2, 0, 3, 1).well_formed());
        assert!(settings(16, 1, 0x8001, 999).well_formed());
        assert!(settings(16, 1, 0xffff, 999).well_formed());
        for bad in [
            settings(0, 0, 1, 1),
            settings(1, 0, 1, 1),
            settings(17, 0, 0x8001, 1),
            settings(255, 0, 0xffff, 1),
            settings(2, 2, 3, 1),
            settings(2, 0, 1, 1),
            settings(2, 0, 2, 1),
            settings(2, 0, 7, 1),
            settings(15, 0, 0xc001, 1),
            settings(2, 0, 3, 0),
            settings(2, 0, 3, 1000),
        ] {
            assert!(!bad.well_formed(), "{bad:?}");
        }
    }

    #[test]
    fn crossing_bytes() {
        for good in [
            NO_CROSSINGS,
            [0, 255, 255, 255, 255, 255, 255, 255],
            [128, 255, 255, 255, 255, 255, 255, 255],
            [0, 0, 128, 128, 1, 129, 129, 255],
            [0, 0, 0, 0, 0, 0, 0, 0],
            [129, 129, 129, 129, 129, 129, 129, 129],
            [128, 1, 255, 255, 255, 255, 255, 255],
        ] {
            assert!(with_crossings(3, good).well_formed(), "{good:?}");
        }
        for bad in [
            [2, 255, 255, 255, 255, 255, 255, 255],
            [130, 255, 255, 255, 255, 255, 255, 255],
            [127, 255, 255, 255, 255, 255, 255, 255],
            [254, 255, 255, 255, 255, 255, 255, 255],
            [255, 0, 255, 255, 255, 255, 255, 255],
            [0, 255, 1, 255, 255, 255, 255, 255],
            [1, 0, 255, 255, 255, 255, 255, 255],
            [1, 128, 255, 255, 255, 255, 255, 255],
            [129, 128, 255, 255, 255, 255, 255, 255],
            [128, 0, 255, 255, 255, 255, 255, 255],
            [0, 0, 0, 0, 0, 0, 1, 0],
        ] {
            assert!(!with_crossings(3, bad).well_formed(), "{bad:?}");
        }
        assert!(with_crossings(16, [14; 8]).well_formed());
        assert!(!with_crossings(16, [15; 8]).well_formed());
    }

    #[test]
    fn crossings_of_a_block_section() {
        let settings = with_crossings(5, [0, 128, 1, 130, 255, 255, 255, 255]);
        let all = |test: fn(&Settings, usize) -> bool| [0, 1, 2, 3].map(|i| test(&settings, i));
        assert_eq!(all(Settings::crossing_in), [true, true, true, false]);
        assert_eq!(
            all(Settings::crossing_without_zones_in),
            [true, false, true, false]
        );
    }

    #[test]
    fn bytes_six_and_seven_are_zero() {
        assert!(Settings::decode([2, 0, 3, 0, 1, 0, 0, 0], None).is_some());
        assert!(Settings::decode([2, 0, 3, 0, 1, 0, 1, 0], None).is_none());
        assert!(Settings::decode([2, 0, 3, 0, 1, 0, 0, 1], None).is_none());
    }

    #[test]
    fn crossing_bytes_use_at_least_one() {
        let decode = |crossings| Settings::decode([2, 0, 3, 0, 1, 0, 0, 0], Some(crossings));
        assert!(decode([0, 255, 255, 255, 255, 255, 255, 255]).is_some());
        assert!(decode(NO_CROSSINGS).is_none());
    }
}
