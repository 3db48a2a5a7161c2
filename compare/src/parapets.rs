//! Questions about request A9 alone: parapets and small projections.

use second::calls::LIST_ROOM;

use crate::draft::{self, Field};
use crate::draft::{PARAPET, PARAPET_FIELDS, SMALL_PROJECTION, SMALL_PROJECTION_FIELDS};
use crate::fuzz::Fuzz;
use crate::stores::{self, LAST_DAY};

/// The two kinds, and their only code.
const KINDS: [u8; 2] = [PARAPET, SMALL_PROJECTION];
const CODE: u8 = 31;
/// The longest drift behind a parapet in mm.
const LONGEST: u32 = 15_000;
/// Heights of parapets at the ends of their range, where 2h is 8 times the lightest sk, where 5h is
/// 15,000, and beside them.
const HEIGHTS: [u32; 8] = [1, 2, 400, 2_999, 3_000, 3_001, 29_999, 30_000];
/// Quarters of heights that are drawn, below 3,000 and above it. Such a quarter is the ground load for
/// which 2h is 8 × sk.
const QUARTERS: [[u32; 2]; 2] = [[101, 749], [751, 7_499]];
const DRAWN: usize = 4;
/// Ground loads for which 5 × sk/2 is a height of small projections, lies between two, is the highest,
/// and is too high.
const GROUND_LOADS: [u32; 4] = [100, 101, 400, 1_000];
/// The longest item that is met.
const LONG_ITEM: usize = 40;
/// Three values outside the range of each of seven fields; for each kind the other lengths, the 244
/// bytes that are no kind, and the roof in the site's place and as an upper item.
pub const REFUSALS: u64 = 3 * 7 + 2 * (LONG_ITEM as u64 + 244 + 2);

/// Ways in which one, two or all of three values are the smallest.
pub const WAYS: usize = 7;
/// Those in which one is.
pub const ALONE: [usize; 3] = [0, 1, 3];

/// The way in which some of three values are.
fn way(values: [u64; 3]) -> usize {
    let is_least = values.map(|value| usize::from(values.iter().all(|&other| value <= other)));
    is_least[0] + 2 * is_least[1] + 4 * is_least[2] - 1
}

/// 0 where a number is below another, 1 where they are equal, and 2 where it is above.
pub fn order(number: u32, other: u32) -> usize {
    (number.cmp(&other) as i8 + 1) as usize
}

/// 5h, b1 and 15,000, the smallest of which is the length of the drift.
fn lengths(height: u32, width: u32) -> [u32; 3] {
    [5 * height, width, LONGEST]
}

fn drift_length(height: u32, width: u32) -> u32 {
    lengths(height, width).into_iter().fold(LONGEST, u32::min)
}

/// A parapet as the tally counts it.
pub struct Parapet {
    /// Which of 2h, 2 × b × sk/ls and 8 × sk the load is.
    pub limits: usize,
    /// Which of 5h, b1 and 15,000 ls is.
    pub lengths: usize,
    /// The order of b1 and b2.
    pub widths: usize,
}

impl Parapet {
    pub fn of(items: &[Vec<u8>; 2]) -> Self {
        let [height, width, other] = PARAPET_FIELDS.map(|field| draft::get(&items[1], field));
        let ground_load = u64::from(draft::get(&items[0], draft::GROUND_LOAD));
        let drift = u64::from(drift_length(height, width));
        // Each times ls.
        let limits = [
            2 * u64::from(height) * drift,
            2 * u64::from(width.max(other)) * ground_load,
            8 * ground_load * drift,
        ];
        Self {
            limits: way(limits),
            lengths: way(lengths(height, width).map(u64::from)),
            widths: order(width, other),
        }
    }
}

/// A small projection as the tally counts it.
pub struct SmallProjection {
    /// On the left and on the right, the order of 2h and 5 × sk and that of 5h and the width.
    pub sides: [[usize; 2]; 2],
    /// The order of the two peaks.
    pub peaks: usize,
}

impl SmallProjection {
    pub fn of(items: &[Vec<u8>; 2]) -> Self {
        let [left, right, left_width, right_width] =
            SMALL_PROJECTION_FIELDS.map(|field| draft::get(&items[1], field));
        let most = 5 * draft::get(&items[0], draft::GROUND_LOAD);
        let sides = [[left, left_width], [right, right_width]];
        let [left_peak, right_peak] = [left, right].map(|height| most.min(2 * height));
        Self {
            sides: sides.map(|[height, width]| [order(2 * height, most), order(5 * height, width)]),
            peaks: order(left_peak, right_peak),
        }
    }
}

/// Some values of a field, those beside them, and the ends of its range, upward.
fn edges(field: Field, values: &[u32]) -> Vec<u32> {
    let beside = |&value: &u32| [value.saturating_sub(1), value, value + 1];
    let mut edges: Vec<_> = values.iter().flat_map(beside).collect();
    edges.extend([field.low, field.high]);
    edges.retain(|value| (field.low..=field.high).contains(value));
    edges.sort_unstable();
    edges.dedup();
    edges
}

/// Height and width of sides where 2h is close to 5 × sk or at the end of its range, and the width to
/// 5h.
fn sides(ground_load: u32) -> Vec<[u32; 2]> {
    let heights = edges(SMALL_PROJECTION_FIELDS[0], &[5 * ground_load / 2]);
    let near = |height: u32| [5 * height - 1, 5 * height, 5 * height + 1];
    let sides = |height: u32| near(height).map(|width| [height, width]);
    heights.into_iter().flat_map(sides).collect()
}

impl Fuzz {
    /// Parapets and small projections at the edges of their rules, and what is refused. The store has
    /// sets that have begun, which play no part.
    pub fn sweep_parapets(&mut self) {
        let store = stores::store(&mut self.random, stores::MAX_SETS);
        self.checker.lend(&store);
        for height in HEIGHTS {
            self.parapets(height);
        }
        for [low, high] in QUARTERS.repeat(DRAWN) {
            let height = 4 * self.random.between(low, high);
            self.parapets(height);
        }
        let drawn = 2 * self.random.between(51, 199);
        for ground_load in GROUND_LOADS.into_iter().chain([drawn]) {
            self.small_projections(ground_load);
        }
        for kind in KINDS {
            self.parapet_rules(kind);
        }
    }

    /// Parapets of a height with ls, b1 and b2 close to each other, b2 also to where the widths give
    /// 4 × sk and 8 × sk, under snow for which two of the limits are close.
    fn parapets(&mut self, height: u32) {
        let [_, behind, other] = PARAPET_FIELDS;
        for width in edges(behind, &[5 * height, LONGEST]) {
            let drift = drift_length(height, width);
            for other_width in edges(other, &[width, 2 * drift, 4 * drift]) {
                let roof = draft::of_figures(PARAPET, &[height, width, other_width]);
                let by_widths = height * drift / width.max(other_width);
                let ground_loads = edges(draft::GROUND_LOAD, &[height / 4, by_widths]);
                self.under_snow(&roof, &ground_loads);
            }
        }
    }

    /// Every such side on the left with every one on the right.
    fn small_projections(&mut self, ground_load: u32) {
        for left in sides(ground_load) {
            for right in sides(ground_load) {
                let figures = [left[0], right[0], left[1], right[1]];
                let roof = draft::of_figures(SMALL_PROJECTION, &figures);
                self.under_snow(&roof, &edges(draft::GROUND_LOAD, &[ground_load]));
            }
        }
    }

    /// A roof in each situation under heavier and heavier snow. No load falls.
    fn under_snow(&mut self, roof: &[u8], ground_loads: &[u32]) {
        for situation in 0..=draft::MAX_SITUATION {
            let mut items = [draft::site_in(&mut self.random, situation), roof.to_vec()];
            let mut lighter = Vec::new();
            for &ground_load in ground_loads {
                draft::put(&mut items[0], draft::GROUND_LOAD, ground_load);
                lighter = self.drift_loads(&items, &lighter);
            }
            let sheet = draft::sheet(&mut self.random, &items);
            self.checker.verdict(&sheet);
            self.checker.list(&sheet, LIST_ROOM);
        }
    }

    /// A drift in slices of several lengths, and loads on it, held to those under lighter snow.
    fn drift_loads(&mut self, items: &[Vec<u8>; 2], lighter: &[u32]) -> Vec<u32> {
        let sheet = draft::packed(&mut self.random, items);
        let asked = self.checker.verdict(&sheet);
        self.arrangement_questions(asked, 1, CODE);
        let loads = self.loads(asked, &[CODE]);
        let rising = self.no_load_falls(&sheet, lighter, &loads);
        self.checker.tally.parapets.rising += rising;
        let numbers = self.checker.make(asked, 1, CODE, 16);
        if !numbers.is_empty() {
            self.checker.tally.parapets.count(items, &numbers);
            self.elsewhere(&sheet, items);
        }
        loads
    }

    /// Ce, Ct, Cesl, the altitude and a job day leave a drift as it is.
    fn elsewhere(&mut self, sheet: &[u8], items: &[Vec<u8>; 2]) {
        let site = draft::other_factors(&mut self.random, &items[0]);
        let other = [draft::dated(&site, LAST_DAY), items[1].clone()];
        let other = draft::packed(&mut self.random, &other);
        let what = "under other coefficients";
        let alike = self.checker.alike_segments([sheet, &other], 1, CODE, what);
        self.checker.tally.parapets.alike += u64::from(alike);
    }

    /// Each field at the ends of its range and outside, each length, each byte for the kind, and the
    /// roof in the site's place and as an upper item.
    fn parapet_rules(&mut self, kind: u8) {
        let site = draft::site_in(&mut self.random, 3);
        let roof = draft::item(&mut self.random, kind);
        let items = [site.clone(), roof.clone()];
        self.field_ends(&items, 1);
        for field in draft::fields(&roof) {
            for value in [0, field.high + 1, u32::MAX] {
                let mut items = items.clone();
                draft::put(&mut items[1], field, value);
                self.known_refusal(&items, 8, 1);
            }
        }
        for length in (0..=LONG_ITEM).filter(|&length| length != roof.len()) {
            let mut roof = roof.clone();
            roof.resize(length, 1);
            self.known_refusal(&[site.clone(), roof], 4, 1);
        }
        self.known_refusal(&items[1..], 5, 0);
        self.every_kind(items);
        let under = draft::under(&mut self.random, 1);
        self.known_refusal(&[site, roof, under], 16, 2);
    }

    /// Every byte for the kind of the roof.
    fn every_kind(&mut self, mut items: [Vec<u8>; 2]) {
        for kind in 0..=255 {
            items[1][0] = kind;
            match kind {
                1..=SMALL_PROJECTION => self.verdict_and_list(&items),
                _ => self.known_refusal(&items, 3, 1),
            }
        }
    }

    fn known_refusal(&mut self, items: &[Vec<u8>], number: u32, item: usize) {
        let sheet = draft::packed(&mut self.random, items);
        let is_known = self.checker.refused(&sheet, number, item);
        self.checker.list(&sheet, LIST_ROOM);
        self.checker.tally.parapets.refused += u64::from(is_known);
    }
}

#[cfg(test)]
mod tests {
    use super::*;

    #[test]
    fn ways() {
        let alone = [[1, 2, 2], [2, 1, 3], [3, 2, 1]];
        assert_eq!(alone.map(way), ALONE);
        let several = [[1, 1, 2], [1, 2, 1], [2, 1, 1], [1, 1, 1]];
        assert_eq!(several.map(way), [2, 4, 5, 6]);
    }

    /// The library is the second calculation itself here.
    #[test]
    fn every_case_is_met() {
        let mut fuzz = Fuzz::new(1);
        fuzz.sweep_parapets();
        let tally = &fuzz.checker.tally;
        assert!(tally.agrees());
        assert!(tally.parapets.is_good());
    }
}
