//! One segment of an arrangement at a time, for a board that has no room for a list (request A11).
//!
//! The count and the positions come from the lengths of the parts, not from the list of segments.

use crate::arrangement::{codes, loaded_width, Arrangement};
use crate::loads::{self, Tenths};
use crate::sheet::{Roof, Site, Slope};

/// The codes of snow that isn't drifted.
const UNDRIFTED: [u8; 2] = [1, 11];
/// The code of an exceptional drift is this plus the number of its valley.
const DRIFT: u8 = 30;
/// Quarter millimetres in a millimetre.
const QUARTERS: u32 = 4;

/// An arrangement that a roof has in the site's situation.
pub struct Board {
    site: Site,
    roof: Roof,
    code: u8,
    /// Lengths of its segments from left to right in quarter millimetres.
    lengths: Vec<u32>,
}

impl Board {
    /// None where the code isn't made for the roof in the site's situation.
    pub fn of(site: Site, roof: Roof, code: u8) -> Option<Self> {
        if !codes(&site, &roof).any(|made| made == code) {
            return None;
        }
        let mut lengths = parts(&site, &roof, code);
        lengths.retain(|&length| length > 0);
        Some(Self {
            site,
            roof,
            code,
            lengths,
        })
    }

    /// The number of segments.
    pub fn count(&self) -> usize {
        self.lengths.len()
    }

    /// The segment of an index below that number. Its start is the sum of the lengths before it.
    pub fn segment(&self, index: usize) -> Option<[u32; 4]> {
        let length = self.lengths.get(index)?;
        let start = self.lengths[..index].iter().sum();
        let [left, right] = self.loads(start)?;
        Some([start, start + length, left, right])
    }

    /// The loads at both ends of the part that starts at a position.
    fn loads(&self, start: u32) -> Option<[u32; 2]> {
        let made = Arrangement::<Tenths>::of(&self.site, &self.roof, self.code)?;
        let mut parts = made.stretches().iter();
        let part = parts.find(|part| part.start as u32 == start)?;
        let [.., left, right] = part.segment();
        Some([left, right])
    }
}

/// The lengths of all parts, also of those that the roof leaves no room for.
fn parts(site: &Site, roof: &Roof, code: u8) -> Vec<u32> {
    let is_even = UNDRIFTED.contains(&code);
    match roof {
        Roof::Monopitch(slope) => widths(&[*slope]),
        Roof::Pitched(slopes) => widths(slopes),
        Roof::MultiSpan(roof) => widths(roof.slopes()),
        Roof::Drift(roof) if code > DRIFT => {
            valley(&widths(roof.slopes()), usize::from(code - DRIFT))
        }
        Roof::Drift(roof) => widths(roof.slopes()),
        Roof::Cylindrical { rise, span } => arch(*rise, *span, is_even),
        Roof::Lower(roof) if is_even => vec![QUARTERS * roof.lower_width],
        Roof::Lower(roof) => {
            let drift = loads::drift_length(roof.step, site.national.drift);
            beside(drift, roof.lower_width).to_vec()
        }
        Roof::Projection {
            height,
            left,
            right,
        } => {
            let drift = loads::drift_length(*height, loads::PROJECTION_DRIFT);
            around([beside(drift, *left), beside(drift, *right)])
        }
        Roof::Parapet(roof) => beside(loads::parapet_drift(roof), roof.width).to_vec(),
        Roof::SmallProjection(sides) => {
            around(sides.map(|side| beside(loads::side_drift(&side), side.width)))
        }
    }
}

fn widths(slopes: &[Slope]) -> Vec<u32> {
    slopes.iter().map(|slope| QUARTERS * slope.width).collect()
}

/// The slopes of a valley, numbered from 1, and what lies on either side of them.
fn valley(slopes: &[u32], number: usize) -> Vec<u32> {
    let (before, rest) = slopes.split_at(2 * number - 1);
    let (drifted, after) = rest.split_at(2);
    vec![
        before.iter().sum(),
        drifted[0],
        drifted[1],
        after.iter().sum(),
    ]
}

/// The loaded width in one part or in four, and what lies outside of it, half on either side.
fn arch(rise: u32, span: u32, is_even: bool) -> Vec<u32> {
    let loaded = loaded_width(rise, span);
    let bare = QUARTERS / 2 * (span - loaded);
    if is_even {
        vec![bare, QUARTERS * loaded, bare]
    } else {
        vec![bare, loaded, loaded, loaded, loaded, bare]
    }
}

/// A drift as far as the roof goes, and the rest.
fn beside(drift: u32, width: u32) -> [u32; 2] {
    let drift = drift.min(width);
    [QUARTERS * drift, QUARTERS * (width - drift)]
}

/// The drifts on both sides of a projection, and the rests outside of them.
fn around(sides: [[u32; 2]; 2]) -> Vec<u32> {
    let [[left, left_rest], [right, right_rest]] = sides;
    vec![left_rest, left, right, right_rest]
}

#[cfg(test)]
mod tests {
    use crate::calls::{self, refusal_parts, REFUSED};
    use crate::sheets::{sheet, with_site, words, SITE};
    use crate::store::EMPTY;

    /// What is there before a call.
    const OLD: u32 = 0xEEEE_EEEE;

    /// A pitched roof without guards, 4,000 wide on either side.
    fn pitched(left: u16, right: u16) -> Vec<u8> {
        let pitches = [left, right].map(u16::to_le_bytes).concat();
        let widths = words(0, &[4_000, 4_000])[1..].to_vec();
        [vec![3], pitches, vec![0, 0], widths].concat()
    }

    /// Two spans, each slope 2,000 wide, with other pitches at the valley.
    fn two_spans(left: u16, right: u16) -> Vec<u8> {
        let widths = words(0, &[2_000, 2_000])[1..].to_vec();
        let span = |pitches: [u16; 2]| [pitches.map(u16::to_le_bytes).concat(), widths.clone()];
        let spans = [span([300, left]), span([right, 300])].concat().concat();
        [vec![4, 2], spans].concat()
    }

    /// An upper width of 10,000 and a flat slope beside the wall.
    fn lower(width: u32, step: u32) -> Vec<u8> {
        [words(6, &[10_000, width, step, 6_000]), vec![100, 0, 0]].concat()
    }

    /// A roof of kind 4 as kind 9, its valley 2,000 deep and 8,000 long.
    fn drift_roof() -> Vec<u8> {
        let mut roof = [two_spans(100, 100), words(0, &[2_000, 8_000])[1..].to_vec()].concat();
        roof[0] = 9;
        roof
    }

    /// The site with a ground load and a situation, and a roof.
    fn snow(ground_load: u32, situation: u8, roof: Vec<u8>) -> Vec<u8> {
        let mut site = SITE.to_vec();
        site[1..5].copy_from_slice(&ground_load.to_le_bytes());
        site[11] = situation;
        sheet(&[site, roof])
    }

    fn count(sheet: &[u8], code: u8) -> u32 {
        calls::segment_count(&EMPTY, sheet, 1, code)
    }

    /// The answer about a segment of item 1 and the numbers lent.
    fn lent(sheet: &[u8], code: u8, index: usize, room: usize) -> (u32, Vec<u32>) {
        let mut out = vec![OLD; room];
        let answer = calls::segment(&EMPTY, sheet, 1, code, index, &mut out);
        (answer, out)
    }

    fn segment(sheet: &[u8], code: u8, index: usize) -> [u32; 4] {
        let (answer, out) = lent(sheet, code, index, 4);
        assert_eq!(answer, 4);
        [out[0], out[1], out[2], out[3]]
    }

    /// 1,000 high and 2,000 wide: document 01's breaks, and peaks of 1,000 and 2,000.
    #[test]
    fn an_arch() {
        let sheet = with_site(&[words(5, &[1_000, 2_000])]);
        assert_eq!(count(&sheet, 2), 6);
        let segments = [0, 1, 2, 3, 4, 5].map(|index| segment(&sheet, 2, index));
        let known = [
            [0, 534, 0, 0],
            [534, 2_267, 0, 1_000],
            [2_267, 4_000, 1_000, 0],
            [4_000, 5_733, 0, 2_000],
            [5_733, 7_466, 2_000, 0],
            [7_466, 8_000, 0, 0],
        ];
        assert_eq!(segments, known);
        assert_eq!(count(&sheet, 1), 3);
        assert_eq!(segment(&sheet, 1, 1), [534, 7_466, 800, 800]);
    }

    /// 20.0° and 40.0° under 1,500: document 01's loads.
    #[test]
    fn a_pitched_roof() {
        let sheet = snow(1_500, 0, pitched(200, 400));
        for (code, loads) in [(1, [1_200, 800]), (2, [600, 800]), (3, [1_200, 400])] {
            let [left, right] = loads;
            assert_eq!(count(&sheet, code), 2);
            assert_eq!(segment(&sheet, code, 0), [0, 16_000, left, left]);
            assert_eq!(segment(&sheet, code, 1), [16_000, 32_000, right, right]);
        }
    }

    /// 20.0° and 10.0° at the valley: document 01's 1,200.
    #[test]
    fn a_valley() {
        let sheet = with_site(&[two_spans(200, 100)]);
        assert_eq!([1, 2].map(|code| count(&sheet, code)), [4, 4]);
        assert_eq!(segment(&sheet, 2, 0), [0, 8_000, 800, 800]);
        assert_eq!(segment(&sheet, 2, 1), [8_000, 16_000, 800, 1_200]);
        assert_eq!(segment(&sheet, 2, 2), [16_000, 24_000, 1_200, 800]);
        assert_eq!(segment(&sheet, 2, 3), [24_000, 32_000, 800, 800]);
    }

    /// Document 01's lower roofs: one that ends inside its drift, and a longer one.
    #[test]
    fn a_cut_drift() {
        let short = with_site(&[lower(3_000, 3_000)]);
        assert_eq!(count(&short, 2), 1);
        assert_eq!(segment(&short, 2, 0), [0, 12_000, 2_167, 1_484]);
        let long = with_site(&[lower(20_000, 3_000)]);
        assert_eq!(count(&long, 2), 2);
        assert_eq!(segment(&long, 2, 0), [0, 24_000, 4_000, 800]);
        assert_eq!(segment(&long, 2, 1), [24_000, 80_000, 800, 800]);
    }

    /// As many segments as the roof has room for.
    #[test]
    fn counts() {
        let counts = |roof: Vec<u8>, situation, codes: &[u8]| {
            let sheet = snow(1_000, situation, roof);
            codes
                .iter()
                .map(|&code| count(&sheet, code))
                .collect::<Vec<_>>()
        };
        let monopitch = vec![2, 0x2C, 1, 0, 0x88, 0x13, 0, 0];
        assert_eq!(counts(monopitch, 1, &[1, 11]), [1, 1]);
        assert_eq!(counts(pitched(0, 0), 1, &[1, 2, 3, 11, 12, 13]), [2; 6]);
        assert_eq!(counts(two_spans(0, 0), 1, &[1, 2, 11, 12]), [4; 4]);
        assert_eq!(
            counts(words(5, &[1_000, 3_464]), 1, &[1, 2, 11, 12]),
            [1, 4, 1, 4]
        );
        assert_eq!(counts(lower(6_000, 3_000), 1, &[1, 2, 11, 12]), [1; 4]);
        assert_eq!(
            counts(lower(6_001, 3_000), 1, &[1, 2, 11, 12]),
            [1, 2, 1, 2]
        );
        assert_eq!(counts(words(7, &[3_000, 6_000, 6_000]), 0, &[2]), [2]);
        assert_eq!(counts(words(7, &[3_000, 6_001, 6_000]), 0, &[2]), [3]);
        assert_eq!(counts(words(7, &[3_000, 6_001, 6_001]), 0, &[2]), [4]);
        assert_eq!(counts(drift_roof(), 3, &[1, 11, 31]), [4; 3]);
        assert_eq!(counts(words(11, &[1_000, 5_000, 1]), 2, &[31]), [1]);
        assert_eq!(counts(words(11, &[1_000, 5_001, 1]), 2, &[31]), [2]);
        assert_eq!(counts(words(12, &[100, 100, 500, 500]), 2, &[31]), [2]);
        assert_eq!(counts(words(12, &[100, 100, 501, 500]), 2, &[31]), [3]);
        assert_eq!(counts(words(12, &[100, 100, 501, 501]), 2, &[31]), [4]);
    }

    /// Bare snow lies on either side of an exceptional drift: 2h is 4,000, 5 × sk is 5,000, and
    /// 2 × 8,000 × 1,000/4,000 is 4,000.
    #[test]
    fn an_exceptional_drift() {
        let sheet = snow(1_000, 2, drift_roof());
        let segments = [0, 1, 2, 3].map(|index| segment(&sheet, 31, index));
        let known = [
            [0, 8_000, 0, 0],
            [8_000, 16_000, 0, 4_000],
            [16_000, 24_000, 4_000, 0],
            [24_000, 32_000, 0, 0],
        ];
        assert_eq!(segments, known);
    }

    /// Every roof of these tests, code by code, against the list.
    #[test]
    fn indexes_in_turn_give_the_list() {
        let roofs = [
            pitched(200, 400),
            two_spans(200, 100),
            words(5, &[1_000, 2_000]),
            lower(3_000, 3_000),
            words(7, &[3_000, 6_001, 6_000]),
            drift_roof(),
            words(12, &[100, 100, 501, 500]),
        ];
        for (roof, situation) in roofs
            .iter()
            .flat_map(|roof| [1, 3].map(|number| (roof, number)))
        {
            let sheet = snow(1_500, situation, roof.clone());
            for code in 0..=46 {
                let mut out = [OLD; 128];
                let made = calls::make(&EMPTY, &sheet, 1, code, &mut out);
                assert_eq!(count(&sheet, code), made);
                let indexes = if made < REFUSED { made as usize } else { 0 };
                let turn = (0..indexes).flat_map(|index| segment(&sheet, code, index));
                assert!(turn.eq(out[..4 * indexes].iter().copied()));
            }
        }
    }

    #[test]
    fn numbers_behind_the_four_stay() {
        let sheet = with_site(&[two_spans(200, 100)]);
        for room in [4, 5, 6, 7, 128] {
            let (answer, out) = lent(&sheet, 2, 1, room);
            assert_eq!(answer, 4);
            assert_eq!(out[..4], [8_000, 16_000, 800, 1_200]);
            assert!(out[4..].iter().all(|&number| number == OLD));
        }
    }

    /// The number of a refusal that names item 1 and alters nothing.
    fn refused(sheet: &[u8], code: u8, index: usize, room: usize) -> u32 {
        let (answer, out) = lent(sheet, code, index, room);
        assert!(out.iter().all(|&number| number == OLD));
        let (number, item) = refusal_parts(answer);
        assert_eq!(item, 1);
        number
    }

    /// 13, then 12, then 11.
    #[test]
    fn refusals_on_figures_in_order() {
        let sheet = with_site(&[two_spans(200, 100)]);
        for room in 0..=8 {
            for index in [0, 3, 4, 5, 256, 1 << 32, usize::MAX] {
                for code in [0, 3, 11, 12, 31, 255] {
                    assert_eq!(refused(&sheet, code, index, room), 13);
                }
                if index > 3 {
                    assert_eq!(refused(&sheet, 2, index, room), 12);
                } else if room < 4 {
                    assert_eq!(refused(&sheet, 2, index, room), 11);
                }
            }
        }
        assert_eq!(count(&sheet, 3), REFUSED + 65_536 * 13 + 1);
    }

    /// A store that is too short, a sheet without pairs, an item that isn't there, and the site.
    #[test]
    fn every_other_rule_comes_first() {
        let sheet = with_site(&[two_spans(200, 100)]);
        let asked = [
            (&EMPTY[1..], &sheet[..1], 2, 18, 0),
            (&EMPTY[..], &sheet[..1], 2, 1, 0),
            (&EMPTY[..], &sheet[..], 2, 12, 2),
            (&EMPTY[..], &sheet[..], 0, 13, 0),
        ];
        for (store, sheet, item, number, named) in asked {
            let refusal = REFUSED + 65_536 * number + named;
            let mut out = [OLD; 3];
            let answer = calls::segment(store, sheet, item, 3, 9, &mut out);
            assert_eq!(answer, refusal);
            assert_eq!(out, [OLD; 3]);
            assert_eq!(calls::segment_count(store, sheet, item, 3), refusal);
        }
    }
}
