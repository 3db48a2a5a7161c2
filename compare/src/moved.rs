//! A roof with pitches moved by a tenth of a degree, and how far that may move a load (request A13).
//!
//! The request names kinds 2, 3 and 4. Kind 9 has the spans of kind 4 and is moved likewise.

use std::cmp::Ordering;

use crate::loads::Exact;
use crate::sheet::{length_of, Site};

/// Bytes of a span. Its two pitches come first.
const SPAN: usize = 12;
/// The last code before those with exceptional falls, and before exceptional drifts.
const PERSISTENT: u8 = 10;
const BELOW_DRIFTS: u8 = 30;
/// A tenth moves the exact load by X over this at most.
const PARTS: u128 = 375;
/// Two readings differ by less than these tenths of a N/m² more.
const ROUNDING: u128 = 12;
/// X is counted in millionths of a N/m².
const MILLION: u128 = 1_000_000;

/// Where the pitches of a roof lie in its item, from left to right. None where pitches of its kind
/// aren't moved, or where it hasn't its kind's length.
fn places(item: &[u8]) -> Option<Vec<usize>> {
    let (&kind, fields) = item.split_first()?;
    if length_of(kind, fields) != Ok(item.len()) {
        return None;
    }
    match kind {
        2 => Some(vec![1]),
        3 => Some(vec![1, 3]),
        4 | 9 => {
            let starts = (0..usize::from(fields[0])).map(|span| 2 + SPAN * span);
            Some(starts.flat_map(|start| [start, start + 2]).collect())
        }
        _ => None,
    }
}

fn pitch(item: &[u8], place: usize) -> u16 {
    u16::from_le_bytes([item[place], item[place + 1]])
}

/// The pitches of a roof from left to right in tenths of a degree. None of them where those of its kind
/// aren't moved.
pub fn pitches(item: &[u8]) -> Vec<u16> {
    let places = places(item).unwrap_or_default();
    places.iter().map(|&place| pitch(item, place)).collect()
}

/// The item of a roof with the pitch of each slope moved by so many tenths, from left to right; 0 less a
/// tenth is 65,535. None where the roof hasn't as many slopes.
pub fn item(item: &[u8], steps: &[i16]) -> Option<Vec<u8>> {
    let places = places(item)?;
    if places.len() != steps.len() {
        return None;
    }
    let mut moved = item.to_vec();
    for (&place, &step) in places.iter().zip(steps) {
        let pitch = pitch(item, place).wrapping_add_signed(step);
        moved[place..place + 2].copy_from_slice(&pitch.to_le_bytes());
    }
    Some(moved)
}

/// How far two loads of one code may lie apart.
#[derive(Clone, Copy, Debug, PartialEq, Eq)]
pub enum Bound {
    /// X, the load at μ = 1, in millionths of a N/m².
    Tenth(u128),
    /// Not at all: pitches play no part in exceptional drifts.
    Same,
}

impl Bound {
    /// X is Ce × Ct × sk, with exceptional falls that times Cesl.
    pub fn of(site: &Site, code: u8) -> Self {
        if code > BELOW_DRIFTS {
            return Self::Same;
        }
        let falls = if code > PERSISTENT {
            site.exceptional
        } else {
            100
        };
        let factors = [site.exposure, site.thermal, falls].map(u128::from);
        Self::Tenth(factors.iter().product::<u128>() * u128::from(site.ground_load))
    }

    /// Whether two readings lie less than X/375 + 1.2 N/m² apart.
    pub fn allows(self, loads: [u32; 2]) -> bool {
        let apart = u128::from(loads[0].abs_diff(loads[1]));
        match self {
            Self::Tenth(full) => {
                10 * apart * PARTS * MILLION < 10 * full + ROUNDING * PARTS * MILLION
            }
            Self::Same => apart == 0,
        }
    }

    /// Whether two loads by the exact rule lie at most X/375 apart.
    pub fn allows_exact(self, loads: [Exact; 2]) -> bool {
        match self {
            Self::Tenth(full) => beside_part(full, loads).is_le(),
            Self::Same => loads[0].is_same_number(loads[1]),
        }
    }

    /// Whether two loads by the exact rule lie just X/375 apart.
    pub fn is_met(self, loads: [Exact; 2]) -> bool {
        match self {
            Self::Tenth(full) => beside_part(full, loads).is_eq(),
            Self::Same => false,
        }
    }

    /// How much more than X/375 two readings lie apart, in thousandths of a N/m² rounded down. 0 where
    /// they lie no farther apart than that.
    pub fn beyond(self, loads: [u32; 2]) -> u64 {
        let apart = u128::from(loads[0].abs_diff(loads[1])) * PARTS * MILLION;
        let full = match self {
            Self::Tenth(full) => full,
            Self::Same => 0,
        };
        (apart.saturating_sub(full) * 1_000 / (PARTS * MILLION)) as u64
    }
}

/// How far two loads by the exact rule lie apart, beside X/375.
fn beside_part(full: u128, [first, second]: [Exact; 2]) -> Ordering {
    let [apart, denominator] = first.apart(second);
    (PARTS * apart).cmp(&(full * denominator))
}

#[cfg(test)]
mod tests {
    use super::*;
    use crate::arrangement::Arrangement;
    use crate::calls::{self, REFUSED};
    use crate::sheets::{sheet, words, SITE};
    use crate::store::EMPTY;

    /// Two slopes with their pitches, guards and widths.
    fn pitched(pitches: [u16; 2], guards: [u8; 2], widths: [u32; 2]) -> Vec<u8> {
        let pitches = pitches.into_iter().flat_map(u16::to_le_bytes);
        let widths = widths.into_iter().flat_map(u32::to_le_bytes);
        let fields = pitches.chain(guards).chain(widths);
        [3].into_iter().chain(fields).collect()
    }

    fn monopitch(pitch: u16, guard: u8) -> Vec<u8> {
        let [low, high] = pitch.to_le_bytes();
        vec![2, low, high, guard, 0x88, 0x13, 0, 0]
    }

    /// Two spans of kind 4 with slopes 1,000, 2,000, 3,000 and 4,000 wide.
    fn two_spans(pitches: [u16; 4]) -> Vec<u8> {
        let [first, second] = [&pitches[..2], &pitches[2..]].map(|pitches| {
            let pitches = pitches.iter().flat_map(|pitch| pitch.to_le_bytes());
            pitches.collect::<Vec<_>>()
        });
        let widths = |widths: &[u32]| words(0, widths)[1..].to_vec();
        let spans = [
            first,
            widths(&[1_000, 2_000]),
            second,
            widths(&[3_000, 4_000]),
        ];
        [vec![4, 2], spans.concat()].concat()
    }

    /// The same of kind 9, its valley 1,500 deep and 9,000 long.
    fn drift_roof(pitches: [u16; 4]) -> Vec<u8> {
        let mut roof = [two_spans(pitches), words(0, &[1_500, 9_000])[1..].to_vec()].concat();
        roof[0] = 9;
        roof
    }

    /// A roof behind a site with sk, Ce, Ct and Cesl, in a situation.
    fn on_site(figures: [u16; 4], situation: u8, roof: &[u8]) -> Vec<u8> {
        let mut site = SITE.to_vec();
        let [ground_load, factors @ ..] = figures;
        site[1..3].copy_from_slice(&ground_load.to_le_bytes());
        site[5..11].copy_from_slice(&factors.map(u16::to_le_bytes).concat());
        site[11] = situation;
        sheet(&[site, roof.to_vec()])
    }

    /// The same with Ce and Ct 1.0 and Cesl 2.0, in situation 1.
    fn under(ground_load: u16, roof: &[u8]) -> Vec<u8> {
        on_site([ground_load, 100, 100, 200], 1, roof)
    }

    fn load(sheet: &[u8], code: u8, station: u32) -> u32 {
        calls::load(&EMPTY, sheet, 1, code, station)
    }

    fn exact(sheet: &[u8], code: u8, station: u32) -> Exact {
        let (site, roof) = calls::ask(&EMPTY, sheet, 1).unwrap();
        let made = Arrangement::<Exact>::of(&site, &roof.unwrap(), code).unwrap();
        made.exact(station).unwrap()
    }

    fn bound(sheet: &[u8], code: u8) -> Bound {
        let (site, _) = calls::ask(&EMPTY, sheet, 1).unwrap();
        Bound::of(&site, code)
    }

    /// 30.0°, 25.5° and 25.6° beside 51.1° and 51.2°. A guard and the widths stay.
    #[test]
    fn a_pitch_moves() {
        let shed = [2, 0x2C, 1, 1, 0x88, 0x13, 0, 0];
        assert_eq!(monopitch(300, 1), shed);
        let steeper = [2, 0x2D, 1, 1, 0x88, 0x13, 0, 0];
        assert_eq!(item(&shed, &[1]), Some(steeper.to_vec()));
        let flatter = [2, 0x2B, 1, 1, 0x88, 0x13, 0, 0];
        assert_eq!(item(&shed, &[-1]), Some(flatter.to_vec()));
        assert_eq!(item(&shed, &[0]), Some(shed.to_vec()));
        let hall = [3, 0xFF, 0, 0, 2, 0, 1, 0xB8, 0x0B, 0, 0, 0x88, 0x13, 0, 0];
        assert_eq!(pitched([255, 512], [0, 1], [3_000, 5_000]), hall);
        assert_eq!(pitches(&hall), [255, 512]);
        let left = [3, 0, 1, 0, 2, 0, 1, 0xB8, 0x0B, 0, 0, 0x88, 0x13, 0, 0];
        assert_eq!(item(&hall, &[1, 0]), Some(left.to_vec()));
        let right = [
            3, 0xFF, 0, 0xFF, 1, 0, 1, 0xB8, 0x0B, 0, 0, 0x88, 0x13, 0, 0,
        ];
        assert_eq!(item(&hall, &[0, -1]), Some(right.to_vec()));
        let both = pitched([254, 513], [0, 1], [3_000, 5_000]);
        assert_eq!(item(&hall, &[-1, 1]), Some(both));
    }

    #[test]
    fn pitches_of_spans_move() {
        let figures = [100, 400, 320, 450];
        let mut bytes = vec![4, 2, 100, 0, 0x90, 1, 0xE8, 3, 0, 0, 0xD0, 7, 0, 0];
        bytes.extend([0x40, 1, 0xC2, 1, 0xB8, 0x0B, 0, 0, 0xA0, 0x0F, 0, 0]);
        assert_eq!(two_spans(figures), bytes);
        for roof in [two_spans, drift_roof] {
            assert_eq!(pitches(&roof(figures)), figures);
            for slope in 0..4 {
                for step in [-1, 1] {
                    let mut steps = [0; 4];
                    steps[slope] = step;
                    let mut other = figures;
                    other[slope] = other[slope].wrapping_add_signed(step);
                    assert_eq!(item(&roof(figures), &steps), Some(roof(other)));
                }
            }
            let moved = item(&roof(figures), &[1, -1, 0, 1]);
            assert_eq!(moved, Some(roof([101, 399, 320, 451])));
        }
    }

    /// Other kinds, another number of slopes, no item, and kinds with pitches without their length.
    #[test]
    fn what_is_not_moved() {
        for length in 0..40 {
            for kind in [0, 1, 5, 6, 7, 8, 10, 11, 12, 13, 255] {
                let mut roof = vec![2; length];
                roof.iter_mut().take(1).for_each(|byte| *byte = kind);
                assert_eq!(pitches(&roof), []);
                for slopes in 0..3 {
                    assert_eq!(item(&roof, &vec![0; slopes]), None);
                }
            }
        }
        for (kind, length, slopes) in [(2, 8, 1), (3, 15, 2), (4, 26, 4), (9, 34, 4)] {
            for other in 1..60 {
                let mut roof = vec![2; other];
                roof[0] = kind;
                for count in 0..6 {
                    let is_moved = item(&roof, &vec![0; count]).is_some();
                    assert_eq!(is_moved, (other, count) == (length, slopes));
                }
            }
        }
        assert_eq!(item(&[4, 0], &[]), Some(vec![4, 0]));
        assert_eq!(item(&[9, 0], &[]), None);
    }

    /// 1,000 and 2,000 N/m², 0.8 on the lightest site, 30,000 and 90,000 on the heaviest.
    #[test]
    fn the_load_at_1() {
        let full = |figures: [u16; 4], code| bound(&on_site(figures, 1, &monopitch(0, 0)), code);
        let usual = [1_000, 100, 100, 200];
        for code in [1, 2, 3] {
            assert_eq!(full(usual, code), Bound::Tenth(1_000_000_000));
        }
        for code in [11, 12, 13] {
            assert_eq!(full(usual, code), Bound::Tenth(2_000_000_000));
        }
        for code in [31, 45] {
            assert_eq!(full(usual, code), Bound::Same);
        }
        assert_eq!(full([100, 80, 1, 300], 1), Bound::Tenth(800_000));
        assert_eq!(full([100, 80, 1, 300], 11), Bound::Tenth(2_400_000));
        let heavy = [25_000, 120, 100, 300];
        assert_eq!(full(heavy, 1), Bound::Tenth(30_000_000_000));
        assert_eq!(full(heavy, 11), Bound::Tenth(90_000_000_000));
    }

    /// X/375 + 1.2 is 2 where X is 300, and 2.1 where it is 337.5.
    #[test]
    fn less_than_the_bound() {
        let allowed = |millionths| {
            let bound = Bound::Tenth(millionths);
            [[7, 6], [6, 7], [7, 5], [5, 7], [7, 4], [4, 7]].map(|loads| bound.allows(loads))
        };
        let (one, two) = (
            [true, true, false, false, false, false],
            [true, true, true, true, false, false],
        );
        assert_eq!(allowed(0), one);
        assert_eq!(allowed(299_999_999), one);
        assert_eq!(allowed(300_000_000), one);
        assert_eq!(allowed(300_000_001), two);
        assert_eq!(allowed(337_500_000), two);
        assert_eq!(allowed(675_000_000), two);
        assert_eq!(allowed(675_000_001), [true; 6]);
        assert!(Bound::Tenth(0).allows([7, 7]));
        assert!(Bound::Same.allows([7, 7]));
        assert!(!Bound::Same.allows([7, 6]));
        // 241.2 on the heaviest site.
        let heavy = Bound::Tenth(90_000_000_000);
        assert!(heavy.allows([0, 241]) && !heavy.allows([0, 242]));
    }

    /// X/375 is 0.8, 1.0026... and 1.
    #[test]
    fn beyond_the_part() {
        assert_eq!(Bound::Tenth(300_000_000).beyond([2, 0]), 1_200);
        assert_eq!(Bound::Tenth(376_000_000).beyond([0, 2]), 997);
        assert_eq!(Bound::Tenth(376_000_000).beyond([1, 0]), 0);
        assert_eq!(Bound::Tenth(375_000_000).beyond([1, 0]), 0);
        assert_eq!(Bound::Tenth(375_000_000).beyond([9, 7]), 1_000);
        assert_eq!(Bound::Same.beyond([9, 9]), 0);
    }

    /// Under 376 N/m² a pitch of 59.9° has 376/375, 1.1 in tenths, and 60.0° none. The readings are 2
    /// apart, the bound is 2.2026... With a guard both have 300.8.
    #[test]
    fn the_last_tenth_below_60() {
        let sheets = [599, 600].map(|pitch| under(376, &monopitch(pitch, 0)));
        let loads = [0, 1].map(|side| load(&sheets[side], 1, 5));
        assert_eq!(loads, [2, 0]);
        let bound = bound(&sheets[0], 1);
        assert!(bound.allows(loads) && bound.beyond(loads) == 997);
        let exact = [0, 1].map(|side| exact(&sheets[side], 1, 5));
        assert!(bound.allows_exact(exact));
        let guarded = [599, 600].map(|pitch| load(&under(376, &monopitch(pitch, 1)), 1, 5));
        assert_eq!(guarded, [301, 301]);
    }

    /// With 30.0°, 30.1° and 30.2° the loads are 300, 299 and 298 of 375. A tenth is just X/375 and
    /// not more; two tenths are, and a tenth by X without Cesl in code 11.
    #[test]
    fn exact_loads_of_a_slope() {
        let sheets = [300, 301, 302].map(|pitch| under(1_001, &monopitch(pitch, 0)));
        for code in [1, 11] {
            let bound = bound(&sheets[0], code);
            let loads = [0, 1, 2].map(|place| exact(&sheets[place], code, 20_000));
            assert!(bound.allows_exact([loads[0], loads[1]]));
            assert!(bound.allows_exact([loads[2], loads[1]]));
            assert!(!bound.allows_exact([loads[0], loads[2]]));
            let pairs = [[0, 1], [2, 1], [0, 2], [1, 1]].map(|pair| pair.map(|place| loads[place]));
            let met = pairs.map(|loads| bound.is_met(loads));
            assert_eq!(met, [true, true, false, false]);
            let Bound::Tenth(full) = bound else {
                panic!("{bound:?}");
            };
            assert!(!Bound::Tenth(full - 1).allows_exact([loads[0], loads[1]]));
        }
        let loads = [0, 1].map(|place| exact(&sheets[place], 11, 20_000));
        assert!(!bound(&sheets[0], 1).allows_exact(loads));
        assert!(!Bound::Same.allows_exact(loads) && !Bound::Same.is_met(loads));
        assert!(Bound::Same.allows_exact([loads[0]; 2]) && !Bound::Same.is_met([loads[0]; 2]));
    }

    /// Half of a slope's load moves by half as much, and a guard holds it as it is.
    #[test]
    fn a_pitched_roof() {
        let made = |pitches, guards, code| {
            let sheet = under(1_500, &pitched(pitches, guards, [1_000, 2_000]));
            [0, 12_000].map(|station| load(&sheet, code, station))
        };
        // Under 1,500 N/m² X/375 is 4.
        assert_eq!(made([400, 450], [0, 0], 1), [800, 600]);
        assert_eq!(made([401, 450], [0, 0], 1), [796, 600]);
        assert_eq!(made([401, 450], [0, 0], 2), [398, 600]);
        assert_eq!(made([400, 449], [0, 0], 3), [800, 302]);
        assert_eq!(made([400, 449], [0, 0], 13), [1_600, 604]);
        assert_eq!(made([401, 450], [1, 0], 11), [2_400, 1_200]);
        let roof = pitched([400, 450], [1, 0], [1_000, 2_000]);
        let moved = item(&roof, &[1, 0]).unwrap();
        assert_eq!(moved, pitched([401, 450], [1, 0], [1_000, 2_000]));
        for code in [1, 2, 3, 11, 12, 13] {
            let loads = [&roof, &moved].map(|roof| load(&under(1_500, roof), code, 2_000));
            assert_eq!(loads[0], loads[1]);
        }
    }

    /// The mean of 20.0° and 10.0° has 1.2 × 1,500 in the valley, a tenth on one side 2 more. Where both
    /// sides move it has 4 more, which is X/375, and with two tenths on one of them 6 more.
    #[test]
    fn a_valley() {
        let sheets = [[200, 100], [201, 100], [201, 101], [202, 101]]
            .map(|[left, right]| under(1_500, &two_spans([0, left, right, 0])));
        let loads = [0, 1, 2, 3].map(|place| load(&sheets[place], 2, 12_000));
        assert_eq!(loads, [1_800, 1_802, 1_804, 1_806]);
        let bound = bound(&sheets[0], 2);
        let loads = [0, 1, 2, 3].map(|place| exact(&sheets[place], 2, 12_000));
        assert!(bound.allows_exact([loads[0], loads[1]]));
        assert!(bound.allows_exact([loads[0], loads[2]]));
        assert!(!bound.allows_exact([loads[0], loads[3]]));
        // From 30.0° on the valley stays at 1.6 × 1,500, and the ridge of a steeper slope drops by 4.
        let steep = [400, 401].map(|pitch| under(1_500, &two_spans([100, pitch, 320, 450])));
        let both = |station| [0, 1].map(|side| load(&steep[side], 2, station));
        assert_eq!(both(12_000), [2_400, 2_400]);
        assert_eq!(both(8_000), [1_600, 1_598]);
        // At the ridge itself lie the 1,200 of the slope before it.
        assert_eq!(both(4_000), [1_200, 1_200]);
        assert_eq!(both(4_001), [801, 797]);
    }

    /// Pitches play no part in the drift of a valley: its depth gives 3,000, and 0 lies at the ridges.
    #[test]
    fn exceptional_drifts_stay() {
        let figures = [100, 400, 320, 450];
        let roof = drift_roof(figures);
        for slope in 0..4 {
            let mut steps = [0; 4];
            steps[slope] = 1;
            let moved = item(&roof, &steps).unwrap();
            let sheets = [&roof, &moved].map(|roof| on_site([1_500, 100, 100, 200], 2, roof));
            let bound = bound(&sheets[0], 31);
            for (station, known) in [(4_000, 0), (8_000, 1_500), (12_000, 3_000), (24_000, 0)] {
                let loads = [0, 1].map(|side| load(&sheets[side], 31, station));
                assert_eq!(loads, [known; 2]);
                let exact = [0, 1].map(|side| exact(&sheets[side], 31, station));
                assert!(bound.allows(loads) && bound.allows_exact(exact));
            }
        }
    }

    fn refused(number: u32) -> u32 {
        REFUSED + 65_536 * number + 1
    }

    /// The verdict on a sheet with a roof once its pitches are moved. Without that it is accepted.
    fn verdict(roof: &[u8], steps: &[i16]) -> u32 {
        assert_eq!(calls::verdict(&EMPTY, &under(1_000, roof)), 2);
        let moved = item(roof, steps).unwrap();
        calls::verdict(&EMPTY, &under(1_000, &moved))
    }

    /// 80.0° up and 0° down are out of range.
    #[test]
    fn moved_out_of_range() {
        assert_eq!(item(&monopitch(0, 0), &[-1]), Some(monopitch(u16::MAX, 0)));
        assert_eq!(item(&monopitch(u16::MAX, 0), &[1]), Some(monopitch(0, 0)));
        assert_eq!(verdict(&monopitch(800, 0), &[1]), refused(8));
        assert_eq!(verdict(&monopitch(0, 1), &[-1]), refused(8));
        assert_eq!(verdict(&monopitch(799, 0), &[1]), 2);
        assert_eq!(verdict(&monopitch(1, 0), &[-1]), 2);
        let hall = pitched([800, 0], [0, 1], [1, 100_000]);
        assert_eq!(verdict(&hall, &[1, 0]), refused(8));
        assert_eq!(verdict(&hall, &[0, -1]), refused(8));
        assert_eq!(verdict(&hall, &[-1, 1]), 2);
        for roof in [two_spans, drift_roof] {
            assert_eq!(verdict(&roof([800, 0, 0, 800]), &[1, 0, 0, 0]), refused(8));
            assert_eq!(verdict(&roof([800, 0, 0, 800]), &[0, 0, 0, 1]), refused(8));
            assert_eq!(verdict(&roof([800, 0, 0, 800]), &[0, -1, 0, 0]), refused(8));
            // 8 comes before 9.
            let steps = [1, 1, 0, 0];
            assert_eq!(verdict(&roof([800, 600, 599, 800]), &steps), refused(8));
        }
    }

    /// Both sides of a valley at 60.0°, or one above it.
    #[test]
    fn moved_too_steep_at_a_valley() {
        for roof in [two_spans, drift_roof] {
            assert_eq!(verdict(&roof([0, 600, 599, 0]), &[0, 0, 1, 0]), refused(9));
            assert_eq!(verdict(&roof([0, 599, 600, 0]), &[0, 1, 0, 0]), refused(9));
            assert_eq!(verdict(&roof([0, 600, 0, 0]), &[0, 1, 0, 0]), refused(9));
            assert_eq!(verdict(&roof([0, 0, 600, 0]), &[0, 0, 1, 0]), refused(9));
            assert_eq!(verdict(&roof([0, 599, 599, 0]), &[0, 1, 0, 0]), 2);
            assert_eq!(verdict(&roof([0, 600, 599, 0]), &[0, -1, 1, 0]), 2);
            assert_eq!(verdict(&roof([600, 0, 0, 600]), &[1, 0, 0, 1]), 2);
        }
    }

    /// Document 01's lower roof: 4,000 at the wall under a slope of 15.0°, and 800 more above that.
    #[test]
    fn no_bound_across_15() {
        let lower = |pitch: u16| {
            let widths = words(6, &[10_000, 20_000, 3_000, 6_000]);
            under(1_000, &[&widths[..], &pitch.to_le_bytes(), &[0]].concat())
        };
        let sheets = [150, 151].map(lower);
        let loads = [0, 1].map(|side| load(&sheets[side], 2, 0));
        assert_eq!(loads, [4_000, 4_800]);
        assert!(!bound(&sheets[0], 2).allows(loads));
        assert_eq!(item(&sheets[0][24..], &[1]), None);
    }
}
