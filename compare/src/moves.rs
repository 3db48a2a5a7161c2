//! Questions about request A13 alone: pitches moved by a tenth of a degree, and lower roofs across
//! 15.0°, where no bound is owed.

use std::ops::RangeInclusive;

use second::calls::{self, REFUSED};
use second::loads::Exact;
use second::moved::{self, Bound};

use crate::check::Asked;
use crate::draft;
use crate::fuzz::Fuzz;
use crate::random::Random;
use crate::turns::Drawn;

/// sk, Ce, Ct and Cesl: the lightest site, two where X/375 is 1 or just above it, two between, one where
/// it is just above 78 and 234, and the heaviest one.
const SITES: [[u32; 4]; 7] = [
    [100, 80, 1, 300],
    [375, 100, 100, 101],
    [376, 100, 100, 200],
    [1_001, 100, 100, 200],
    [7_919, 97, 89, 211],
    [24_376, 120, 100, 300],
    [25_000, 120, 100, 300],
];
/// The situation in which every code below 30 exists, and the situations of other roofs.
const FALLS: u32 = 1;
const SITUATIONS: [u32; 6] = [FALLS, FALLS, FALLS, 0, 2, 3];
/// Pitches of the other slope of a pitched roof, in tenths of a degree.
const OTHERS: [u32; 5] = [0, 300, 450, 599, 800];
/// One of so many items has several of its pitches moved.
const SEVERAL: usize = 4;
/// Roofs with several pitches moved, and lower roofs.
const ROUNDS: usize = 400;
/// 15.0° and the next tenth.
const ACROSS: [u32; 2] = [150, 151];
/// Plan widths of the slopes above these roofs in mm.
const WIDE: [u32; 2] = [10_000, 100_000];
/// The codes that snow from the slope above has part in.
const SLIDING: [u8; 2] = [2, 12];
/// Pitches between which μ1 is a straight line that falls.
const STRAIGHT: RangeInclusive<u16> = 300..=600;
/// 60.0°, above which no slope at a valley may be, nor both at it.
const STEEPEST: u16 = 600;

/// Refusals of a pitch outside its range and of slopes that are too steep at a valley.
const FIELD: u32 = 8;
const VALLEY: u32 = 9;
pub const REFUSALS: [u32; 2] = [FIELD, VALLEY];
/// Spans of the roofs that are refused once moved.
const WRONG_SPANS: [usize; 3] = [2, 3, 16];
/// Pitches at a valley, and the steps that make it too steep.
const STEEP: [([u32; 2], [i16; 2]); 6] = [
    ([600, 599], [0, 1]),
    ([599, 600], [1, 0]),
    ([600, 0], [1, 0]),
    ([0, 600], [0, 1]),
    ([599, 599], [1, 1]),
    ([600, 1], [1, -1]),
];
/// How often each is known beforehand. Each slope of kinds 2 and 3 and each outer one of kinds 4 and 9 is
/// moved down from 0 and up from 800, each inner one down from 0.
pub const KNOWN: [u64; 2] = [
    2 * (1 + 2) + 2 * (2 * (2 + 3 + 16) + 2 * 3),
    2 * (1 + 2 + 15) * STEEP.len() as u64,
];

/// How pitches are moved: one up, one down, or several.
#[derive(Clone, Copy, Debug, PartialEq, Eq, PartialOrd, Ord)]
pub enum Way {
    Up,
    Down,
    Several,
}

impl Way {
    /// None where no pitch is moved.
    fn of(steps: &[i16]) -> Option<Self> {
        let mut moved = steps.iter().filter(|&&step| step != 0);
        match (moved.next()?, moved.next()) {
            (1, None) => Some(Self::Up),
            (_, None) => Some(Self::Down),
            _ => Some(Self::Several),
        }
    }
}

/// Kinds with their codes and ways: two codes of kind 2, six of kind 3, four of kind 4, four of kind 9 and
/// its 15 valleys. Kind 2 has one pitch alone.
pub const CASES: usize = 2 * (2 + 6 + 4 + 4 + 15) + 6 + 4 + 4 + 15;

/// An arrangement of a roof before and after its pitches are moved, as the tally counts it.
pub struct Move {
    pub kind: u8,
    pub code: u8,
    pub way: Way,
    /// Whether every load by the exact rule is another one by just X/375.
    pub is_met: bool,
    /// Whether some load is another one.
    pub is_other: bool,
    /// Loads read, and loads of segments.
    pub readings: usize,
    pub ends: usize,
    /// The greatest difference of two loads beyond X/375, in thousandths.
    pub beyond: u64,
}

/// The codes of a roof in any situation.
fn codes(roof: &[u8]) -> Vec<u8> {
    let codes: &[u8] = match roof[0] {
        draft::MONOPITCH => &[1, 11],
        draft::PITCHED => &[1, 2, 3, 11, 12, 13],
        _ => &[1, 2, 11, 12],
    };
    let valleys = match roof[0] {
        draft::DRIFT_ROOF => roof[1] - 1,
        _ => 0,
    };
    codes.iter().copied().chain(31..31 + valleys).collect()
}

/// What refuses a roof of an accepted sheet once its pitches are moved.
fn refusal(roof: &[u8]) -> Option<u32> {
    let pitches = moved::pitches(roof);
    if pitches
        .iter()
        .any(|&pitch| u32::from(pitch) > draft::MAX_PITCH)
    {
        return Some(FIELD);
    }
    let is_steep =
        |valley: &[u16]| valley.iter().any(|&pitch| pitch > STEEPEST) || valley == [STEEPEST; 2];
    let is_refused = draft::SPANNED.contains(&roof[0])
        && pitches[1..pitches.len() - 1].chunks_exact(2).any(is_steep);
    is_refused.then_some(VALLEY)
}

/// A sheet with an item in the place of another that is as long.
fn with_item(sheet: &[u8], item: usize, roof: &[u8]) -> Vec<u8> {
    let mut other = sheet.to_vec();
    other[draft::place_of(sheet, item)].copy_from_slice(roof);
    other
}

/// The breaks of an arrangement, the positions beside them on the roof, and one in each segment.
fn stations(random: &mut Random, segments: &[[u32; 4]]) -> Vec<u32> {
    let mut stations = Vec::with_capacity(4 * segments.len() + 2);
    for &[start, end, ..] in segments {
        let between = random.between(start, end);
        stations.extend([start.saturating_sub(1), start, start + 1, between]);
    }
    if let Some(&[_, end, ..]) = segments.last() {
        stations.extend([end - 1, end]);
    }
    stations.sort_unstable();
    stations.dedup();
    stations
}

/// Pairs of what is answered about two roofs, in their order.
fn pairs<'a, T: Copy>(first: &'a [T], second: &'a [T]) -> impl Iterator<Item = [T; 2]> + 'a {
    first
        .iter()
        .zip(second)
        .map(|(&first, &second)| [first, second])
}

/// The loads of segments, two by two.
fn ends<'a>(first: &'a Drawn, second: &'a Drawn) -> impl Iterator<Item = [u32; 2]> + 'a {
    let segments = pairs(&first.segments, &second.segments);
    segments.flat_map(|[first, second]| [2, 3].map(|place| [first[place], second[place]]))
}

/// The loads by the exact rule, where there are both.
fn exact<'a>(first: &'a Drawn, second: &'a Drawn) -> impl Iterator<Item = Option<[Exact; 2]>> + 'a {
    pairs(&first.exact, &second.exact).map(|[first, second]| Some([first?, second?]))
}

/// Whether two answers are those of one roof before and after its pitches are moved.
fn is_near(first: &Drawn, second: &Drawn, bound: Bound) -> bool {
    let is_same_place = |[first, second]: [[u32; 4]; 2]| first[..2] == second[..2];
    let is_read = |loads: [u32; 2]| loads.iter().all(|&load| load < REFUSED);
    first.answer == second.answer
        && pairs(&first.segments, &second.segments).all(is_same_place)
        && ends(first, second).all(|loads| bound.allows(loads))
        && pairs(&first.loads, &second.loads).all(|loads| is_read(loads) && bound.allows(loads))
        && exact(first, second).all(|loads| loads.is_some_and(|loads| bound.allows_exact(loads)))
}

/// Whether all loads by the exact rule lie just X/375 apart.
fn is_met(first: &Drawn, second: &Drawn, bound: Bound) -> bool {
    exact(first, second).all(|loads| loads.is_some_and(|loads| bound.is_met(loads)))
}

/// Whether a roof's loads by the exact rule lie just X/375 from those of the other one: on kind 2
/// without a guard from 30.0° to 60.0°.
fn is_straight(roofs: [&[u8]; 2]) -> bool {
    let is_between = |roof: &[u8]| {
        let pitches = moved::pitches(roof);
        pitches.iter().all(|pitch| STRAIGHT.contains(pitch))
    };
    let guard = draft::fields(roofs[0])[1];
    roofs[0][0] == draft::MONOPITCH
        && draft::get(roofs[0], guard) == 0
        && roofs.into_iter().all(is_between)
}

impl Fuzz {
    /// Every pitch, slopes on either side and in each span, several at once, what is refused once moved,
    /// and lower roofs across 15.0°.
    pub fn sweep_moves(&mut self) {
        for figures in SITES {
            for pitch in 0..draft::MAX_PITCH {
                for guard in [0, 1] {
                    self.moved_monopitch(figures, pitch, guard);
                }
            }
        }
        for pitch in 0..draft::MAX_PITCH {
            for other in OTHERS {
                for slope in [0, 1] {
                    self.moved_side(pitch, other, slope);
                }
            }
        }
        for spans in 2..=draft::MAX_SPANS {
            for slope in 0..2 * spans {
                for step in [1, -1] {
                    self.moved_span(spans, slope, step);
                }
            }
        }
        for _ in 0..ROUNDS {
            for kind in [draft::PITCHED, draft::MULTI_SPAN, draft::DRIFT_ROOF] {
                self.several_moved(kind);
            }
            self.across_15();
        }
        self.moved_and_refused();
    }

    /// One pitch of an item of the sheet, or several, where it is accepted and has such a roof.
    pub fn ask_moved(&mut self, sheet: &[u8]) {
        let asked = self.checker.verdict(sheet);
        let has_pitches = |&item: &usize| !moved::pitches(draft::item_of(sheet, item)).is_empty();
        let items: Vec<_> = (1..asked.count).filter(has_pitches).collect();
        if items.is_empty() {
            return;
        }
        let item = self.random.pick(&items);
        let roof = draft::item_of(sheet, item);
        let steps = if self.random.once_in(SEVERAL) {
            self.several_steps(roof)
        } else {
            let slopes = moved::pitches(roof).len();
            let slope = self.random.below(slopes);
            let step = self.random.pick(&[1, -1]);
            one_step(slopes, slope, step)
        };
        self.moved_item(asked, item, &steps);
    }

    /// Every code of an item of an accepted sheet before and after its pitches are moved, or the refusal
    /// of the moved one.
    fn moved_item(&mut self, asked: Asked, item: usize, steps: &[i16]) {
        let roof = draft::item_of(asked.sheet, item);
        let (Some(roof), Some(way)) = (moved::item(roof, steps), Way::of(steps)) else {
            return;
        };
        let sheet = with_item(asked.sheet, item, &roof);
        if let Some(number) = refusal(&roof) {
            let is_known = self.checker.refused(&sheet, number, item);
            let place = usize::from(number == VALLEY);
            self.checker.tally.moves.refused[place] += u64::from(is_known);
            return;
        }
        let is_accepted = self.checker.known(&sheet, asked.count as u32);
        self.checker.tally.moves.sheets += u64::from(is_accepted);
        let other = Asked {
            sheet: &sheet,
            ..asked
        };
        for code in codes(&roof) {
            self.before_and_after([asked, other], item, code, way);
        }
        self.checker.forget();
    }

    /// A code of a roof on both sheets, at the same stations.
    fn before_and_after(&mut self, sheets: [Asked; 2], item: usize, code: u8, way: Way) {
        let [first, second] = self.both_drawn(sheets, item, code);
        let bound = self.bound(sheets[0], item, code);
        let is_met = is_met(&first, &second, bound);
        let roofs = sheets.map(|asked| draft::item_of(asked.sheet, item));
        if !is_near(&first, &second, bound) || (is_straight(roofs) && !is_met) {
            let describe = || format!("item {item} code {code}: {first:?}, moved {second:?}");
            self.checker.disagree(sheets[0].sheet, describe);
        } else if first.segments.is_empty() {
            self.checker.tally.moves.not_made += 1;
        } else {
            let loads = pairs(&first.loads, &second.loads).chain(ends(&first, &second));
            self.checker.tally.moves.count(&Move {
                kind: roofs[0][0],
                code,
                way,
                is_met,
                is_other: (&first.loads, &first.segments) != (&second.loads, &second.segments),
                readings: first.loads.len(),
                ends: 2 * first.segments.len(),
                beyond: loads.map(|loads| bound.beyond(loads)).max().unwrap_or(0),
            });
        }
    }

    fn both_drawn(&mut self, sheets: [Asked; 2], item: usize, code: u8) -> [Drawn; 2] {
        let (_, segments) = self.checker.segments(sheets[0], item, code);
        let stations = stations(&mut self.random, &segments);
        sheets.map(|asked| self.checker.drawn(asked, item, code, &stations))
    }

    /// How far loads of a code of an accepted sheet may lie apart.
    fn bound(&self, asked: Asked, item: usize, code: u8) -> Bound {
        let figures = calls::ask(self.checker.store(), asked.sheet, item);
        let (site, _) = figures.expect("the sheet is accepted");
        Bound::of(&site, code)
    }

    /// A step for each slope, up, down or none. One that would have the roof refused is left out.
    fn several_steps(&mut self, roof: &[u8]) -> Vec<i16> {
        let mut steps = vec![0; moved::pitches(roof).len()];
        for slope in 0..steps.len() {
            steps[slope] = self.random.pick(&[1, 0, -1]);
            let is_refused = |roof: Vec<u8>| refusal(&roof).is_some();
            if moved::item(roof, &steps).is_some_and(is_refused) {
                steps[slope] = 0;
            }
        }
        steps
    }

    /// A roof on a site.
    fn moved_roof(&mut self, site: Vec<u8>, roof: Vec<u8>, steps: &[i16]) {
        let sheet = draft::packed(&mut self.random, &[site, roof]);
        let asked = self.checker.verdict(&sheet);
        if asked.count > 0 {
            self.moved_item(asked, 1, steps);
        }
    }

    fn site_in_any(&mut self) -> Vec<u8> {
        let situation = self.random.pick(&SITUATIONS);
        draft::site_in(&mut self.random, situation)
    }

    /// The lower or the higher one of two pitches beside each other, and the step to the other one.
    fn up_or_down(&mut self, pitch: u32) -> (u32, i16) {
        self.random.pick(&[(pitch, 1), (pitch + 1, -1)])
    }

    fn width(&mut self) -> u32 {
        self.random.between(1, 100_000)
    }

    fn moved_monopitch(&mut self, figures: [u32; 4], pitch: u32, guard: u32) {
        let site = draft::of_figures(draft::SITE, &[&figures[..], &[FALLS, 300]].concat());
        let (pitch, step) = self.up_or_down(pitch);
        let width = self.width();
        let roof = draft::of_figures(draft::MONOPITCH, &[pitch, guard, width]);
        self.moved_roof(site, roof, &[step]);
    }

    fn moved_side(&mut self, pitch: u32, other: u32, slope: usize) {
        let site = draft::site_in(&mut self.random, FALLS);
        let (pitch, step) = self.up_or_down(pitch);
        let guards = [(); 2].map(|()| self.random.between(0, 1));
        let widths = [(); 2].map(|()| self.width());
        let mut pitches = [other; 2];
        pitches[slope] = pitch;
        let figures = [pitches, guards, widths].concat();
        let roof = draft::of_figures(draft::PITCHED, &figures);
        self.moved_roof(site, roof, &one_step(2, slope, step));
    }

    fn moved_span(&mut self, spans: usize, slope: usize, step: i16) {
        for kind in draft::SPANNED {
            let site = self.site_in_any();
            let roof = draft::spans(&mut self.random, kind, spans);
            self.moved_roof(site, roof, &one_step(2 * spans, slope, step));
        }
    }

    fn several_moved(&mut self, kind: u8) {
        let site = self.site_in_any();
        let roof = draft::item(&mut self.random, kind);
        let steps = self.several_steps(&roof);
        self.moved_roof(site, roof, &steps);
    }

    /// Each slope moved out of its range, and each valley until it is too steep. The refusal is known
    /// beforehand.
    fn moved_and_refused(&mut self) {
        for kind in [draft::MONOPITCH, draft::PITCHED] {
            let roof = draft::item(&mut self.random, kind);
            for slope in 0..moved::pitches(&roof).len() {
                self.out_of_range(&roof, slope, true);
            }
        }
        for kind in draft::SPANNED {
            for spans in WRONG_SPANS {
                let roof = draft::spans(&mut self.random, kind, spans);
                for slope in 0..2 * spans {
                    let is_outer = slope == 0 || slope + 1 == 2 * spans;
                    self.out_of_range(&roof, slope, is_outer);
                }
                self.too_steep(&roof, spans);
            }
        }
    }

    /// Down from 0, and where the slope may be that steep up from 800.
    fn out_of_range(&mut self, roof: &[u8], slope: usize, may_be_steepest: bool) {
        let slopes = moved::pitches(roof).len();
        let most = draft::MAX_PITCH;
        for (pitch, step) in [(0, -1), (most, 1)] {
            if pitch == 0 || may_be_steepest {
                let roof = with_pitch(roof, slope, pitch);
                self.moved_refusal(roof, &one_step(slopes, slope, step), FIELD);
            }
        }
    }

    fn too_steep(&mut self, roof: &[u8], spans: usize) {
        for valley in 1..spans {
            let left = 2 * valley - 1;
            for (pitches, valley_steps) in STEEP {
                let roof = with_pitch(roof, left, pitches[0]);
                let roof = with_pitch(&roof, left + 1, pitches[1]);
                let mut steps = vec![0; 2 * spans];
                steps[left..left + 2].copy_from_slice(&valley_steps);
                self.moved_refusal(roof, &steps, VALLEY);
            }
        }
    }

    fn moved_refusal(&mut self, roof: Vec<u8>, steps: &[i16], number: u32) {
        let place = usize::from(number == VALLEY);
        let before = self.checker.tally.moves.refused[place];
        let site = self.site_in_any();
        self.moved_roof(site, roof, steps);
        let tally = &mut self.checker.tally.moves;
        tally.known[place] += tally.refused[place] - before;
    }

    /// Lower roofs that differ in the pitch above alone, which is 15.0° and 15.1°.
    fn across_15(&mut self) {
        let mut roof = draft::item(&mut self.random, draft::LOWER);
        let fields = draft::fields(&roof);
        let [width, pitch] = [fields[3], fields[4]];
        let wide = self.random.between(WIDE[0], WIDE[1]);
        draft::put(&mut roof, width, wide);
        draft::put(&mut roof, pitch, ACROSS[0]);
        let site = self.site_in_any();
        let sheet = draft::packed(&mut self.random, &[site, roof.clone()]);
        draft::put(&mut roof, pitch, ACROSS[1]);
        let other = with_item(&sheet, 1, &roof);
        let sheets = [&sheet, &other].map(|sheet| self.checker.verdict(sheet));
        for code in SLIDING {
            let [first, second] = self.both_drawn(sheets, 1, code);
            let bound = self.bound(sheets[0], 1, code);
            let jumps = pairs(&first.loads, &second.loads).filter(|&loads| !bound.allows(loads));
            let tally = &mut self.checker.tally.moves;
            tally.jumps += jumps.count() as u64;
            tally.across += first.loads.len() as u64;
        }
    }
}

/// The steps of slopes of which one moves.
fn one_step(slopes: usize, slope: usize, step: i16) -> Vec<i16> {
    let mut steps = vec![0; slopes];
    steps[slope] = step;
    steps
}

/// The roof with a slope of another pitch.
fn with_pitch(roof: &[u8], slope: usize, pitch: u32) -> Vec<u8> {
    let step = pitch as i16 - moved::pitches(roof)[slope] as i16;
    let steps = one_step(moved::pitches(roof).len(), slope, step);
    moved::item(roof, &steps).unwrap_or_default()
}

#[cfg(test)]
mod tests {
    use super::*;

    /// Two spans with these pitches at their valley, and flat slopes beside it.
    fn spans(kind: u8, [left, right]: [u32; 2]) -> Vec<u8> {
        draft::two_spans(kind, &[0, left, 4_000, 5_000, right, 0, 6_000, 7_000])
    }

    #[test]
    fn ways() {
        assert_eq!(Way::of(&[1]), Some(Way::Up));
        assert_eq!(Way::of(&[0, -1, 0, 0]), Some(Way::Down));
        assert_eq!(Way::of(&[1, -1]), Some(Way::Several));
        assert_eq!(Way::of(&[0, 1, 0, 1]), Some(Way::Several));
        assert_eq!(Way::of(&[0, 0]), None);
        assert_eq!(Way::of(&[]), None);
    }

    #[test]
    fn refusals() {
        let shed = |pitch| draft::of_figures(draft::MONOPITCH, &[pitch, 0, 5_000]);
        assert_eq!(
            [800, 801, 65_535].map(|pitch| refusal(&shed(pitch))),
            [None, Some(8), Some(8)]
        );
        let hall = |left, right| draft::of_figures(draft::PITCHED, &[left, right, 0, 1, 1, 1]);
        assert_eq!(refusal(&hall(800, 600)), None);
        assert_eq!(refusal(&hall(0, 801)), Some(8));
        for kind in draft::SPANNED {
            let by_valley = |left, right| refusal(&spans(kind, [left, right]));
            assert_eq!([by_valley(600, 599), by_valley(0, 600)], [None, None]);
            assert_eq!(
                [by_valley(600, 600), by_valley(601, 0), by_valley(599, 601)],
                [Some(9); 3]
            );
            assert_eq!(by_valley(801, 600), Some(8));
        }
        let outer = [800, 0, 1, 1, 0, 800, 1, 1];
        assert_eq!(refusal(&draft::two_spans(draft::MULTI_SPAN, &outer)), None);
    }

    #[test]
    fn codes_by_kind() {
        let codes = |kind| codes(&[kind, 3]);
        assert_eq!(codes(draft::MONOPITCH), [1, 11]);
        assert_eq!(codes(draft::PITCHED), [1, 2, 3, 11, 12, 13]);
        assert_eq!(codes(draft::MULTI_SPAN), [1, 2, 11, 12]);
        assert_eq!(codes(draft::DRIFT_ROOF), [1, 2, 11, 12, 31, 32]);
    }

    /// Breaks at 0, 4,000 and 12,000, and one position in each segment.
    #[test]
    fn stations_of_two_segments() {
        let segments = [[0, 4_000, 7, 7], [4_000, 12_000, 8, 9]];
        let mut stations = stations(&mut Random::new(1), &segments);
        let known = [0, 1, 3_999, 4_000, 4_001, 11_999, 12_000];
        stations.retain(|station| !known.contains(station));
        assert!(
            stations.len() == 2 && stations[0] < 4_000 && (4_000..12_000).contains(&stations[1])
        );
        assert_eq!(super::stations(&mut Random::new(1), &[]), []);
    }

    /// One segment, its loads and a load between.
    fn drawn(end: u32, ends: [u32; 2], load: u32) -> Drawn {
        Drawn {
            answer: 1,
            segments: vec![[0, end, ends[0], ends[1]]],
            loads: vec![load],
            exact: vec![Some(Exact::default())],
        }
    }

    /// X is 300, so loads 2 apart are not within the bound.
    #[test]
    fn answers_that_are_near() {
        let bound = Bound::Tenth(300_000_000);
        let first = drawn(8, [5, 6], 6);
        let is_near = |second: Drawn| super::is_near(&first, &second, bound);
        assert!(is_near(drawn(8, [5, 6], 6)) && is_near(drawn(8, [4, 7], 7)));
        assert!(!is_near(drawn(9, [5, 6], 6)));
        assert!(!is_near(drawn(8, [3, 6], 6)) && !is_near(drawn(8, [5, 8], 6)));
        assert!(!is_near(drawn(8, [5, 6], 8)) && !is_near(drawn(8, [5, 6], 4)));
        let other = |answer, exact| Drawn {
            answer,
            exact: vec![exact],
            ..drawn(8, [5, 6], 6)
        };
        assert!(!is_near(other(2, Some(Exact::default()))));
        assert!(!is_near(other(1, None)));
        let refused = || drawn(8, [5, 6], REFUSED + 65_536 * 12 + 1);
        assert!(!super::is_near(&refused(), &refused(), bound));
    }

    /// Under 300 N/m² the loads of 30.0° and 30.1° are 240 and 239.2.
    #[test]
    fn loads_that_are_just_apart() {
        let made = |pitch: u32| {
            let site = draft::of_figures(draft::SITE, &[300, 100, 100, 200, 0, 500]);
            let roof = draft::of_figures(draft::MONOPITCH, &[pitch, 0, 5_000]);
            let mut checker = Fuzz::new(1).checker;
            let sheet = draft::without_gaps(&[site, roof]);
            let asked = checker.verdict(&sheet);
            checker.drawn(asked, 1, 1, &[0, 7, 20_000])
        };
        let [first, second, third] = [300, 301, 302].map(made);
        let bound = Bound::Tenth(300_000_000);
        assert!(is_met(&first, &second, bound) && is_met(&third, &second, bound));
        assert!(!is_met(&first, &first, bound) && !is_met(&first, &third, bound));
        assert!(is_near(&first, &second, bound) && !is_near(&first, &third, bound));
        assert!(!is_met(&first, &second, Bound::Tenth(300_000_001)));
    }

    #[test]
    fn where_loads_fall_in_a_line() {
        let shed = |pitch, guard| draft::of_figures(draft::MONOPITCH, &[pitch, guard, 5_000]);
        let is_straight = |first: Vec<u8>, second: Vec<u8>| is_straight([&first, &second]);
        assert!(is_straight(shed(300, 0), shed(301, 0)));
        assert!(is_straight(shed(600, 0), shed(599, 0)));
        assert!(!is_straight(shed(300, 0), shed(299, 0)));
        assert!(!is_straight(shed(600, 0), shed(601, 0)));
        assert!(!is_straight(shed(300, 1), shed(301, 1)));
        let hall = |pitch| draft::of_figures(draft::PITCHED, &[pitch, 400, 0, 0, 1, 1]);
        assert!(!is_straight(hall(400), hall(401)));
    }

    /// The item stands in the place of the other one.
    #[test]
    fn an_item_in_its_place() {
        let site = draft::of_figures(draft::SITE, &[1_000, 100, 100, 200, 0, 500]);
        let [roof, other] = [[0, 0], [1, 0]].map(|pitches| spans(draft::DRIFT_ROOF, pitches));
        let sheet = |roof: &[u8]| draft::without_gaps(&[site.clone(), roof.to_vec()]);
        assert_eq!(with_item(&sheet(&roof), 1, &other), sheet(&other));
        assert_eq!(with_pitch(&roof, 1, 1), other);
    }

    /// The library is the second calculation itself here.
    #[test]
    fn every_case_is_met() {
        let mut fuzz = Fuzz::new(1);
        fuzz.sweep_moves();
        let tally = &fuzz.checker.tally;
        assert!(tally.agrees());
        assert!(tally.moves.is_good());
    }
}
