//! Questions about request A12 alone: roofs drawn from either end, and arches, which are excepted.

use std::iter;
use std::ops::RangeInclusive;

use second::calls::{refusal_parts, REFUSED};
use second::loads::Exact;
use second::turned;

use crate::check::{Asked, Checker};
use crate::draft;
use crate::fuzz::Fuzz;
use crate::parapets::order;

/// Refusals of a store or a sheet whose items can't be told apart.
const NO_ITEMS: [u32; 3] = [1, 2, 18];
/// Every code, and one on either side.
const CODES: RangeInclusive<u8> = 0..=46;
/// Codes of arches with even snow, and with drifts, which favour one half.
const EVEN: [u8; 2] = [1, 11];
const DRIFTED: [u8; 2] = [2, 12];
/// Pitches in tenths of a degree: each of them is met with each, with and without guards.
const PITCHES: [u32; 20] = [
    0, 1, 50, 150, 151, 200, 299, 300, 301, 302, 350, 400, 450, 500, 550, 598, 599, 600, 601, 800,
];
const GUARDS: [[u32; 2]; 4] = [[0, 0], [0, 1], [1, 0], [1, 1]];
/// How often roofs with each number of spans are drawn.
const SPAN_ROUNDS: usize = 2;
/// The shortest and the longest drift at a projection. No drift of kind 12 is longer than the former.
const SHORTEST: u32 = 5_000;
const LONGEST: u32 = 15_000;
/// Heights of projections at the ends of their range, where 2h is one of these, and beside them.
const HEIGHTS: [u32; 8] = [1, 2_499, 2_500, 2_501, 7_499, 7_500, 7_501, 30_000];
/// Heights of small projections.
const SMALL_HEIGHTS: [u32; 4] = [1, 200, 999, 1_000];
/// Spans of the roofs with a field outside its range.
const WRONG_SPANS: [usize; 3] = [2, 3, 16];
/// Their slopes, and their valleys.
const WRONG_SLOPES: u64 = 2 * (2 + 3 + 16);
const WRONG_VALLEYS: u64 = 1 + 2 + 15;
/// Pitches in a valley that are refused.
const STEEP: [[u32; 2]; 5] = [[600, 600], [601, 0], [0, 601], [599, 601], [800, 800]];
/// How often lower roofs and arches are drawn.
const ROUNDS: usize = 200;

/// Refusals of a field outside its range and of slopes that are too steep at a valley.
const FIELD: usize = 8;
const VALLEY: usize = 9;
/// How often each is known beforehand. Three values are outside of each field: kind 3 has 6, kind 7
/// has 3 and kind 12 has 4, each slope of kinds 4 and 9 has 2, and each valley of kind 9 too.
pub const REFUSALS: [(usize, u64); 2] = [
    (
        FIELD,
        3 * (6 + 3 + 4 + 2 * 2 * WRONG_SLOPES + 2 * WRONG_VALLEYS),
    ),
    (VALLEY, 2 * WRONG_VALLEYS * STEEP.len() as u64),
];

/// Kinds with their codes and cases: six codes of kind 3 with four pairs of guards, four codes of kinds
/// 4 and 9 with 15 numbers of spans, a code for each valley of kind 9, and one code of kinds 7 and 12
/// with three orders on either side, of kind 7 with three lengths.
pub const CASES: usize = 6 * 4 + 2 * 4 * 15 + 15 * 16 / 2 + (3 + 1) * 3 * 3;

/// A roof as the tally counts it: by the guards of kind 3, by the number of spans of kinds 4 and 9. On
/// either side of kinds 7 and 12 it is 0 where the side is shorter than its drift, 1 where it is as
/// long and 2 where it is longer; behind these is the sort of kind 7's drift.
pub type Case = [usize; 3];

fn case(roof: &[u8]) -> Case {
    match roof[0] {
        draft::PITCHED => {
            let [left, right] = draft::GUARDS.map(|field| draft::get(roof, field) as usize);
            [left, right, 0]
        }
        draft::MULTI_SPAN | draft::DRIFT_ROOF => [usize::from(roof[1]), 0, 0],
        _ => {
            let sides = [0, 1].map(|side| width_and_drift(roof, side));
            let [left, right] = sides.map(|[width, drift]| order(width, drift));
            let [_, drift] = sides[0];
            [
                left,
                right,
                usize::from(drift > SHORTEST) + usize::from(drift == LONGEST),
            ]
        }
    }
}

/// The width of a side of kind 7 or 12, and the length of the drift there.
fn width_and_drift(roof: &[u8], side: usize) -> [u32; 2] {
    let fields = draft::steps_and_widths(roof[0])[side];
    let [step, width] = fields.map(|field| draft::get(roof, field));
    [width, draft::drift_length(roof[0], step)]
}

/// A sheet with each roof turned that can be, and each stepped roof under a pitched one at the other
/// side of that. None where no roof can be turned, or where the items can't be told apart.
pub fn turned_sheet(sheet: &[u8], verdict: u32) -> Option<Vec<u8>> {
    if verdict >= REFUSED && NO_ITEMS.contains(&refusal_parts(verdict).0) {
        return None;
    }
    let mut other = None;
    for place in (0..usize::from(sheet[0])).map(|item| draft::place_of(sheet, item)) {
        let item = &sheet[place.clone()];
        if let Some(item) = turned::item(item).or_else(|| at_other_side(sheet, item)) {
            other.get_or_insert_with(|| sheet.to_vec())[place].copy_from_slice(&item);
        }
    }
    other
}

/// A stepped roof under a pitched one that is turned. Its last two bytes are the upper item and the
/// side.
fn at_other_side(sheet: &[u8], item: &[u8]) -> Option<Vec<u8>> {
    let [draft::STEPPED, fields @ .., upper, side] = item else {
        return None;
    };
    let upper_item = (*upper < sheet[0]).then(|| draft::item_of(sheet, (*upper).into()))?;
    let is_pitched = upper_item.first() == Some(&draft::PITCHED);
    (is_pitched && turned::item(upper_item).is_some())
        .then(|| [&[draft::STEPPED], fields, &[*upper, side ^ 1]].concat())
}

/// The breaks of an arrangement and the positions beside them, among them one past the end, and
/// another one past the end. Where no arrangement is made, some positions.
fn stations(segments: &[[u32; 4]]) -> Vec<u32> {
    let ends = segments.iter().map(|segment| segment[1]);
    let beside = |at: u32| [at.saturating_sub(1), at, at + 1];
    let mut stations: Vec<_> = iter::once(0).chain(ends).flat_map(beside).collect();
    stations.push(u32::MAX);
    stations.sort_unstable();
    stations.dedup();
    stations
}

/// What is answered about a code of a roof: of making, and at stations.
#[derive(Debug)]
pub struct Drawn {
    pub answer: u32,
    pub segments: Vec<[u32; 4]>,
    pub loads: Vec<u32>,
    /// By the exact rule.
    pub exact: Vec<Option<Exact>>,
}

impl Drawn {
    /// Whether these are the answers from the other end.
    fn is_turned(&self, other: &Self) -> bool {
        self.answer == other.answer
            && turned::segments(&self.segments) == other.segments
            && self.loads == other.loads
            && same_numbers(&self.exact, &other.exact)
    }
}

/// Whether loads by the exact rule are equal, one by one.
fn same_numbers(first: &[Option<Exact>], second: &[Option<Exact>]) -> bool {
    let is_same = |pair| match pair {
        (&Some(first), &Some(second)) => Exact::is_same_number(first, second),
        (first, second) => first.is_none() && second.is_none(),
    };
    first.len() == second.len() && first.iter().zip(second).all(is_same)
}

/// An arrangement from either end as the tally counts it.
pub struct Turn {
    pub kind: u8,
    pub code: u8,
    pub case: Case,
    /// Whether the turned roof has other segments.
    pub is_other: bool,
    /// Stations on the roof and past its end.
    pub stations: usize,
}

impl Checker {
    /// Every code of an item of an accepted sheet on the sheet and on the turned one.
    pub fn turned_item(&mut self, asked: Asked, item: usize) {
        let Some(sheet) = turned_sheet(asked.sheet, asked.count as u32) else {
            return;
        };
        let other = Asked {
            sheet: &sheet,
            ..asked
        };
        let roof = draft::item_of(asked.sheet, item);
        let is_turned = turned::item(roof).is_some();
        for code in CODES {
            if is_turned {
                self.either_end([asked, other], item, code);
            } else {
                self.unturned([asked, other], item, code);
            }
        }
        self.forget();
    }

    /// A code of a roof, and that of the turned one, with the loads at the same places.
    fn either_end(&mut self, sheets: [Asked; 2], item: usize, code: u8) {
        let roof = draft::item_of(sheets[0].sheet, item);
        let (_, segments) = self.segments(sheets[0], item, code);
        let end = segments.last().map_or(0, |segment| segment[1]);
        let here = stations(&segments);
        let from_there = |&station: &u32| turned::station(end, station).unwrap_or(station);
        let there: Vec<_> = here.iter().map(from_there).collect();
        let first = self.drawn(sheets[0], item, code, &here);
        let second = self.drawn(sheets[1], item, turned::code(roof, code), &there);
        if !first.is_turned(&second) {
            let describe = || format!("item {item} code {code}: {first:?}, turned {second:?}");
            self.disagree(sheets[0].sheet, describe);
        } else if segments.is_empty() {
            self.tally.turns.not_made += 1;
        } else {
            self.tally.turns.turn(&Turn {
                kind: roof[0],
                code,
                case: case(roof),
                is_other: first.segments != second.segments,
                stations: here.len(),
            });
        }
    }

    /// The library's answer of making, and its segments.
    pub fn segments(&self, asked: Asked, item: usize, code: u8) -> (u32, Vec<[u32; 4]>) {
        let (answer, numbers) = self.made(asked.sheet, item, code);
        let count = if answer < REFUSED { answer } else { 0 };
        let segments = numbers.as_chunks().0.iter().copied();
        (answer, segments.take(count as usize).collect())
    }

    /// Both sides are asked, and the answers are the library's.
    pub fn drawn(&mut self, asked: Asked, item: usize, code: u8, stations: &[u32]) -> Drawn {
        self.forget();
        self.make(asked, item, code, 128);
        let (answer, segments) = self.segments(asked, item, code);
        let load = |&station: &u32| self.load(asked, item, code, station);
        let loads = stations.iter().map(load).collect();
        let mut exact = Vec::new();
        if answer < REFUSED {
            let load = |&station: &u32| self.exact(asked, item, code, station);
            exact.extend(stations.iter().map(load));
        }
        Drawn {
            answer,
            segments,
            loads,
            exact,
        }
    }

    /// What is made for an item that isn't turned stays, for a stepped roof at the other side of a
    /// turned one too.
    fn unturned(&mut self, sheets: [Asked; 2], item: usize, code: u8) {
        let [sheet, other] = sheets.map(|asked| asked.sheet);
        let is_same = self.alike_segments([sheet, other], item, code, "on the turned sheet");
        let (answer, _) = self.made(sheet, item, code);
        let roof = draft::item_of(sheet, item);
        let is_lower = roof != draft::item_of(other, item);
        if is_same && is_lower && answer < REFUSED {
            let side = draft::get(roof, draft::SIDE);
            self.tally.turns.lower[side as usize] += 1;
        }
    }
}

impl Fuzz {
    /// Roofs of every kind that can be turned, at the edges of its rules, in each situation by each
    /// code, what is refused, stepped roofs under turned ones, and arches.
    pub fn sweep_turns(&mut self) {
        for left in PITCHES {
            for right in PITCHES {
                self.turned_pitches([left, right]);
            }
        }
        for spans in (2..=draft::MAX_SPANS).flat_map(|spans| [spans; SPAN_ROUNDS]) {
            for kind in draft::SPANNED {
                let roof = draft::spans(&mut self.random, kind, spans);
                self.turned_everywhere(&[roof]);
            }
        }
        self.turned_projections();
        self.turned_small_projections();
        for _ in 0..ROUNDS {
            let hall = draft::item(&mut self.random, draft::PITCHED);
            let lower = draft::under(&mut self.random, 1);
            self.turned_everywhere(&[hall, lower]);
            self.arch();
        }
        self.turned_and_refused();
    }

    /// One item of a sheet, where it is accepted and has roofs.
    pub fn ask_turned(&mut self, sheet: &[u8]) {
        let asked = self.checker.verdict(sheet);
        if asked.count > 1 {
            let item = 1 + self.random.below(asked.count - 1);
            self.checker.turned_item(asked, item);
        }
    }

    /// The last of some roofs in each situation.
    fn turned_everywhere(&mut self, roofs: &[Vec<u8>]) {
        for situation in 0..=draft::MAX_SITUATION {
            let site = draft::site_in(&mut self.random, situation);
            let items = [&[site], roofs].concat();
            let sheet = draft::packed(&mut self.random, &items);
            let asked = self.checker.verdict(&sheet);
            self.checker.turned_item(asked, roofs.len());
        }
    }

    fn turned_pitches(&mut self, [left, right]: [u32; 2]) {
        for [left_guard, right_guard] in GUARDS {
            let widths = [(); 2].map(|()| self.random.between(1, 100_000));
            let figures = [left, right, left_guard, right_guard, widths[0], widths[1]];
            self.turned_everywhere(&[draft::of_figures(draft::PITCHED, &figures)]);
        }
    }

    /// Sides of every sort on the left and on the right of projections.
    fn turned_projections(&mut self) {
        for height in HEIGHTS {
            let sides = widths(draft::PROJECTION, height);
            for left in sides {
                for right in sides {
                    let figures = [height, left, right];
                    self.turned_everywhere(&[draft::of_figures(draft::PROJECTION, &figures)]);
                }
            }
        }
    }

    /// The same of small projections, whose sides have a height each.
    fn turned_small_projections(&mut self) {
        let kind = draft::SMALL_PROJECTION;
        let with_height = |height| widths(kind, height).map(|width| [height, width]);
        let sides = SMALL_HEIGHTS.map(with_height);
        for [left, left_width] in sides.into_iter().flatten() {
            for [right, right_width] in sides.into_iter().flatten() {
                let figures = [left, right, left_width, right_width];
                self.turned_everywhere(&[draft::of_figures(kind, &figures)]);
            }
        }
    }

    /// An arch in each situation. Even snow is the same from either end, drifted snow isn't.
    fn arch(&mut self) {
        let arch = draft::item(&mut self.random, draft::CYLINDRICAL);
        for situation in 0..=draft::MAX_SITUATION {
            let site = draft::site_in(&mut self.random, situation);
            let sheet = draft::packed(&mut self.random, &[site, arch.clone()]);
            let asked = self.checker.verdict(&sheet);
            for code in EVEN {
                if self.other_loads(asked, code) > 0 {
                    let describe = || format!("code {code}: even snow isn't the same");
                    self.checker.disagree(&sheet, describe);
                }
            }
            for code in DRIFTED {
                let stations = self.other_loads(asked, code);
                self.checker.tally.turns.arches += u64::from(stations > 0);
                self.checker.tally.turns.arch_stations += stations;
            }
        }
    }

    /// How many stations of the roof have another load than those as far from the other end.
    fn other_loads(&mut self, asked: Asked, code: u8) -> u64 {
        let numbers = self.checker.make(asked, 1, code, 128);
        let (segments, _) = numbers.as_chunks::<4>();
        let Some(&[_, end, ..]) = segments.last() else {
            return 0;
        };
        let mut count = 0;
        for station in stations(segments) {
            if let Some(other) = turned::station(end, station) {
                let [here, there] =
                    [station, other].map(|at| self.checker.load(asked, 1, code, at));
                count += u64::from(here != there);
            }
        }
        count
    }

    /// Each field outside its range, and each valley with slopes that are too steep. The refusal is
    /// known beforehand, and the turned sheet has it too.
    fn turned_and_refused(&mut self) {
        for kind in [draft::PITCHED, draft::PROJECTION, draft::SMALL_PROJECTION] {
            let roof = draft::item(&mut self.random, kind);
            self.fields_outside(&roof);
        }
        for kind in draft::SPANNED {
            for spans in WRONG_SPANS {
                let roof = draft::spans(&mut self.random, kind, spans);
                self.fields_outside(&roof);
                self.valleys_too_steep(&roof);
            }
        }
    }

    fn fields_outside(&mut self, roof: &[u8]) {
        for field in draft::fields(roof) {
            for value in [field.low.wrapping_sub(1), field.high + 1, u32::MAX] {
                let mut roof = roof.to_vec();
                draft::put(&mut roof, field, value);
                self.turned_refusal(roof, FIELD);
            }
        }
    }

    fn valleys_too_steep(&mut self, roof: &[u8]) {
        for valley in 1..usize::from(roof[1]) {
            let (left, right) = draft::valley_fields(valley);
            for pitches in STEEP {
                let mut roof = roof.to_vec();
                draft::put(&mut roof, left, pitches[0]);
                draft::put(&mut roof, right, pitches[1]);
                self.turned_refusal(roof, VALLEY);
            }
        }
    }

    fn turned_refusal(&mut self, roof: Vec<u8>, number: usize) {
        let site = draft::site_in(&mut self.random, 3);
        let sheet = draft::packed(&mut self.random, &[site, roof]);
        let is_known = self.checker.refused(&sheet, number as u32, 1);
        self.checker.tally.turns.known[number] += u64::from(is_known);
    }
}

/// Widths of a side of kind 7 or 12: the ends of their range, half of the drift's length, that length
/// and those beside it, and twice as much.
fn widths(kind: u8, height: u32) -> [u32; 7] {
    let drift = draft::drift_length(kind, height);
    [
        1,
        drift / 2,
        drift - 1,
        drift,
        drift + 1,
        2 * drift,
        100_000,
    ]
}

#[cfg(test)]
mod tests {
    use super::*;

    /// A site, a pitched roof, stepped roofs under it at either side, one of these under another, a
    /// monopitch roof, a stepped one under it, and an arch.
    fn hall() -> [Vec<u8>; 8] {
        let figures = draft::of_figures;
        let under = |upper, side| figures(draft::STEPPED, &[8_000, 2_500, upper, side]);
        [
            figures(draft::SITE, &[1_000, 100, 100, 200, 0, 500]),
            figures(draft::PITCHED, &[200, 400, 0, 1, 9_000, 6_000]),
            under(1, 0),
            under(1, 1),
            under(2, 1),
            figures(draft::MONOPITCH, &[300, 0, 5_000]),
            under(5, 0),
            figures(draft::CYLINDRICAL, &[1_000, 4_000]),
        ]
    }

    #[test]
    fn stepped_roofs_change_sides_with_the_roof_above() {
        let items = hall();
        let mut other = items.clone();
        other[1] = draft::of_figures(draft::PITCHED, &[400, 200, 1, 0, 6_000, 9_000]);
        draft::put(&mut other[2], draft::SIDE, 1);
        draft::put(&mut other[3], draft::SIDE, 0);
        let [sheet, other] = [items, other].map(|items| draft::without_gaps(&items));
        assert_eq!(turned_sheet(&sheet, 8), Some(other.clone()));
        assert_eq!(turned_sheet(&other, 8), Some(sheet));
    }

    #[test]
    fn sheets_that_stay() {
        let items = hall();
        let sheet = draft::without_gaps(&items);
        for number in 1..=19 {
            let is_turned = turned_sheet(&sheet, REFUSED + 65_536 * number).is_some();
            assert_eq!(is_turned, ![1, 2, 18].contains(&number));
        }
        // No roof that can be turned, and one that hasn't its kind's length.
        assert_eq!(turned_sheet(&draft::without_gaps(&items[5..]), 3), None);
        let mut short = items;
        short[1].pop();
        let sheet = draft::without_gaps(&short);
        assert_eq!(turned_sheet(&sheet, REFUSED + 65_536 * 4 + 1), None);
    }

    /// The library is the second calculation itself here.
    #[test]
    fn every_case_is_met() {
        let mut fuzz = Fuzz::new(1);
        fuzz.sweep_turns();
        let tally = &fuzz.checker.tally;
        assert!(tally.agrees());
        assert!(tally.turns.is_good());
    }
}
