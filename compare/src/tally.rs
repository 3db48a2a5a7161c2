//! Counts of comparisons and answers, and the disagreements.

use std::cmp::Ordering;
use std::collections::BTreeMap;
use std::ops::AddAssign;

use second::calls::{refusal_parts, NONE, REFUSED};

use crate::before::Returned;
use crate::check::{Asked, Lent, Single, MAX_SHEET_ROOM};
use crate::desk::{self, Read};
use crate::draft;
use crate::eaves::Eave;
use crate::halls::{self, Step};
use crate::jobs::{self, Job};
use crate::layouts::{self, Layout};
use crate::moves::{self, Move, Way};
use crate::parapets::{self, Parapet, SmallProjection, ALONE, WAYS};
use crate::segments;
use crate::stores;
use crate::turns::{self, Case, Turn};

/// The twelve calls, in the order of the header.
pub const CALLS: [&str; 12] = [
    "add_set",
    "verdict",
    "desk_verdict",
    "make",
    "segment_count",
    "segment",
    "load",
    "overhang",
    "guard_force",
    "list",
    "canonical",
    "ground_load",
];
/// The highest number of a refusal.
const MAX_NUMBER: usize = 19;
/// Lengths of slices that every run goes through.
pub const LENGTHS: usize = 141;
/// Indexes that no sheet has and every run asks for: those at the ends of 8, 16, 31, 32 and 64 bits.
pub const MISSING: [usize; 14] = [
    254,
    255,
    256,
    257,
    65_533,
    65_534,
    65_535,
    65_536,
    65_537,
    0x7FFF_FFFF,
    0x8000_0000,
    0xFFFF_FFFF,
    1 << 32,
    usize::MAX,
];
/// 8 regions, 5 zones, altitudes 0 to 1,500: every run asks for each.
const MAP_PLACES: u64 = 8 * 5 * 1_501;
/// Refusals of a ground load.
const MAP_REFUSALS: [usize; 3] = [7, 14, 15];
/// Valleys of the roofs with 2 to 16 spans, in situations 2 and 3: every run asks for each, as
/// often as there are rounds.
const VALLEYS: u64 = 120 * 2;
pub const DRIFT_ROUNDS: u64 = 24;
/// Pairs of the sheet whose every offset and every length is asked for.
pub const PAIRS: usize = 3;
/// Refusals of a store or of a sheet inside the desk's ceiling, which the desk and a terminal share.
const SHEET_REFUSALS: [usize; 16] = [1, 2, 3, 4, 5, 6, 7, 8, 9, 10, 14, 15, 16, 17, 18, 19];
/// Situations with each code that a stepped roof has there.
const STEPPED_CODES: usize = 11;
/// A load lies less than this above the exact rule, in millionths of a N/m².
const DISTANCE: u64 = 1_200_000;
/// The greatest difference beyond X/375 is at least this, in thousandths of a N/m².
const NEAR: u64 = 990;
/// An overhang lies less than this above the rule over the unrounded load, in millionths of a N/m.
const EAVE_DISTANCE: u64 = 10_000_000;
/// Disagreements that are written out.
const SHOWN: u64 = 5;

#[derive(Clone, Copy)]
pub enum Call {
    AddSet,
    Verdict,
    DeskVerdict,
    Make,
    SegmentCount,
    Segment,
    Load,
    Overhang,
    GuardForce,
    List,
    Canonical,
    GroundLoad,
}

pub struct Tally {
    pub sheets: u64,
    pub accepted_sheets: u64,
    /// Accepted ones with a map site.
    pub map_sheets: u64,
    /// Accepted ones by situation.
    pub situations: [u64; 4],
    calls: [u64; CALLS.len()],
    answered: u64,
    none: u64,
    /// On sheets, by number; 12 for an index counts here.
    refused: [u64; MAX_NUMBER + 1],
    /// 12 for a station, and for the index of a segment.
    past_roof: u64,
    past_segments: u64,
    /// How often a slice of each length was lent, and how often it was enough.
    lengths: [(u64, u64); LENGTHS],
    /// How often each missing index was refused by 12.
    missing: [u64; MISSING.len()],
    pub map: MapTally,
    pub drifts: DriftTally,
    pub pairs: PairTally,
    pub tenths: TenthsTally,
    pub eaves: EaveTally,
    pub desk: DeskTally,
    pub halls: HallTally,
    pub sets: SetTally,
    pub parapets: ParapetTally,
    pub layouts: LayoutTally,
    pub segments: SegmentTally,
    pub turns: TurnTally,
    pub moves: MoveTally,
    disagreements: u64,
}

/// What was asked about ground loads of the map.
#[derive(Default)]
pub struct MapTally {
    /// Places of the table: each region, zone and altitude within its range.
    pub places: u64,
    /// Listings that are alike on the map and with the ground load given.
    pub alike: u64,
    answered: u64,
    /// By number; no sheet is in play.
    refused: [u64; MAX_NUMBER + 1],
}

impl MapTally {
    pub fn answer(&mut self, answer: u32) {
        if answer < REFUSED {
            self.answered += 1;
        } else {
            self.refused[number_of(answer)] += 1;
        }
    }

    fn is_good(&self) -> bool {
        self.places == MAP_PLACES && self.alike > 0 && self.met_refusals()
    }

    fn met_refusals(&self) -> bool {
        MAP_REFUSALS.iter().all(|&number| self.refused[number] > 0)
    }

    fn print(&self) {
        println!(
            "GROUND LOADS {} of the map, {} listings alike with the load given",
            self.places, self.alike
        );
        println!("  answered {}", self.answered);
        for number in MAP_REFUSALS {
            println!("  refused {number} {}", self.refused[number]);
        }
    }
}

/// What was asked about exceptional drifts.
#[derive(Default)]
pub struct DriftTally {
    /// Segments of a drift, or loads at a station of one, on any sheet.
    answered: u64,
    /// Valleys whose drift was made and asked about closely.
    pub valleys: u64,
    /// Drifts that other coefficients left as they were.
    pub alike: u64,
    /// Listings in situations 0 and 1 that are those of the roof of kind 4.
    pub plain: u64,
    /// How often the load was 2h, 5 × sk, or what the length gives.
    pub limits: [u64; 3],
}

impl DriftTally {
    pub fn answer(&mut self, code: u8, answer: u32) {
        self.answered += u64::from(code > 30 && answer < REFUSED);
    }

    fn is_good(&self) -> bool {
        self.valleys == VALLEYS * DRIFT_ROUNDS
            && self.alike == self.valleys
            && self.plain > 0
            && self.limits.iter().all(|&count| count > 0)
    }

    fn print(&self) {
        println!(
            "DRIFTS {} of valleys in turn, {} alike under other coefficients, {} listings alike with kind 4",
            self.valleys, self.alike, self.plain
        );
        let [depth, ground, length] = self.limits;
        println!("  limited by depth {depth}, by ground load {ground}, by length {length}");
        println!("  answered {}", self.answered);
    }
}

/// What was asked about the numbers of a pair.
#[derive(Default)]
pub struct PairTally {
    /// Every offset and every length of each pair.
    pub asked: u64,
    /// Sheets that were accepted, by the pair that was changed.
    pub accepted: [u64; PAIRS],
}

impl PairTally {
    fn is_good(&self) -> bool {
        self.asked == (2 * PAIRS as u64) << 16 && self.accepted.iter().all(|&count| count > 1_000)
    }

    fn print(&self) {
        let [first, second, third] = self.accepted;
        println!(
            "PAIRS {} offsets and lengths in turn, accepted {first}, {second} and {third}",
            self.asked
        );
    }
}

/// Distances above a rule that is not rounded, in millionths.
#[derive(Default)]
struct Distances {
    farthest: u64,
    /// Below the rule, or too far above it.
    off: u64,
}

impl Distances {
    /// Counts a distance, none where it lies below; whether it is less than the limit.
    fn count(&mut self, distance: Option<u64>, limit: u64) -> bool {
        let near = distance.filter(|&distance| distance < limit);
        match near {
            Some(distance) => self.farthest = self.farthest.max(distance),
            None => self.off += 1,
        }
        near.is_some()
    }

    /// The farthest, cut after thousandths.
    fn farthest(&self) -> f64 {
        (self.farthest / 1_000) as f64 / 1_000.0
    }
}

/// Loads that both sides returned, against parts in whole N/m² and against the exact rule.
#[derive(Default)]
pub struct TenthsTally {
    /// The same, 1 lower, 2 lower.
    drops: [u64; 3],
    /// Higher, or lower by more.
    other: u64,
    /// Those of the drops at cut ends of segments.
    cut: [u64; 3],
    /// The largest drop.
    largest: i64,
    distances: Distances,
}

impl TenthsTally {
    /// Counts a load; whether it is as it must be.
    pub fn count(&mut self, returned: &Returned) -> bool {
        let drop = i64::from(returned.before) - i64::from(returned.load);
        self.largest = self.largest.max(drop);
        let is_known = (0..=2).contains(&drop);
        if is_known {
            self.drops[drop as usize] += 1;
            self.cut[drop as usize] += u64::from(returned.is_cut);
        } else {
            self.other += 1;
        }
        self.distances.count(returned.distance, DISTANCE) && is_known
    }

    fn is_good(&self) -> bool {
        let met = self.drops.iter().chain(&self.cut).all(|&count| count > 0);
        met && self.other == 0 && self.distances.off == 0
    }

    fn print(&self) {
        let all = self.drops.iter().sum::<u64>() + self.other;
        let [same, one, two] = self.drops;
        println!(
            "TENTHS {all} loads against parts in whole N/m²: same {same}, 1 lower {one}, 2 lower {two}, other {}",
            self.other
        );
        let [same, one, two] = self.cut;
        println!("  at cut ends of segments same {same}, 1 lower {one}, 2 lower {two}");
        println!("  largest drop {}", self.largest);
        println!(
            "  above the exact rule at most {:.3} N/m², below it or 1.2 above {}",
            self.distances.farthest(),
            self.distances.off
        );
    }
}

/// Overhangs that both sides returned, against the rule over the unrounded load and against the
/// slope's own load.
#[derive(Default)]
pub struct EaveTally {
    /// As by the slope's own load, and above that, by the slope's number.
    own: [u64; 2],
    raised: [u64; 2],
    /// Below that.
    lowered: u64,
    distances: Distances,
}

impl EaveTally {
    /// Counts an overhang; whether it is as it must be.
    fn count(&mut self, eave: &Eave) -> bool {
        let side = usize::from(eave.slope == 2);
        match eave.force.cmp(&eave.own) {
            Ordering::Less => self.lowered += 1,
            Ordering::Equal => self.own[side] += 1,
            Ordering::Greater => self.raised[side] += 1,
        }
        self.distances.count(eave.distance, EAVE_DISTANCE) && eave.own <= eave.force
    }

    fn is_good(&self) -> bool {
        let met = self.own.iter().chain(&self.raised).all(|&count| count > 0);
        met && self.lowered == 0 && self.distances.off == 0
    }

    fn print(&self) {
        let [left, right] = self.own;
        let all = left + right + self.raised.iter().sum::<u64>() + self.lowered;
        println!(
            "EAVES {all} overhangs: as by the slope's own load {left} and {right} by its number"
        );
        let [left, right] = self.raised;
        println!("  above that {left} and {right}, below it {}", self.lowered);
        println!(
            "  above the rule at most {:.3} N/m, below it or 10 above {}",
            self.distances.farthest(),
            self.distances.off
        );
    }
}

/// Verdicts of the quote desk beside those of the terminals.
#[derive(Default)]
pub struct DeskTally {
    /// On sheets inside the desk's ceiling, by number, 0 for those that are accepted.
    inside: [u64; MAX_NUMBER + 1],
    /// On sheets outside of it, which the terminals refuse and accept.
    outside: [u64; 2],
    /// Sheets that the terminals accept, by items and bytes at the desk's ceiling and beside it.
    edges: [[u64; desk::BYTES.len()]; desk::ITEMS.len()],
}

impl DeskTally {
    /// Counts two verdicts on a sheet; whether they are as they must be.
    fn count(&mut self, read: &Read) -> bool {
        let accepted = read.terminal < REFUSED;
        if read.is_inside() {
            self.inside[number_of(read.terminal)] += 1;
        } else {
            self.outside[usize::from(accepted)] += 1;
        }
        if let (Some((items, bytes)), true) = (read.edge(), accepted) {
            self.edges[items][bytes] += 1;
        }
        read.is_right()
    }

    fn is_good(&self) -> bool {
        self.inside[0] > 0
            && SHEET_REFUSALS.iter().all(|&number| self.inside[number] > 0)
            && self.outside.iter().all(|&count| count > 0)
            && self.edges.iter().flatten().all(|&count| count > 0)
    }

    fn print(&self) {
        let accepted = self.inside[0];
        let inside: u64 = self.inside.iter().sum();
        let [refused, sound] = self.outside;
        println!(
            "DESK {inside} sheets inside its ceiling, accepted {accepted}, refused {}",
            inside - accepted
        );
        println!("  outside of it {sound} that the terminals accept, {refused} that they refuse");
        println!(
            "  sound ones of {:?} items with {:?} bytes, each met at least {} times",
            desk::ITEMS,
            desk::BYTES,
            self.edges.iter().flatten().min().unwrap_or(&0)
        );
    }
}

/// What was asked about stepped roofs.
#[derive(Default)]
pub struct HallTally {
    /// Accepted sheets with stepped roofs, and those of them with one before its upper item.
    sheets: u64,
    turned: u64,
    /// Arrangements made and loads read, by kind and side of the upper item.
    answered: [[u64; 2]; draft::UPPERS.len()],
    /// Those with b1 above 100,000.
    wide: u64,
    /// Those by situation and code.
    codes: [[u64; halls::CODES.len()]; 4],
    /// Answers of making, and listings, that are those of roofs of kind 6 with the same figures.
    pub alike: u64,
    pub listings: u64,
    /// Circles by length, each refused at its lowest item, and those of them with a lower item that
    /// leads into one.
    pub circles: [u64; draft::MAX_ITEMS - 1],
    pub led: u64,
}

impl HallTally {
    /// Counts an accepted sheet.
    pub fn sheet(&mut self, sheet: &[u8], count: usize) {
        let upper = |item| halls::upper_of(sheet, item);
        self.sheets += u64::from((1..count).any(|item| upper(item).is_some()));
        self.turned += u64::from((1..count).any(|item| upper(item) > Some(item)));
    }

    /// Counts an arrangement or a load of a stepped roof.
    pub fn answer(&mut self, sheet: &[u8], item: usize, code: u8, answer: u32) {
        if answer >= REFUSED {
            return;
        }
        if let Some(step) = Step::of(sheet, item) {
            self.answered[step.upper][step.side] += 1;
            self.wide += u64::from(step.is_wide);
            if let Some(place) = halls::CODES.iter().position(|&known| known == code) {
                self.codes[step.situation][place] += 1;
            }
        }
    }

    /// How many situations and codes were met together.
    fn met_codes(&self) -> usize {
        self.codes
            .iter()
            .flatten()
            .filter(|&&count| count > 0)
            .count()
    }

    fn is_good(&self) -> bool {
        self.turned > 0
            && self.answered.iter().flatten().all(|&count| count > 0)
            && self.wide > 0
            && self.met_codes() == STEPPED_CODES
            && self.alike > 0
            && self.listings > 0
            && self.circles.iter().all(|&count| count > 0)
            && self.led > 0
    }

    fn print(&self) {
        println!(
            "HALLS {} accepted sheets with stepped roofs, {} with one before its upper item",
            self.sheets, self.turned
        );
        for (kind, [left, right]) in draft::UPPERS.iter().zip(self.answered) {
            println!("  answered under kind {kind} {left} on the left, {right} on the right");
        }
        println!(
            "  above 100,000 wide {}, codes in their situations {} of {STEPPED_CODES}",
            self.wide,
            self.met_codes()
        );
        println!(
            "  alike with kind 6 {} answers of making and {} listings",
            self.alike, self.listings
        );
        println!(
            "  circles of 1 to {} roofs, each met at least {} times, with a lower roof leading in {}",
            self.circles.len(),
            self.circles.iter().min().unwrap_or(&0),
            self.led
        );
    }
}

/// Loads under heavier snow, and those of them that are no more than under the lighter one.
#[derive(Default)]
pub struct Rising {
    heavier: u64,
    level: u64,
}

impl Rising {
    pub fn count(&mut self, is_level: bool) {
        self.heavier += 1;
        self.level += u64::from(is_level);
    }

    fn is_met(&self) -> bool {
        0 < self.level && self.level < self.heavier
    }

    fn print(&self) {
        let (heavier, level) = (self.heavier, self.level);
        println!("  loads under heavier snow {heavier}, of them level {level}");
    }
}

impl AddAssign for Rising {
    fn add_assign(&mut self, other: Self) {
        self.heavier += other.heavier;
        self.level += other.level;
    }
}

/// What was asked about national figures.
#[derive(Default)]
pub struct SetTally {
    /// Accepted sheets by kind of site, without a day and with one.
    sites: [[u64; 2]; 2],
    /// Dated jobs by the store's count of sets, where it is one that every run meets.
    counts: [u64; stores::COUNTS.len()],
    /// Dated jobs before every first day, on the day before one, on one, and on the day after one.
    days: [u64; 4],
    /// Segments of a dated job that are those of the job without its day, and others, by kind.
    pub segments: [[u64; 2]; jobs::KINDS.len()],
    /// Listings under the recommended figures, with and without a day, that are alike.
    pub recommended: u64,
    /// Days and figures asked for in turn.
    pub every_day: u64,
    pub every_figure: u64,
    /// Stores that every call refused, and those with a number at the end of its range that none did.
    pub broken: u64,
    pub at_ends: u64,
    /// Stores with bad numbers behind the last set that changed no answer.
    pub behind: u64,
    /// Sets added, by the new count, and sets that were not.
    added: [u64; stores::MAX_SETS],
    not_added: u64,
    /// Jobs before an added set whose every answer was as before, and jobs since then with another.
    pub kept: u64,
    pub moved: u64,
    pub rising: Rising,
}

impl SetTally {
    /// Counts a dated or undated job that is accepted, or that no set has begun for.
    pub fn verdict(&mut self, lent: Lent, verdict: u32) {
        let accepted = verdict < REFUSED;
        if !accepted && number_of(verdict) != 19 {
            return;
        }
        let job = Job::of(lent);
        if accepted {
            self.sites[usize::from(job.on_map)][usize::from(job.days.is_some())] += 1;
        }
        if let Some(days) = job.days {
            for (count, is_met) in self.days.iter_mut().zip(days) {
                *count += u64::from(is_met);
            }
            if let Some(place) = stores::COUNTS.iter().position(|&count| count == job.count) {
                self.counts[place] += 1;
            }
        }
    }

    /// Counts an answer about a set that was to be added.
    pub fn answer(&mut self, answer: u32) {
        match self.added.get_mut((answer as usize).wrapping_sub(1)) {
            Some(count) => *count += 1,
            None => self.not_added += 1,
        }
    }

    fn is_good(&self) -> bool {
        let met = [
            self.recommended,
            self.broken,
            self.at_ends,
            self.behind,
            self.not_added,
            self.kept,
            self.moved,
        ];
        self.sites.iter().flatten().all(|&count| count > 0)
            && self.counts.iter().chain(&self.days).all(|&count| count > 0)
            && self.met_segments()
            && self.every_day == jobs::EVERY_DAY
            && self.every_figure == jobs::EVERY_FIGURE
            && self.added.iter().all(|&count| count > 0)
            && self.rising.is_met()
            && met.iter().all(|&count| count > 0)
    }

    /// Whether every kind had segments of either sort, kind 7 those of the job without a day alone.
    fn met_segments(&self) -> bool {
        let mut kinds = jobs::KINDS.iter().zip(self.segments);
        kinds.all(|(&kind, [same, other])| same > 0 && (other > 0) == (kind != draft::PROJECTION))
    }

    fn print(&self) {
        let [[given, given_dated], [map, map_dated]] = self.sites;
        println!("SETS accepted sites without a day {given} of kind 1, {map} of kind 8");
        println!("  with a day {given_dated} of kind 1, {map_dated} of kind 8");
        let [before, one_before, on, one_after] = self.days;
        println!("  jobs before every first day {before}, a day before one {one_before}");
        println!("  jobs on a first day {on}, a day after one {one_after}");
        let (sets, dated) = (stores::COUNTS, self.counts);
        println!("  jobs with {sets:?} sets in the store {dated:?}");
        for (kind, [same, other]) in jobs::KINDS.iter().zip(self.segments) {
            println!("  segments of kind {kind} as without a day {same}, otherwise {other}");
        }
        println!(
            "  listings alike under the recommended figures {}",
            self.recommended
        );
        let (days, figures) = (self.every_day, self.every_figure);
        println!("  in turn {days} days and {figures} figures");
        self.rising.print();
        self.print_stores();
    }

    fn print_stores(&self) {
        let (broken, at_ends, behind) = (self.broken, self.at_ends, self.behind);
        println!("  stores refused by every call {broken}");
        println!("  stores with a number at the end of its range {at_ends}");
        println!("  stores with bad numbers behind the last set {behind}");
        println!(
            "  sets added, each of {} at least {} times, not added {}",
            self.added.len(),
            self.added.iter().min().unwrap_or(&0),
            self.not_added
        );
        let (kept, moved) = (self.kept, self.moved);
        println!("  jobs as before an added set {kept}, others since {moved}");
    }
}

/// What was asked about parapets and small projections.
#[derive(Default)]
pub struct ParapetTally {
    /// Drifts that were made, by kind and situation.
    made: [[u64; 4]; 2],
    /// Those that other coefficients and a job day left as they were.
    pub alike: u64,
    /// Parapets by what gives their load and what gives their length.
    ways: [[u64; WAYS]; WAYS],
    /// Parapets with b1 below b2, equal to it and above it.
    widths: [u64; 3],
    /// Left and right sides with 2h below 5 × sk, equal to it and above it, and the same of 5h and the
    /// width.
    sides: [[[u64; 3]; 3]; 2],
    /// Small projections with the left peak below the right one, equal to it and above it.
    peaks: [u64; 3],
    /// Whether the roof is bare behind the drift of a parapet, and on the left and on the right of
    /// those at a small projection: not, and so.
    bare: [[u64; 2]; 3],
    /// Refusals that were known beforehand.
    pub refused: u64,
    pub rising: Rising,
}

impl ParapetTally {
    /// Counts the drift of a roof on its site.
    pub fn count(&mut self, items: &[Vec<u8>; 2], numbers: &[u32]) {
        let situation = draft::get(&items[0], draft::situation(&items[0]));
        let is_bare = |loads: &[u32]| usize::from(loads == [0, 0]);
        let left = is_bare(&numbers[2..4]);
        let right = is_bare(&numbers[numbers.len() - 2..]);
        let place = usize::from(items[1][0] != draft::PARAPET);
        self.made[place][situation as usize] += 1;
        if place == 0 {
            self.parapet(&Parapet::of(items));
            self.bare[0][right] += 1;
        } else {
            self.small_projection(&SmallProjection::of(items));
            self.bare[1][left] += 1;
            self.bare[2][right] += 1;
        }
    }

    fn parapet(&mut self, case: &Parapet) {
        self.ways[case.limits][case.lengths] += 1;
        self.widths[case.widths] += 1;
    }

    fn small_projection(&mut self, case: &SmallProjection) {
        for (counts, [load, length]) in self.sides.iter_mut().zip(case.sides) {
            counts[load][length] += 1;
        }
        self.peaks[case.peaks] += 1;
    }

    /// All drifts that were made, by kind.
    fn all(&self) -> [u64; 2] {
        self.made.map(|counts| counts.iter().sum())
    }

    pub fn is_good(&self) -> bool {
        let by_situation = |&[normal, falls, drifts, both]: &[u64; 4]| {
            normal == 0 && falls == 0 && drifts > 0 && both == drifts
        };
        self.made.iter().all(by_situation)
            && self.alike == self.all().iter().sum()
            && self.cases().all(|&count| count > 0)
            && self.refused == parapets::REFUSALS
            && self.rising.is_met()
    }

    /// How often each case was met.
    fn cases(&self) -> impl Iterator<Item = &u64> {
        let ways = self.ways.iter().flatten();
        let sides = self.sides.iter().flatten().flatten();
        let orders = self.widths.iter().chain(&self.peaks);
        ways.chain(sides)
            .chain(orders)
            .chain(self.bare.iter().flatten())
    }

    fn print(&self) {
        let [parapets, projections] = self.all();
        println!(
            "PARAPETS {parapets} and {projections} small projections, {} alike under other coefficients",
            self.alike
        );
        self.print_parapets();
        let names = ["left", "right"];
        for (name, table) in names.iter().zip(&self.sides) {
            let [[height, both, ground], [long, equal, cut]] = sums(table);
            println!("  {name} sides limited by height {height}, by ground load {ground}, by both {both}");
            println!("    as long as 5h {long}, as the width {cut}, as both {equal}");
        }
        let [lower, equal, higher] = self.peaks;
        println!("  left peaks below the right ones {lower}, equal {equal}, above {higher}");
        let places = ["behind parapets", "on the left", "on the right"];
        for (place, [not, bare]) in places.iter().zip(self.bare) {
            println!("  bare {place} {bare}, not {not}");
        }
        println!("  refused as known beforehand {}", self.refused);
        self.rising.print();
    }

    fn print_parapets(&self) {
        let [limits, lengths] = sums(&self.ways);
        let several = |counts: [u64; WAYS], alone: [u64; 3]| {
            counts.iter().sum::<u64>() - alone.iter().sum::<u64>()
        };
        let alone = ALONE.map(|way| limits[way]);
        let [height, widths, ground] = alone;
        println!(
            "  parapets limited by height {height}, by widths {widths}, by ground load {ground}, by several {}",
            several(limits, alone)
        );
        let alone = ALONE.map(|way| lengths[way]);
        let [height, width, longest] = alone;
        println!(
            "    as long as 5h {height}, as b1 {width}, as 15,000 {longest}, as several {}",
            several(lengths, alone)
        );
        println!(
            "    each of {} ways together at least {} times",
            WAYS * WAYS,
            self.ways.iter().flatten().min().unwrap_or(&0)
        );
        let [below, equal, above] = self.widths;
        println!("    b1 below b2 {below}, equal {equal}, above {above}");
    }
}

/// What was asked about the one way to write a sheet.
#[derive(Default)]
pub struct LayoutTally {
    /// Accepted sheets with bytes before the items, between them and behind them, without any of
    /// these, and as long as a sheet may be.
    gaps: [u64; 3],
    tight: u64,
    longest: u64,
    /// Ways to lend bytes for an accepted sheet.
    rooms: [u64; layouts::ROOMS],
    /// Those for a refused one: none, fewer than it has, and more.
    refused_rooms: [u64; 3],
    /// Results of the library that it reads and writes as they are, and those about which its every
    /// call answers as about the sheet.
    pub read_again: u64,
    pub same_jobs: u64,
    /// Gaps of every size that are left out.
    pub every_gap: u64,
    /// Layouts with the result that they must have, by the number of items.
    pub layouts: [u64; layouts::COUNTS.len()],
    /// Items of these, by kind, and dated sites, by kind.
    kinds: [u64; draft::SMALL_PROJECTION as usize],
    dated: [u64; jobs::SITES.len()],
    /// Other items with another result: a byte changed, a kind changed, two exchanged, one fewer.
    pub changed: u64,
    pub kinds_changed: u64,
    pub exchanged: u64,
    pub fewer: u64,
    /// Lengths lent in turn that are too short, and those that are enough.
    pub lengths: [u64; 2],
    /// Refusals that were known beforehand, by number, with none lent and with the most.
    refused: [[u64; 2]; MAX_NUMBER + 1],
}

impl LayoutTally {
    /// Counts an accepted sheet.
    pub fn sheet(&mut self, layout: &Layout) {
        for (count, gap) in self.gaps.iter_mut().zip(layout.gaps) {
            *count += u64::from(gap > 0);
        }
        let gaps: usize = layout.gaps.iter().sum();
        self.tight += u64::from(gaps == 0);
        self.longest += u64::from(layout.bytes + gaps == draft::MAX_SHEET);
    }

    /// Counts the bytes that are lent for a sheet.
    pub fn room(&mut self, asked: Asked, room: usize) {
        if asked.count > 0 {
            let bytes = Layout::of(asked.sheet, asked.count).bytes;
            self.rooms[layouts::room_of(room, bytes)] += 1;
        } else {
            let way = match room {
                0 => 0,
                _ if room < asked.sheet.len() => 1,
                _ => 2,
            };
            self.refused_rooms[way] += 1;
        }
    }

    /// Counts items that are laid out in several ways.
    pub fn items(&mut self, items: &[Vec<u8>]) {
        for item in items {
            self.kinds[usize::from(item[0]) - 1] += 1;
        }
        let on_map = items[0][0] == draft::MAP_SITE;
        self.dated[usize::from(on_map)] += u64::from(draft::day_of(&items[0]).is_some());
    }

    /// Counts a refusal, where it is the known one.
    pub fn refused(&mut self, number: u32, room: usize, is_known: bool) {
        let counts = &mut self.refused[number as usize];
        counts[0] += u64::from(is_known && room == 0);
        counts[1] += u64::from(is_known && room == MAX_SHEET_ROOM);
    }

    pub fn is_good(&self) -> bool {
        let met = [
            self.tight,
            self.longest,
            self.read_again,
            self.same_jobs,
            self.changed,
            self.kinds_changed,
            self.exchanged,
            self.fewer,
        ];
        let sheets = met.iter().chain(&self.gaps).chain(&self.kinds);
        let rooms = self.rooms.iter().chain(&self.refused_rooms);
        let mut counts = sheets.chain(rooms).chain(&self.dated).chain(&self.lengths);
        counts.all(|&count| count > 0)
            && self.every_gap == layouts::GAPS
            && self.layouts.iter().all(|&count| count == layouts::LAYOUTS)
            && self.rarest_refusal() > 0
    }

    /// How often the rarest refusal of a sheet or a store was known beforehand.
    fn rarest_refusal(&self) -> u64 {
        let counts = SHEET_REFUSALS
            .iter()
            .flat_map(|&number| self.refused[number]);
        counts.min().unwrap_or(0)
    }

    fn print(&self) {
        let ([before, between, behind], longest) = (self.gaps, self.longest);
        println!(
            "LAYOUTS accepted sheets with gaps before the items {before}, between {between}, behind {behind}"
        );
        println!("  without gaps {}, of the most bytes {longest}", self.tight);
        let [none, less, one_less, enough, one_more, more] = self.rooms;
        println!("  lent for them just enough {enough}, one more {one_more}, more {more}");
        println!("    one less {one_less}, less {less}, none {none}");
        let [none, less, more] = self.refused_rooms;
        println!("  lent for refused ones none {none}, fewer than they have {less}, others {more}");
        println!(
            "  results that are their own {}, with every answer as about the sheet {}",
            self.read_again, self.same_jobs
        );
        println!("  gaps of every size {}", self.every_gap);
        let (counts, layouts) = (layouts::COUNTS, self.layouts);
        println!("  layouts of {counts:?} items {layouts:?}");
        let [given, map] = self.dated;
        println!(
            "    dated sites of kind 1 {given}, of kind 8 {map}, the rarest of {} kinds {}",
            self.kinds.len(),
            self.kinds.iter().min().unwrap_or(&0)
        );
        let (changed, kinds) = (self.changed, self.kinds_changed);
        println!(
            "  other results with a byte changed {changed}, with kind 7 as 11 or 11 as 7 {kinds}"
        );
        let (exchanged, fewer) = (self.exchanged, self.fewer);
        println!("    with two items exchanged {exchanged}, with one fewer {fewer}");
        let [few, enough] = self.lengths;
        println!("  lengths in turn too short {few}, enough {enough}");
        println!(
            "  refusals known beforehand, each of {} at least {} times",
            SHEET_REFUSALS.len(),
            self.rarest_refusal()
        );
    }
}

/// What was asked about single segments.
#[derive(Default)]
pub struct SegmentTally {
    /// Arrangements put together from single segments that are those made at once, and all.
    whole: u64,
    together: u64,
    /// The former by kind and code.
    codes: BTreeMap<(u8, u8), u64>,
    /// Single segments, by index.
    indexes: [u64; segments::MOST],
    /// Refused by 13, with a segment that is there and enough room, with one of the two wrong, and
    /// with both.
    no_code: [u64; 3],
    /// Refused by 12 for the segment, with enough room and with too little.
    past: [u64; 2],
    /// Refused by 11.
    short: u64,
    /// How often each missing index was refused by 12.
    missing: [u64; MISSING.len()],
    /// Answers known beforehand in every room, by index, and for indexes behind the last one.
    rooms: [[u64; segments::ROOMS.len()]; segments::MOST],
    behind: [u64; segments::ROOMS.len()],
    /// Those where rules are broken, by the way.
    pub ways: BTreeMap<usize, u64>,
    /// Counts known beforehand, by the spans of kinds 4 and 9.
    pub spans: [[u64; draft::MAX_SPANS - 1]; draft::SPANNED.len()],
}

impl SegmentTally {
    /// Counts an arrangement that was put together; how many there were before it.
    pub fn together(&mut self, kind: u8, code: u8, is_whole: bool) -> u64 {
        self.together += 1;
        if is_whole {
            self.whole += 1;
            *self.codes.entry((kind, code)).or_default() += 1;
        }
        self.together - 1
    }

    /// Counts an answer about an item that is there or isn't.
    pub fn answer(&mut self, is_there: bool, single: Single, answer: u32) {
        let is_short = usize::from(single.room < 4);
        let is_past = usize::from(single.index >= segments::MOST);
        match number_of(answer) {
            0 => self.indexes[single.index.min(segments::MOST - 1)] += 1,
            11 => self.short += 1,
            12 if is_there => {
                self.past[is_short] += 1;
                if let Some(place) = MISSING.iter().position(|&index| index == single.index) {
                    self.missing[place] += 1;
                }
            }
            13 => self.no_code[is_past + is_short] += 1,
            _ => {}
        }
    }

    /// Counts an answer in a room, where it is the known one.
    pub fn room(&mut self, is_there: bool, index: usize, place: usize, is_known: bool) {
        let counts = match is_there {
            true => &mut self.rooms[index],
            false => &mut self.behind,
        };
        counts[place] += u64::from(is_known);
    }

    pub fn is_good(&self) -> bool {
        let refused = self.no_code.iter().chain(&self.past).chain([&self.short]);
        let rooms = self.rooms.iter().flatten().chain(&self.behind);
        let mut counts = refused
            .chain(rooms)
            .chain(&self.indexes)
            .chain(&self.missing)
            .chain(self.ways.values())
            .chain(self.spans.iter().flatten());
        self.whole == self.together
            && self.codes.len() == segments::CODES
            && self.ways.len() == segments::WAYS
            && counts.all(|&count| count > 0)
    }

    fn print(&self) {
        println!(
            "SEGMENTS {} of {} arrangements put together from single segments, {} single segments",
            self.whole,
            self.together,
            self.indexes.iter().sum::<u64>()
        );
        println!(
            "  kinds and codes {} of {}, each at least {} times",
            self.codes.len(),
            segments::CODES,
            rarest(self.codes.values())
        );
        println!(
            "  indexes 0 to {}, each at least {} times",
            segments::MOST - 1,
            rarest(&self.indexes)
        );
        self.print_refusals();
        println!(
            "  known beforehand in {} rooms each index at least {} times, those behind the last {}",
            segments::ROOMS.len(),
            rarest(self.rooms.iter().flatten()),
            rarest(&self.behind)
        );
        println!(
            "    ways to break rules {}, each at least {} times",
            segments::WAYS - 1,
            rarest(self.ways.values())
        );
        println!(
            "    counts of kinds 4 and 9 with 2 to {} spans, each at least {} times",
            draft::MAX_SPANS,
            rarest(self.spans.iter().flatten())
        );
    }

    fn print_refusals(&self) {
        let ([no_code, two, three], [past, past_short]) = (self.no_code, self.past);
        println!(
            "  refused by 13 {}, by 12 {}, by 11 {}",
            no_code + two + three,
            past + past_short,
            self.short
        );
        println!(
            "    by 13 with 12 or 11 broken too {two}, with both {three}, by 12 with 11 broken too {past_short}"
        );
        println!(
            "    by 12 each index at the ends of 8, 16, 31, 32 and 64 bits at least {} times",
            rarest(&self.missing)
        );
    }
}

/// What was asked about roofs turned round.
#[derive(Default)]
pub struct TurnTally {
    /// Sheets with roofs that can be turned, and those whose verdict stays, by number, 0 for accepted.
    sheets: u64,
    verdicts: [u64; MAX_NUMBER + 1],
    /// Arrangements that are the same from either end, by kind, code and case.
    cases: BTreeMap<(u8, u8, Case), u64>,
    /// Those of them where the turned roof has other segments.
    other: u64,
    /// Stations at which their loads are the same, also by the exact rule, or past the end.
    stations: u64,
    /// Codes that aren't made, which both sheets refuse alike.
    pub not_made: u64,
    /// Refusals that were known beforehand, by number.
    pub known: [u64; MAX_NUMBER + 1],
    /// Answers about stepped roofs on the left and on the right of turned ones that stay.
    pub lower: [u64; 2],
    /// Drifted arrangements of arches that aren't the same from either end, and their stations with
    /// other loads.
    pub arches: u64,
    pub arch_stations: u64,
}

impl TurnTally {
    /// Counts a sheet and the turned one.
    pub fn sheet(&mut self, verdict: u32, is_same: bool) {
        self.sheets += 1;
        self.verdicts[number_of(verdict)] += u64::from(is_same);
    }

    /// Counts an arrangement that is the same from either end.
    pub fn turn(&mut self, turn: &Turn) {
        let case = (turn.kind, turn.code, turn.case);
        *self.cases.entry(case).or_default() += 1;
        self.other += u64::from(turn.is_other);
        self.stations += turn.stations as u64;
    }

    /// Whether each refusal of a roof was met, and known as often as it is met in turn.
    fn met_refusals(&self) -> bool {
        let is_met = |&(number, count): &(usize, u64)| {
            self.verdicts[number] > 0 && self.known[number] == count
        };
        turns::REFUSALS.iter().all(is_met)
    }

    pub fn is_good(&self) -> bool {
        let met = [self.other, self.not_made, self.arches];
        self.sheets == self.verdicts.iter().sum()
            && self.verdicts[0] > 0
            && self.met_refusals()
            && self.cases.len() == turns::CASES
            && met.iter().chain(&self.lower).all(|&count| count > 0)
    }

    fn print(&self) {
        let accepted = self.verdicts[0];
        let same = self.verdicts.iter().sum::<u64>();
        println!(
            "TURNED {} sheets, with their verdict accepted {accepted}, refused {}",
            self.sheets,
            same - accepted
        );
        for (number, _) in turns::REFUSALS {
            let (refused, known) = (self.verdicts[number], self.known[number]);
            println!("  refused by {number} {refused}, known beforehand {known}");
        }
        println!(
            "  arrangements the same from the other end {}, with other segments {}, at {} stations",
            self.cases.values().sum::<u64>(),
            self.other,
            self.stations
        );
        println!(
            "    kinds, codes and cases {} of {}, each at least {} times",
            self.cases.len(),
            turns::CASES,
            rarest(self.cases.values())
        );
        println!("  codes that aren't made refused alike {}", self.not_made);
        let [left, right] = self.lower;
        println!("  as before beside turned roofs {left} on the left, {right} on the right");
        println!(
            "  arches that aren't the same from the other end {}, at {} stations",
            self.arches, self.arch_stations
        );
    }
}

/// What was asked about pitches moved by a tenth of a degree.
#[derive(Default)]
pub struct MoveTally {
    /// Sheets with a roof's pitches moved that are accepted.
    pub sheets: u64,
    /// Those refused by 8 and by 9 as they must be, and those of them that were known beforehand.
    pub refused: [u64; moves::REFUSALS.len()],
    pub known: [u64; moves::REFUSALS.len()],
    /// Arrangements whose loads lie within the bound, by kind, code and way.
    cases: BTreeMap<(u8, u8, Way), u64>,
    /// Those of them with some other load, and those with loads just X/375 apart by the exact rule.
    other: u64,
    met: u64,
    /// Codes that aren't made, before and after.
    pub not_made: u64,
    /// Pairs of loads read at a station, and of loads of segments.
    readings: u64,
    ends: u64,
    /// The greatest difference of such a pair beyond X/375, in thousandths of a N/m².
    beyond: u64,
    /// Pairs of loads of kind 6 across 15.0°, and those of them that no bound holds.
    pub across: u64,
    pub jumps: u64,
}

impl MoveTally {
    /// Counts an arrangement before and after pitches are moved.
    pub fn count(&mut self, moved: &Move) {
        let case = (moved.kind, moved.code, moved.way);
        *self.cases.entry(case).or_default() += 1;
        self.other += u64::from(moved.is_other);
        self.met += u64::from(moved.is_met);
        self.readings += moved.readings as u64;
        self.ends += moved.ends as u64;
        self.beyond = self.beyond.max(moved.beyond);
    }

    pub fn is_good(&self) -> bool {
        let met = [self.sheets, self.other, self.met, self.not_made, self.jumps];
        self.known == moves::KNOWN
            && self.cases.len() == moves::CASES
            && self.beyond >= NEAR
            && met.iter().all(|&count| count > 0)
    }

    fn print(&self) {
        let [field, valley] = self.refused;
        println!(
            "MOVED {} sheets accepted, refused by 8 {field}, by 9 {valley}, known beforehand {:?}",
            self.sheets, self.known
        );
        println!(
            "  arrangements within the bound {}, with other loads {}, just X/375 apart {}",
            self.cases.values().sum::<u64>(),
            self.other,
            self.met
        );
        let (readings, ends) = (self.readings, self.ends);
        println!("    pairs of readings {readings}, of loads of segments {ends}");
        println!(
            "    kinds, codes and ways {} of {}, each at least {} times",
            self.cases.len(),
            moves::CASES,
            rarest(self.cases.values())
        );
        println!(
            "    apart by X/375 and at most {:.3} N/m² more",
            self.beyond as f64 / 1_000.0
        );
        println!("  codes that aren't made refused alike {}", self.not_made);
        println!(
            "  kind 6 across 15.0° {} pairs of readings, {} of them X/375 + 1.2 N/m² apart or more",
            self.across, self.jumps
        );
    }
}

fn rarest<'a>(counts: impl IntoIterator<Item = &'a u64>) -> u64 {
    counts.into_iter().copied().min().unwrap_or(0)
}

/// The sums of a table by row and by column.
fn sums<const N: usize>(table: &[[u64; N]; N]) -> [[u64; N]; 2] {
    let columns = |column: usize| table.iter().map(|row| row[column]).sum();
    [
        table.map(|row| row.iter().sum()),
        std::array::from_fn(columns),
    ]
}

impl Tally {
    pub fn new() -> Self {
        Self {
            sheets: 0,
            accepted_sheets: 0,
            map_sheets: 0,
            situations: [0; 4],
            calls: [0; CALLS.len()],
            answered: 0,
            none: 0,
            refused: [0; MAX_NUMBER + 1],
            past_roof: 0,
            past_segments: 0,
            lengths: [(0, 0); LENGTHS],
            missing: [0; MISSING.len()],
            map: MapTally::default(),
            drifts: DriftTally::default(),
            pairs: PairTally::default(),
            tenths: TenthsTally::default(),
            eaves: EaveTally::default(),
            desk: DeskTally::default(),
            halls: HallTally::default(),
            sets: SetTally::default(),
            parapets: ParapetTally::default(),
            layouts: LayoutTally::default(),
            segments: SegmentTally::default(),
            turns: TurnTally::default(),
            moves: MoveTally::default(),
            disagreements: 0,
        }
    }

    pub fn call(&mut self, call: Call) {
        self.calls[call as usize] += 1;
    }

    /// Counts an answer. The call and `index_exists` tell the three ways of refusal 12 apart.
    pub fn answer(&mut self, call: Call, answer: u32, index_exists: bool) {
        if answer == NONE {
            self.none += 1;
        } else if answer < REFUSED {
            self.answered += 1;
        } else if number_of(answer) == 12 && index_exists {
            match call {
                Call::Segment => self.past_segments += 1,
                _ => self.past_roof += 1,
            }
        } else {
            self.refused[number_of(answer)] += 1;
        }
    }

    pub fn length(&mut self, room: usize, answer: u32) {
        if let Some(entry) = self.lengths.get_mut(room) {
            entry.0 += 1;
            entry.1 += u64::from(answer < REFUSED);
        }
    }

    pub fn index(&mut self, item: usize, answer: u32) {
        if let Some(place) = MISSING.iter().position(|&index| index == item) {
            self.missing[place] += u64::from(number_of(answer) == 12);
        }
    }

    /// Counts a load that both sides returned. One that is not as it must be is a disagreement.
    pub fn returned(&mut self, lent: Lent, returned: &Returned, describe: impl Fn() -> String) {
        if !self.tenths.count(returned) {
            self.disagree(lent, || format!("{}: {returned:?}", describe()));
        }
    }

    /// Counts an overhang that both sides returned, in the same way.
    pub fn eave(&mut self, lent: Lent, eave: &Eave, describe: impl Fn() -> String) {
        if !self.eaves.count(eave) {
            self.disagree(lent, || format!("{}: {eave:?}", describe()));
        }
    }

    /// Counts the verdicts of a terminal and of the desk on a sheet, in the same way.
    pub fn read(&mut self, lent: Lent, read: &Read) {
        if !self.desk.count(read) {
            self.disagree(lent, || format!("{read:?}"));
        }
    }

    /// Counts a disagreement. The first few are printed at once, lest a crash hide them.
    pub fn disagree(&mut self, lent: Lent, describe: impl FnOnce() -> String) {
        self.disagreements += 1;
        if self.disagreements <= SHOWN {
            let bytes: String = lent
                .sheet
                .iter()
                .map(|byte| format!("{byte:02x}"))
                .collect();
            println!("DISAGREEMENT {}\n  store {:?}", describe(), lent.store);
            println!("  sheet {bytes}");
        }
    }

    pub fn agrees(&self) -> bool {
        self.disagreements == 0
    }

    pub fn comparisons(&self) -> u64 {
        self.calls.iter().sum()
    }

    /// No disagreement, and every refusal, every slice length, every missing index, every place of
    /// the map, every situation, every valley, every number of a pair, every drop, at either eave an
    /// overhang by the other slope's load, every edge of the desk's ceiling, either side of every
    /// kind of upper item, every length of a circle, and of national figures, of parapets, of layouts,
    /// of single segments, of turned roofs and of moved pitches what `SetTally`, `ParapetTally`,
    /// `LayoutTally`, `SegmentTally`, `TurnTally` and `MoveTally` count was met.
    pub fn is_good(&self) -> bool {
        self.agrees()
            && self.refused[1..].iter().all(|&count| count > 0)
            && self.past_roof > 0
            && self.past_segments > 0
            && self.lengths.iter().all(|entry| entry.0 > 0)
            && self.missing.iter().all(|&count| count > 0)
            && self.map_sheets > 0
            && self.map.is_good()
            && self.situations.iter().all(|&count| count > 0)
            && self.drifts.is_good()
            && self.pairs.is_good()
            && self.tenths.is_good()
            && self.eaves.is_good()
            && self.desk.is_good()
            && self.halls.is_good()
            && self.sets.is_good()
            && self.parapets.is_good()
            && self.layouts.is_good()
            && self.segments.is_good()
            && self.turns.is_good()
            && self.moves.is_good()
    }

    pub fn print(&self) {
        let (accepted, on_map) = (self.accepted_sheets, self.map_sheets);
        println!(
            "SHEETS {} accepted {accepted}, with a map site {on_map}, refused {}",
            self.sheets,
            self.sheets - accepted
        );
        for (number, count) in self.situations.iter().enumerate() {
            println!("  situation {number} {count}");
        }
        println!("COMPARISONS {}", self.comparisons());
        for (name, count) in CALLS.iter().zip(self.calls) {
            println!("  {name} {count}");
        }
        println!("ANSWERS {} none {}", self.answered, self.none);
        self.print_refusals();
        self.map.print();
        self.drifts.print();
        self.pairs.print();
        self.tenths.print();
        self.eaves.print();
        self.desk.print();
        self.halls.print();
        self.sets.print();
        self.parapets.print();
        self.layouts.print();
        self.segments.print();
        self.turns.print();
        self.moves.print();
        self.print_lengths();
        self.print_missing();
        println!("DISAGREEMENTS {}", self.disagreements);
    }

    fn print_refusals(&self) {
        println!("REFUSALS");
        for number in 1..=11 {
            println!("  {number} {}", self.refused[number]);
        }
        println!("  12 index {}", self.refused[12]);
        println!("  12 station {}", self.past_roof);
        println!("  12 segment {}", self.past_segments);
        for number in 13..=MAX_NUMBER {
            println!("  {number} {}", self.refused[number]);
        }
    }

    fn print_lengths(&self) {
        let rarest = self.lengths.iter().map(|entry| entry.0).min();
        let enough = self.lengths.iter().filter(|entry| entry.1 > 0).count();
        println!(
            "SLICES of 0..{} numbers, each lent at least {} times, {enough} lengths were enough",
            LENGTHS - 1,
            rarest.unwrap_or(0)
        );
    }

    fn print_missing(&self) {
        let rarest = self.missing.iter().min();
        println!(
            "INDEXES of {} to {}, {} in all, each refused by 12 at least {} times",
            MISSING[0],
            MISSING[MISSING.len() - 1],
            MISSING.len(),
            rarest.unwrap_or(&0)
        );
    }
}

/// The number of a refusal, 0 for any other answer.
fn number_of(answer: u32) -> usize {
    if (REFUSED..NONE).contains(&answer) {
        refusal_parts(answer).0 as usize
    } else {
        0
    }
}
