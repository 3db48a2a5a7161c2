//! Arrangements: segments from left to right that cover a roof.

use std::ops::Range;

use crate::loads::{self, Fall, Load, Rounded, Shape};
use crate::sheet::{DriftRoof, LowerRoof, Parapet, Roof, Side, Site, Situation, Slope, MAX_SLOPES};

/// Added to a code for the same shape under an exceptional fall.
const EXCEPTIONAL: u8 = 10;
/// The code of an exceptional drift is this plus the number of its valley, from 1 at the left. Other
/// roofs with exceptional drifts have one.
const DRIFT: u8 = 30;
/// Quarter millimetres in a millimetre.
const QUARTERS: i32 = 4;

/// A stretch of the roof, and the ramp that it is a part of. Positions are quarter millimetres.
///
/// The ramp may begin before the roof or end behind it; `start` and `end` lie on the roof.
#[derive(Clone, Copy, Debug, Default)]
pub struct Stretch<L> {
    pub start: i32,
    pub end: i32,
    pub ramp_start: i32,
    pub ramp_end: i32,
    pub load_start: L,
    pub load_end: L,
}

impl<L> Stretch<L> {
    /// Whether the roof ends inside the ramp, at the left and at the right.
    pub fn is_cut(&self) -> [bool; 2] {
        [self.start != self.ramp_start, self.end != self.ramp_end]
    }
}

impl<const PARTS: u64> Stretch<Rounded<PARTS>> {
    /// The segment's four numbers. A cut end has the reading there.
    pub fn segment(&self) -> [u32; 4] {
        let [cut_start, cut_end] = self.is_cut();
        let at_start = if cut_start {
            self.reading(self.start)
        } else {
            self.load_start.whole()
        };
        let at_end = if cut_end {
            self.reading(self.end)
        } else {
            self.load_end.whole()
        };
        [self.start as u32, self.end as u32, at_start, at_end]
    }
}

/// The stretches of one arrangement, none of length zero, with the loads as they are counted.
#[derive(Clone, Debug)]
pub struct Arrangement<L> {
    end: i32,
    stretches: [Stretch<L>; MAX_SLOPES],
    count: usize,
}

impl<L: Load> Arrangement<L> {
    /// The arrangement of a code, where there is one for the roof in the site's situation.
    pub fn of(site: &Site, roof: &Roof, code: u8) -> Option<Self> {
        if !Codes::of(site, roof).contains(code) {
            return None;
        }
        if code > DRIFT {
            Self::drifted(site, roof, usize::from(code - DRIFT))
        } else if code > EXCEPTIONAL {
            Self::shaped(site, roof, code - EXCEPTIONAL, Fall::exceptional(site))
        } else {
            Self::shaped(site, roof, code, Fall::persistent(site))
        }
    }

    /// An exceptional drift, where the roof has any.
    fn drifted(site: &Site, roof: &Roof, number: usize) -> Option<Self> {
        match roof {
            Roof::Drift(roof) => Some(drift(roof, number, site)),
            Roof::Parapet(roof) => Some(parapet(roof, site)),
            Roof::SmallProjection(sides) => Some(small_projection(sides, site)),
            _ => None,
        }
    }

    /// A shape under a fall, where the roof has more than its exceptional drift.
    fn shaped(site: &Site, roof: &Roof, shape: u8, fall: Fall) -> Option<Self> {
        Some(match roof {
            Roof::Monopitch(slope) => even_slopes(&[*slope], fall),
            Roof::Pitched(slopes) => pitched(slopes, shape, fall),
            Roof::MultiSpan(roof) => spans(roof.slopes(), shape, fall),
            Roof::Drift(roof) => spans(roof.slopes(), shape, fall),
            Roof::Cylindrical { rise, span } => cylindrical(site, [*rise, *span], shape, fall),
            Roof::Lower(roof) => lower(site, roof, shape, fall),
            Roof::Projection {
                height,
                left,
                right,
            } => {
                let peak = fall.load(loads::mu_projection(*height, site));
                let drift = loads::drift_length(*height, loads::PROJECTION_DRIFT);
                projection(drift, *left, *right, peak, fall)
            }
            Roof::Parapet(_) | Roof::SmallProjection(_) => return None,
        })
    }

    /// The roof's end in quarter millimetres.
    pub fn end(&self) -> u32 {
        self.end as u32
    }

    pub fn stretches(&self) -> &[Stretch<L>] {
        &self.stretches[..self.count]
    }

    fn over(width: u32) -> Self {
        Self {
            end: quarters(width),
            stretches: [Stretch::default(); MAX_SLOPES],
            count: 0,
        }
    }

    /// Adds the part of a ramp that lies on the roof.
    fn ramp(&mut self, from: i32, to: i32, load_start: L, load_end: L) {
        let (start, end) = (from.max(0), to.min(self.end));
        if start >= end {
            return;
        }
        self.stretches[self.count] = Stretch {
            start,
            end,
            ramp_start: from,
            ramp_end: to,
            load_start,
            load_end,
        };
        self.count += 1;
    }

    fn even(&mut self, from: i32, to: i32, load: L) {
        self.ramp(from, to, load, load);
    }
}

/// The codes of a roof in the site's situation, upward.
pub fn codes(site: &Site, roof: &Roof) -> impl Iterator<Item = u8> {
    let codes = Codes::of(site, roof);
    let fixed = codes.persistent.iter().chain(codes.falls).copied();
    fixed.chain(codes.drifts)
}

/// The codes that exist, each part upward and below the next.
struct Codes {
    persistent: &'static [u8],
    /// With exceptional falls.
    falls: &'static [u8],
    /// Exceptional drifts.
    drifts: Range<u8>,
}

impl Codes {
    fn of(site: &Site, roof: &Roof) -> Self {
        let situation = site.situation;
        Self {
            persistent: persistent_codes(situation, roof),
            falls: fall_codes(situation, roof),
            drifts: drift_codes(situation, roof),
        }
    }

    fn contains(&self, code: u8) -> bool {
        self.persistent.contains(&code) || self.falls.contains(&code) || self.drifts.contains(&code)
    }
}

/// Where valleys are designed by Annex B, drifts take the place of code 2.
fn persistent_codes(situation: Situation, roof: &Roof) -> &'static [u8] {
    match roof {
        Roof::Monopitch(_) => &[1],
        Roof::Pitched(_) => &[1, 2, 3],
        Roof::Drift(_) if situation.has_drifts() => &[1],
        Roof::MultiSpan(_) | Roof::Drift(_) | Roof::Cylindrical { .. } | Roof::Lower(_) => &[1, 2],
        Roof::Projection { .. } => &[2],
        Roof::Parapet(_) | Roof::SmallProjection(_) => &[],
    }
}

/// All shapes in case B1, the undrifted one in case B3. Drifts at a projection belong to the
/// persistent situation alone, parapets and small projections to exceptional drifts alone.
fn fall_codes(situation: Situation, roof: &Roof) -> &'static [u8] {
    match (situation, roof) {
        (Situation::Normal | Situation::Drifts, _) => &[],
        (_, Roof::Projection { .. } | Roof::Parapet(_) | Roof::SmallProjection(_)) => &[],
        (Situation::FallsAndDrifts, _) | (_, Roof::Monopitch(_)) => &[11],
        (Situation::Falls, Roof::Pitched(_)) => &[11, 12, 13],
        (Situation::Falls, _) => &[11, 12],
    }
}

/// One for each valley, one for a parapet, and one for both sides of a small projection.
fn drift_codes(situation: Situation, roof: &Roof) -> Range<u8> {
    let drifts = match roof {
        Roof::Drift(roof) => roof.valleys().len() as u8,
        Roof::Parapet(_) | Roof::SmallProjection(_) => 1,
        _ => 0,
    };
    let first = DRIFT + 1;
    if situation.has_drifts() {
        first..first + drifts
    } else {
        first..first
    }
}

fn quarters(length: u32) -> i32 {
    length as i32 * QUARTERS
}

fn width_of(slopes: &[Slope]) -> u32 {
    slopes.iter().map(|slope| slope.width).sum()
}

fn even_slopes<L: Load>(slopes: &[Slope], fall: Fall) -> Arrangement<L> {
    let mut made = Arrangement::over(width_of(slopes));
    let mut start = 0;
    for slope in slopes {
        let end = start + quarters(slope.width);
        made.even(start, end, fall.load(loads::mu1(*slope)));
        start = end;
    }
    made
}

/// Shape 2 halves the left slope, shape 3 the right one (5.3.3).
fn pitched<L: Load>(slopes: &[Slope; 2], shape: u8, fall: Fall) -> Arrangement<L> {
    let [left, right] = slopes.map(loads::mu1);
    let [left, right] = match shape {
        1 => [left, right],
        2 => [left.half(), right],
        _ => [left, right.half()],
    };
    let ridge = quarters(slopes[0].width);
    let mut made = Arrangement::over(width_of(slopes));
    made.even(0, ridge, fall.load(left));
    made.even(ridge, made.end, fall.load(right));
    made
}

fn spans<L: Load>(slopes: &[Slope], shape: u8, fall: Fall) -> Arrangement<L> {
    if shape == 1 {
        even_slopes(slopes, fall)
    } else {
        filled_valleys(slopes, fall)
    }
}

/// Drifted snow fills the valleys; the two outer slopes stay even (5.3.4).
fn filled_valleys<L: Load>(slopes: &[Slope], fall: Fall) -> Arrangement<L> {
    let mut made = Arrangement::over(width_of(slopes));
    let last = slopes.len() - 1;
    let mut start = 0;
    let mut valley = L::default();
    for (place, slope) in slopes.iter().enumerate() {
        let end = start + quarters(slope.width);
        let ridge = fall.load(loads::mu1(*slope));
        if place == 0 || place == last {
            made.even(start, end, ridge);
        } else if place % 2 == 1 {
            valley = fall.load(loads::mu_valley(*slope, slopes[place + 1]));
            made.ramp(start, end, ridge, valley);
        } else {
            made.ramp(start, end, valley, ridge);
        }
        start = end;
    }
    made
}

/// An exceptional drift in one valley, numbered from 1. It falls to nothing at both ridges, and
/// there is no snow elsewhere (B2).
fn drift<L: Load>(roof: &DriftRoof, number: usize, site: &Site) -> Arrangement<L> {
    let (before, after) = roof.slopes().split_at(2 * number);
    let (left, right) = (before[before.len() - 1], after[0]);
    let mu = loads::mu_drift(roof.valleys()[number - 1], left, right, site);
    let peak = Fall::drift(site).load(mu);
    let mut made = Arrangement::over(width_of(roof.slopes()));
    let valley = quarters(width_of(before));
    let ridges = [
        valley - quarters(left.width),
        valley + quarters(right.width),
    ];
    let none = L::default();
    made.even(0, ridges[0], none);
    made.ramp(ridges[0], valley, none, peak);
    made.ramp(valley, ridges[1], peak, none);
    made.even(ridges[1], made.end, none);
    made
}

/// Even snow, or two triangles with their peaks in the middle of each half (5.3.5).
fn cylindrical<L: Load>(site: &Site, figures: [u32; 2], shape: u8, fall: Fall) -> Arrangement<L> {
    let [rise, span] = figures;
    let mut made = Arrangement::over(span);
    let loaded = loaded_width(rise, span);
    // A quarter of the loaded width in mm is as many quarter millimetres as ls has mm.
    let quarter = loaded as i32;
    let start = 2 * (span - loaded) as i32;
    let end = start + 4 * quarter;
    let none = L::default();
    made.even(0, start, none);
    if shape == 1 {
        made.even(start, end, fall.load(Shape::EVEN));
    } else {
        let full = loads::mu_arch(rise, span, &site.national);
        let (left, right) = (fall.load(full.half()), fall.load(full));
        let middle = start + 2 * quarter;
        made.ramp(start, start + quarter, none, left);
        made.ramp(start + quarter, middle, left, none);
        made.ramp(middle, middle + quarter, none, right);
        made.ramp(middle + quarter, end, right, none);
    }
    made.even(end, made.end, none);
    made
}

/// The width of a circular arch that is no steeper than 60°, in mm, rounded up.
pub fn loaded_width(rise: u32, span: u32) -> u32 {
    let (rise, wide) = (u64::from(rise), u64::from(span));
    if 12 * rise * rise <= wide * wide {
        return span;
    }
    // 8 × rise × ls is not below √3 × (span² + 4 × rise²); the square is below 2^64.
    let sum = wide * wide + 4 * rise * rise;
    let root = (3 * sum * sum - 1).isqrt() + 1;
    root.div_ceil(8 * rise) as u32
}

/// A drift from the wall down to the even load (5.3.6).
fn lower<L: Load>(site: &Site, roof: &LowerRoof, shape: u8, fall: Fall) -> Arrangement<L> {
    let mut made = Arrangement::over(roof.lower_width);
    let even = fall.load(Shape::EVEN);
    if shape == 1 {
        made.even(0, made.end, even);
        return made;
    }
    let drift = loads::drift_length(roof.step, site.national.drift);
    let slide: L = fall.load(loads::mu_slide(roof, drift));
    let wall = slide + fall.load(loads::mu_wind(roof, site));
    let drift = quarters(drift);
    made.ramp(0, drift, wall, even);
    made.even(drift, made.end, even);
    made
}

/// A drift on both sides of the projection (6.2).
fn projection<L: Load>(drift: u32, left: u32, right: u32, peak: L, fall: Fall) -> Arrangement<L> {
    let mut made = Arrangement::over(left + right);
    let even = fall.load(Shape::EVEN);
    let foot = quarters(left);
    let drift = quarters(drift);
    made.even(0, foot - drift, even);
    made.ramp(foot - drift, foot, even, peak);
    made.ramp(foot, foot + drift, peak, even);
    made.even(foot + drift, made.end, even);
    made
}

/// A drift behind the parapet, at the roof's left end, and no snow elsewhere (B4).
fn parapet<L: Load>(roof: &Parapet, site: &Site) -> Arrangement<L> {
    let mut made = Arrangement::over(roof.width);
    let peak = Fall::drift(site).load(loads::mu_parapet(roof, site));
    let drift = quarters(loads::parapet_drift(roof));
    let none = L::default();
    made.ramp(0, drift, peak, none);
    made.even(drift, made.end, none);
    made
}

/// A drift on both sides of a small projection, each with its own peak, and no snow elsewhere (B4).
fn small_projection<L: Load>(sides: &[Side; 2], site: &Site) -> Arrangement<L> {
    let mut made = Arrangement::over(sides[0].width + sides[1].width);
    let foot = quarters(sides[0].width);
    let [left, right] = sides.map(|side| quarters(loads::side_drift(&side)));
    let peaks = sides.map(|side| Fall::drift(site).load(loads::mu_side(&side, site)));
    let none = L::default();
    made.even(0, foot - left, none);
    made.ramp(foot - left, foot, none, peaks[0]);
    made.ramp(foot, foot + right, peaks[1], none);
    made.even(foot + right, made.end, none);
    made
}
