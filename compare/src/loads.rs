//! Shape coefficients as exact fractions, and the loads that they give.

use std::ops::Add;

use crate::sheet::{LowerRoof, Parapet, Side, Site, Slope, Valley, SLIDING_PITCH};
use crate::store::{Limits, National};

/// Denominator of the coefficients of Table 5.2 when the pitch is in tenths of a degree.
const TABLE: u64 = 375;
/// 0.8 over that denominator.
const FLAT: u64 = 300;
/// Parts of a N/m² that an exact load is counted in.
const MILLION: u64 = 1_000_000;
/// 15.0 degrees, up to which no snow slides off the upper roof (5.3.6).
const SLIDE_FROM: u16 = 150;
/// Drift lengths at a projection in mm, whatever set is in use.
pub const PROJECTION_DRIFT: Limits = Limits::new(5_000, 15_000);
/// The longest drift behind a parapet in mm.
const PARAPET_DRIFT: u32 = 15_000;

/// A shape coefficient μ.
#[derive(Clone, Copy, Debug)]
pub struct Shape {
    numerator: u64,
    denominator: u64,
}

impl Shape {
    pub const ZERO: Self = Self::new(0, 1);
    /// 0.8, the coefficient of a flat roof.
    pub const EVEN: Self = Self::new(4, 5);

    pub const fn new(numerator: u64, denominator: u64) -> Self {
        Self {
            numerator,
            denominator,
        }
    }

    fn hundredths(value: u32) -> Self {
        Self::new(value.into(), 100)
    }

    pub fn half(self) -> Self {
        Self::new(self.numerator, 2 * self.denominator)
    }

    fn at_most(self, other: Self) -> Self {
        if other.is_below(self) {
            other
        } else {
            self
        }
    }

    fn at_least(self, other: Self) -> Self {
        if self.is_below(other) {
            other
        } else {
            self
        }
    }

    fn is_below(self, other: Self) -> bool {
        self.numerator * other.denominator < other.numerator * self.denominator
    }
}

/// μ1 of Table 5.2. A guard keeps the snow on the slope.
pub fn mu1(slope: Slope) -> Shape {
    let numerator = if slope.guard {
        FLAT
    } else {
        u64::from(SLIDING_PITCH.saturating_sub(slope.pitch)).min(FLAT)
    };
    Shape::new(numerator, TABLE)
}

/// μ2 of Table 5.2 for the mean of a valley's two pitches.
pub fn mu_valley(left: Slope, right: Slope) -> Shape {
    let sum = u64::from(left.pitch + right.pitch);
    Shape::new(2 * FLAT + sum.min(2 * FLAT), 2 * TABLE)
}

/// μ3 of a cylindrical roof (5.3.5): 0.2 + 10 × rise/span, at most the upper value in use.
pub fn mu_arch(rise: u32, span: u32, national: &National) -> Shape {
    let (rise, span) = (u64::from(rise), u64::from(span));
    Shape::new(span + 50 * rise, 5 * span).at_most(Shape::hundredths(national.arch))
}

/// Length of a drift in mm: twice the step, held to a range.
pub fn drift_length(step: u32, range: Limits) -> u32 {
    (2 * step).clamp(range.low, range.high)
}

/// γh/sk with γ = 2 kN/m³, in mm and N/m².
fn mu_full_step(step: u32, site: &Site) -> Shape {
    Shape::new(2 * u64::from(step), u64::from(site.ground_load))
}

/// μw of a lower roof. The limits above come first, then the low end of the range in use.
pub fn mu_wind(roof: &LowerRoof, site: &Site) -> Shape {
    let widths = u64::from(roof.upper_width) + u64::from(roof.lower_width);
    Shape::new(widths, 2 * u64::from(roof.step))
        .at_most(mu_full_step(roof.step, site))
        .at_most(Shape::hundredths(site.national.wind.high))
        .at_least(Shape::hundredths(site.national.wind.low))
}

/// μs of a lower roof: half of the upper slope's snow, as a triangle along a drift of this length.
pub fn mu_slide(roof: &LowerRoof, drift: u32) -> Shape {
    if roof.upper_slope.pitch <= SLIDE_FROM {
        return Shape::ZERO;
    }
    let upper = mu1(roof.upper_slope);
    Shape::new(
        upper.numerator * u64::from(roof.upper_slope.width),
        upper.denominator * u64::from(drift),
    )
}

/// μ2 at a projection (6.2).
pub fn mu_projection(height: u32, site: &Site) -> Shape {
    mu_full_step(height, site)
        .at_most(Shape::new(2, 1))
        .at_least(Shape::EVEN)
}

/// μ1 of an exceptional drift in a valley between two slopes (B2): the least of 2h/sk,
/// 2 × b3/(ls1 + ls2) and 5.
pub fn mu_drift(valley: Valley, left: Slope, right: Slope, site: &Site) -> Shape {
    let widths = u64::from(left.width) + u64::from(right.width);
    mu_full_step(valley.depth, site)
        .at_most(Shape::new(2 * u64::from(valley.length), widths))
        .at_most(Shape::new(5, 1))
}

/// Length of the drift behind a parapet in mm (B4): the least of 5h, b1 and 15 m.
pub fn parapet_drift(roof: &Parapet) -> u32 {
    (5 * roof.height).min(roof.width).min(PARAPET_DRIFT)
}

/// μ1 behind a parapet (B4): the least of 2h/sk, 2 × b/ls and 8, where b is the larger width.
pub fn mu_parapet(roof: &Parapet, site: &Site) -> Shape {
    let larger = u64::from(roof.width.max(roof.other_width));
    mu_full_step(roof.height, site)
        .at_most(Shape::new(2 * larger, parapet_drift(roof).into()))
        .at_most(Shape::new(8, 1))
}

/// Length of the drift at a side of a small projection in mm (B4): the lesser of 5h and the width.
pub fn side_drift(side: &Side) -> u32 {
    (5 * side.height).min(side.width)
}

/// μ at a side of a small projection (B4): the lesser of 2h/sk and 5.
pub fn mu_side(side: &Side, site: &Site) -> Shape {
    mu_full_step(side.height, site).at_most(Shape::new(5, 1))
}

/// All that a load has beside μ, as a fraction. The scale is a multiple of ten that divides a
/// million.
///
/// The largest product is that of μs: 300 × 100,000 × 120 × 100 × 25,000 × 300 is below 2^63.
#[derive(Clone, Copy, Debug)]
pub struct Fall {
    weight: u64,
    scale: u64,
}

impl Fall {
    /// Ce × Ct × sk (5.1).
    pub fn persistent(site: &Site) -> Self {
        let factors = u64::from(site.exposure) * u64::from(site.thermal);
        Self {
            weight: factors * u64::from(site.ground_load),
            scale: 10_000,
        }
    }

    /// The same times Cesl (5.2).
    pub fn exceptional(site: &Site) -> Self {
        let persistent = Self::persistent(site);
        Self {
            weight: persistent.weight * u64::from(site.exceptional),
            scale: persistent.scale * 100,
        }
    }

    /// The ground load alone, for exceptional drifts (5.3): no Ce, no Ct, no Cesl.
    pub fn drift(site: &Site) -> Self {
        Self {
            weight: 10 * u64::from(site.ground_load),
            scale: 10,
        }
    }

    /// The load of a coefficient, as it is to be kept.
    pub fn load<L: Load>(self, mu: Shape) -> L {
        L::of(mu, self)
    }
}

/// The load of a part as it is kept until a load is printed or returned. The default is no load.
pub trait Load: Copy + Default + Add<Output = Self> {
    fn of(mu: Shape, fall: Fall) -> Self;
}

/// A load rounded up, in parts of a N/m²; there are `PARTS` of them, 1 or 10.
#[derive(Clone, Copy, Debug, Default)]
pub struct Rounded<const PARTS: u64>(u32);

/// As request A4 has it.
pub type Tenths = Rounded<10>;
/// As document 01 alone has it, and S still.
pub type Whole = Rounded<1>;

impl<const PARTS: u64> Load for Rounded<PARTS> {
    fn of(mu: Shape, fall: Fall) -> Self {
        let scale = fall.scale / PARTS;
        let load = (mu.numerator * fall.weight).div_ceil(mu.denominator * scale);
        Self(load as u32) // at most 7,200,000 N/m² for every accepted roof
    }
}

impl<const PARTS: u64> Add for Rounded<PARTS> {
    type Output = Self;

    fn add(self, other: Self) -> Self {
        Self(self.0 + other.0)
    }
}

impl<const PARTS: u64> Rounded<PARTS> {
    /// In whole N/m², rounded up.
    pub fn whole(self) -> u32 {
        self.0.div_ceil(PARTS as u32)
    }

    /// Between this load and another in whole N/m², rounded up once. The weights are the distances
    /// to the far ends.
    pub fn between(self, other: Self, weights: [u64; 2]) -> u32 {
        let [ahead, behind] = weights;
        let sum = u64::from(self.0) * ahead + u64::from(other.0) * behind;
        sum.div_ceil(PARTS * (ahead + behind)) as u32
    }
}

/// A load that is not rounded, a fraction of millionths of a N/m².
///
/// The largest numerator is that of μs + μw within a ramp, below 2^100. Its product with the
/// denominator of the even load that it meets is below 2^123.
#[derive(Clone, Copy, Debug)]
pub struct Exact {
    numerator: u128,
    denominator: u128,
}

impl Default for Exact {
    fn default() -> Self {
        Self {
            numerator: 0,
            denominator: 1,
        }
    }
}

impl Load for Exact {
    fn of(mu: Shape, fall: Fall) -> Self {
        let weight = u128::from(fall.weight) * u128::from(MILLION / fall.scale);
        Self {
            numerator: u128::from(mu.numerator) * weight,
            denominator: u128::from(mu.denominator),
        }
    }
}

impl Exact {
    /// Whether two loads are one number, on roofs of the kinds that can be turned: their cross products
    /// are below 2^112. Those of other kinds may be too large.
    pub fn is_same_number(self, other: Self) -> bool {
        self.numerator * other.denominator == other.numerator * self.denominator
    }

    /// How far two loads lie apart, a fraction of millionths of a N/m², on roofs of kinds 2, 3, 4 and 9
    /// with codes below 30: 375 times its numerator is below 2^120.
    pub fn apart(self, other: Self) -> [u128; 2] {
        let first = self.numerator * other.denominator;
        let second = other.numerator * self.denominator;
        [first.abs_diff(second), self.denominator * other.denominator]
    }
}

impl Add for Exact {
    type Output = Self;

    fn add(self, other: Self) -> Self {
        Self {
            numerator: self.numerator * other.denominator + other.numerator * self.denominator,
            denominator: self.denominator * other.denominator,
        }
    }
}

impl Exact {
    fn times(self, factor: u64) -> Self {
        Self {
            numerator: self.numerator * u128::from(factor),
            ..self
        }
    }

    /// Between this load and another, with weights as for a rounded one.
    pub fn between(self, other: Self, weights: [u64; 2]) -> Self {
        let [ahead, behind] = weights;
        let sum = self.times(ahead) + other.times(behind);
        Self {
            denominator: sum.denominator * u128::from(ahead + behind),
            ..sum
        }
    }

    /// The larger of this load and another.
    pub fn larger(self, other: Self) -> Self {
        if self.numerator * other.denominator < other.numerator * self.denominator {
            other
        } else {
            self
        }
    }

    /// The overhang over this load (6.4), a fraction of millionths of a N/m: the smaller of 3S and
    /// S³/3,000,000. They meet at 3,000 N/m², below which the cube has less than 128 bits.
    pub fn overhang(self) -> Self {
        let million = u128::from(MILLION);
        if self.numerator >= 3_000 * million * self.denominator {
            return self.times(3);
        }
        Self {
            numerator: self.numerator.pow(3),
            denominator: 3 * (million * self.denominator).pow(3),
        }
    }

    /// How far a load in whole N/m² lies above, in millionths of a N/m² rounded down. None where
    /// it lies below.
    pub fn distance(self, load: u32) -> Option<u64> {
        let load = u128::from(load) * u128::from(MILLION) * self.denominator;
        let excess = load.checked_sub(self.numerator)?;
        Some((excess / self.denominator) as u64)
    }
}
