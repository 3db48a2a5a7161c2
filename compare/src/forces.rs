//! Local forces on single slopes: overhanging snow and guards (section 6).

use std::sync::LazyLock;

use crate::loads::{mu1, Exact, Fall, Load, Whole};
use crate::sheet::{Roof, Site, Slope};

/// Above this altitude in m snow may hang over an eave (6.3).
const OVERHANG_FROM: u16 = 800;
const PITCHES: usize = 801;
const MILLION: u64 = 1_000_000;

/// The sine of each tenth of a degree in millionths.
static SINES: LazyLock<[u32; PITCHES]> =
    LazyLock::new(|| std::array::from_fn(|pitch| sine(pitch as u64)));

/// The slope of a number (1 left or only, 2 right) on the kinds that have local forces.
pub fn slope(roof: &Roof, number: u8) -> Option<Slope> {
    let place = usize::from(number).checked_sub(1)?;
    slopes(roof).get(place).copied()
}

/// The slopes that can have local forces.
pub fn slopes(roof: &Roof) -> &[Slope] {
    match roof {
        Roof::Monopitch(slope) => std::slice::from_ref(slope),
        Roof::Pitched(slopes) => slopes,
        _ => &[],
    }
}

/// Snow overhanging the eave of a slope in N/m. By A5 the slope that has the most decides for
/// every eave of the roof.
pub fn overhang(site: &Site, roof: &Roof, number: u8) -> Option<u32> {
    slope(roof, number)?;
    if site.altitude <= OVERHANG_FROM {
        return None;
    }
    slopes(roof)
        .iter()
        .map(|slope| own_overhang(site, *slope))
        .max()
}

/// The overhang by a slope's own S: the smaller of 3S and S³/3,000,000, rounded up (6.4). It never
/// falls as S rises.
pub fn own_overhang(site: &Site, slope: Slope) -> u32 {
    let load = u64::from(whole_load(site, slope));
    (load * load * load).div_ceil(3 * MILLION).min(3 * load) as u32
}

/// How far an overhang lies above the rule over the largest S, which is not rounded here, in
/// millionths of a N/m rounded down. None where it lies below, or where the roof has no slope.
pub fn overhang_distance(site: &Site, roof: &Roof, force: u32) -> Option<u64> {
    let loads = slopes(roof).iter().map(|slope| load::<Exact>(site, *slope));
    let largest = loads.reduce(Exact::larger)?;
    largest.overhang().distance(force)
}

/// The force on the guard of a slope in N/m: its own S × width × sine, rounded up (6.5).
pub fn guard_force(site: &Site, roof: &Roof, number: u8) -> Option<u32> {
    let slope = slope(roof, number)?;
    if !slope.guard {
        return None;
    }
    let snow = u64::from(whole_load(site, slope)) * u64::from(slope.width);
    let sine = u64::from(SINES[usize::from(slope.pitch)]);
    Some((snow * sine).div_ceil(1_000 * MILLION) as u32)
}

/// The load of code 1 on a slope.
fn load<L: Load>(site: &Site, slope: Slope) -> L {
    Fall::persistent(site).load(mu1(slope))
}

/// S, that load in whole N/m².
fn whole_load(site: &Site, slope: Slope) -> u32 {
    load::<Whole>(site, slope).whole()
}

/// The series x − x³/3! + … to the eleventh power in millionths, to the nearest whole number.
///
/// x is pitch × 355/(113 × 1,800), which is (71 × pitch)/40,680. The series is worked from its
/// innermost bracket as an exact fraction: 1 − x²/(10 × 11), then 1 − x²/(8 × 9) × that, and so on.
fn sine(pitch: u64) -> u32 {
    let (over, under) = (71 * pitch, 40_680);
    let mut numerator = Wide::ONE;
    let mut denominator = Wide::ONE;
    for power in [11, 9, 7, 5, 3] {
        let widened = denominator.times(under * under).times(power * (power - 1));
        numerator = widened.minus(numerator.times(over * over));
        denominator = widened;
    }
    let doubled = numerator.times(over).times(2 * MILLION);
    nearest(doubled, denominator.times(under))
}

/// Half of doubled/unit to the nearest whole number, at most a million.
fn nearest(doubled: Wide, unit: Wide) -> u32 {
    let (mut low, mut high) = (0, MILLION);
    while low < high {
        let middle = (low + high).div_ceil(2);
        if unit.times(2 * middle - 1) <= doubled {
            low = middle;
        } else {
            high = middle - 1;
        }
    }
    low as u32
}

/// A whole number of 256 bits, the highest digit first so that the order is that of the digits.
#[derive(Clone, Copy, PartialEq, Eq, PartialOrd, Ord)]
struct Wide([u64; 4]);

impl Wide {
    const ONE: Self = Self([0, 0, 0, 1]);

    fn times(self, factor: u64) -> Self {
        let mut digits = self.0;
        let mut carry = 0;
        for digit in digits.iter_mut().rev() {
            let product = u128::from(*digit) * u128::from(factor) + carry;
            *digit = product as u64;
            carry = product >> 64;
        }
        assert_eq!(carry, 0, "the product has more than 256 bits");
        Self(digits)
    }

    fn minus(self, other: Self) -> Self {
        let mut digits = self.0;
        let mut borrow = false;
        for (digit, less) in digits.iter_mut().zip(other.0).rev() {
            let (once, first) = digit.overflowing_sub(less);
            let (twice, second) = once.overflowing_sub(u64::from(borrow));
            *digit = twice;
            borrow = first || second;
        }
        assert!(!borrow, "the difference is below zero");
        Self(digits)
    }
}

#[cfg(test)]
mod tests {
    use super::*;

    #[test]
    fn sines_are_near_the_true_ones() {
        for (pitch, &entry) in SINES.iter().enumerate() {
            let exact = (pitch as f64 / 10.0).to_radians().sin() * 1e6;
            assert!((f64::from(entry) - exact).abs() < 1.5, "pitch {pitch}");
        }
    }

    #[test]
    fn sines_rise() {
        assert_eq!((SINES[0], SINES[300]), (0, 500_000));
        assert!(SINES.windows(2).all(|pair| pair[0] < pair[1]));
    }
}
