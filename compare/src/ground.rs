//! The ground load of a site on the European map (Annex C).

use crate::sheet::{number, within, ALTITUDES, GROUND_LOADS};

/// How a load rises from sea level to the altitude A, with the row's divisor.
#[derive(Clone, Copy)]
enum Rise {
    /// The load at sea level times 1 + (A/divisor)².
    Square(i128),
    /// The load at sea level plus A/divisor.
    Linear(i128),
}

/// The load at sea level in zone Z is `zone` × Z + `constant`, in thousandths of a kN/m².
struct Row {
    zone: i128,
    constant: i128,
    rise: Rise,
}

const fn row(zone: i128, constant: i128, rise: Rise) -> Row {
    Row {
        zone,
        constant,
        rise,
    }
}

/// Table C.1 from its first line to its last.
#[rustfmt::skip] // the table reads across
const TABLE: [Row; 8] = [
    row(642,    9, Rise::Square(728)), // Alpine Region
    row(264,   -2, Rise::Square(256)), // Central East
    row(420,  -30, Rise::Square(917)), // Greece
    row(190,  -95, Rise::Square(524)), // Iberian Peninsula
    row(498, -209, Rise::Square(452)), // Mediterranean Region
    row(164,  -82, Rise::Linear(966)), // Central West
    row(790,  375, Rise::Linear(336)), // Sweden, Finland
    row(140, -100, Rise::Linear(501)), // UK, Republic of Ireland
];

/// Zones of each region.
const ZONES: u8 = 5;

/// The load in N/m², or the number of the first rule that is broken: 7, 14, 15.
pub fn load(region: u8, zone: u8, altitude: u16) -> Result<u32, u8> {
    within(altitude, ALTITUDES, number::ALTITUDE)?;
    let region = within(usize::from(region), 1..=TABLE.len(), number::REGION)?;
    let zone = within(zone, 1..=ZONES, number::REGION)?;
    let exact = TABLE[region - 1].expression(zone.into(), altitude.into());
    let newtons = exact.times(Fraction::whole(1_000)).rounded_up();
    within(newtons as u32, GROUND_LOADS, number::MAP_LOAD)
}

impl Row {
    /// The row's expression in kN/m², not rounded.
    fn expression(&self, zone: i128, altitude: i128) -> Fraction {
        let at_sea = Fraction::new(self.zone * zone + self.constant, 1_000);
        match self.rise {
            Rise::Square(divisor) => {
                let part = Fraction::new(altitude, divisor);
                at_sea.times(Fraction::whole(1).plus(part.times(part)))
            }
            Rise::Linear(divisor) => at_sea.plus(Fraction::new(altitude, divisor)),
        }
    }
}

/// An exact fraction with a denominator above zero.
#[derive(Clone, Copy)]
struct Fraction {
    numerator: i128,
    denominator: i128,
}

impl Fraction {
    fn new(numerator: i128, denominator: i128) -> Self {
        Self {
            numerator,
            denominator,
        }
    }

    fn whole(number: i128) -> Self {
        Self::new(number, 1)
    }

    fn plus(self, other: Self) -> Self {
        let left = self.numerator * other.denominator;
        let right = other.numerator * self.denominator;
        Self::new(left + right, self.denominator * other.denominator)
    }

    fn times(self, other: Self) -> Self {
        Self::new(
            self.numerator * other.numerator,
            self.denominator * other.denominator,
        )
    }

    /// The smallest whole number that is not below the fraction.
    fn rounded_up(self) -> i128 {
        -(-self.numerator).div_euclid(self.denominator)
    }
}

#[cfg(test)]
mod tests {
    use super::*;

    #[test]
    fn a_fraction_is_rounded_up_to_the_next_whole_number() {
        let rounded = |numerator, denominator| Fraction::new(numerator, denominator).rounded_up();
        assert_eq!(rounded(7, 7), 1);
        assert_eq!(rounded(8, 7), 2);
        assert_eq!(rounded(14, 7), 2);
        assert_eq!(rounded(-8, 7), -1);
    }

    /// The load never falls as the altitude rises. Refused ones are too light, then too heavy.
    #[test]
    fn loads_rise_with_the_altitude() {
        for region in 1..=8 {
            for zone in 1..=ZONES {
                let loads: Vec<_> = ALTITUDES
                    .filter_map(|altitude| load(region, zone, altitude).ok())
                    .collect();
                assert!(loads.is_sorted(), "region {region} zone {zone}");
            }
        }
    }
}
