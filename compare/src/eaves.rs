//! Questions about request A5 alone: the overhang at either eave of a pitched roof.

use second::calls::{self, LIST_ROOM};
use second::forces;

use crate::check::Lent;
use crate::draft;
use crate::fuzz::Fuzz;

/// Pitches of the other slope: the ends of the ranges of Table 5.2, those beside them, and between.
const PITCHES: [u32; 10] = [0, 300, 301, 302, 450, 598, 599, 600, 601, 800];
/// The lowest altitude with overhangs in m.
const HIGH: u32 = 801;

/// An overhang that was returned and agreed on.
#[derive(Debug)]
pub struct Eave {
    pub slope: u8,
    pub force: u32,
    /// What the slope's own load gives.
    pub own: u32,
    /// Above the rule over the largest unrounded load, in millionths of a N/m rounded down; none
    /// where it lies below.
    pub distance: Option<u64>,
}

impl Eave {
    pub fn of(lent: Lent, item: usize, slope: u8, force: u32) -> Option<Self> {
        let (site, roof) = calls::ask(lent.store, lent.sheet, item).ok()?;
        let roof = roof?;
        let side = forces::slope(&roof, slope)?;
        Some(Self {
            slope,
            force,
            own: forces::own_overhang(&site, side),
            distance: forces::overhang_distance(&site, &roof, force),
        })
    }
}

impl Fuzz {
    /// Every pitch on the left and on the right, beside others, with guards and without.
    pub fn sweep_eaves(&mut self) {
        for pitch in 0..=draft::MAX_PITCH {
            for guards in [[0, 0], [0, 1], [1, 0], [1, 1]] {
                self.eaves(pitch, guards);
            }
        }
    }

    /// The roofs of one pitch on a site above 800 m: the listing and both forces at each slope.
    fn eaves(&mut self, pitch: u32, guards: [u32; 2]) {
        let mut items = vec![draft::site_above(&mut self.random, HIGH)];
        for other in PITCHES {
            for [left, right] in [[pitch, other], [other, pitch]] {
                let figures = [left, right, guards[0], guards[1], 5_000, 7_000];
                items.push(draft::of_figures(draft::PITCHED, &figures));
            }
        }
        let sheet = draft::sheet(&mut self.random, &items);
        let asked = self.checker.verdict(&sheet);
        self.checker.list(&sheet, LIST_ROOM);
        for item in 1..items.len() {
            for slope in [1, 2] {
                self.checker.overhang(asked, item, slope);
                self.checker.guard_force(asked, item, slope);
            }
        }
    }
}
