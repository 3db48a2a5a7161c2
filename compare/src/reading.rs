//! The load at a station.

use crate::arrangement::{Arrangement, Stretch};
use crate::loads::{Exact, Load, Rounded};

impl<L> Stretch<L> {
    /// How far a station lies before the end of the uncut ramp, and how far behind its start.
    fn distances(&self, station: i32) -> [u64; 2] {
        [self.ramp_end - station, station - self.ramp_start].map(|distance| distance as u64)
    }
}

impl<const PARTS: u64> Stretch<Rounded<PARTS>> {
    /// Interpolates between the ends of the uncut ramp, rounded up to a whole N/m².
    pub fn reading(&self, station: i32) -> u32 {
        self.load_start
            .between(self.load_end, self.distances(station))
    }
}

impl Stretch<Exact> {
    /// The load by the exact rule.
    pub fn exact(&self, station: i32) -> Exact {
        self.load_start
            .between(self.load_end, self.distances(station))
    }
}

impl<L: Load> Arrangement<L> {
    /// The stretches that a station lies on: two where they meet, none past the roof's end.
    fn at(&self, station: i32) -> impl Iterator<Item = &Stretch<L>> {
        let parts = self.stretches().iter();
        parts.filter(move |stretch| (stretch.start..=stretch.end).contains(&station))
    }
}

impl<const PARTS: u64> Arrangement<Rounded<PARTS>> {
    /// The load at a station, the greater one where two segments meet. None past the roof's end.
    pub fn reading(&self, station: u32) -> Option<u32> {
        let station = i32::try_from(station).ok()?;
        let loads = self.at(station).map(|stretch| stretch.reading(station));
        loads.max()
    }
}

impl Arrangement<Exact> {
    /// The load by the exact rule at a station, the greater one where two segments meet. None past
    /// the roof's end.
    pub fn exact(&self, station: u32) -> Option<Exact> {
        let station = i32::try_from(station).ok()?;
        let loads = self.at(station).map(|stretch| stretch.exact(station));
        loads.reduce(Exact::larger)
    }

    /// How far a load at a station lies above the exact rule, in millionths of a N/m² rounded
    /// down. None where it lies below, or past the roof's end.
    pub fn distance(&self, station: u32, load: u32) -> Option<u64> {
        self.exact(station)?.distance(load)
    }
}
