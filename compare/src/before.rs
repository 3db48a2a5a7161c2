//! What a returned load is held against besides: the load with parts in whole N/m², as it was
//! before request A4, and the exact rule, both under the set in use.

use second::arrangement::Arrangement;
use second::calls;
use second::loads::{Exact, Whole};

use crate::check::Lent;

/// A load that was returned and agreed on.
#[derive(Debug)]
pub struct Returned {
    pub load: u32,
    pub before: u32,
    /// Above the exact rule, in millionths of a N/m² rounded down; none where it lies below.
    pub distance: Option<u64>,
    /// Whether it is the load at a cut end of a segment.
    pub is_cut: bool,
}

/// The two other arrangements of an item and a code.
pub struct Before {
    item: usize,
    code: u8,
    whole: Arrangement<Whole>,
    exact: Arrangement<Exact>,
}

impl Before {
    /// Those of an arrangement that is made.
    pub fn of(lent: Lent, item: usize, code: u8) -> Option<Self> {
        let (site, roof) = calls::ask(lent.store, lent.sheet, item).ok()?;
        let roof = roof?;
        Some(Self {
            item,
            code,
            whole: Arrangement::of(&site, &roof, code)?,
            exact: Arrangement::of(&site, &roof, code)?,
        })
    }

    pub fn is_of(&self, item: usize, code: u8) -> bool {
        (self.item, self.code) == (item, code)
    }

    /// A load read at a station of the roof.
    pub fn at(&self, station: u32, load: u32) -> Returned {
        Returned {
            load,
            before: self.whole.reading(station).unwrap_or(0),
            distance: self.exact.distance(station, load),
            is_cut: false,
        }
    }

    /// The load by the exact rule at a station of the roof.
    pub fn exact(&self, station: u32) -> Option<Exact> {
        self.exact.exact(station)
    }

    /// The two loads of each segment, in their order.
    pub fn segments<'a>(&'a self, numbers: &'a [u32]) -> impl Iterator<Item = Returned> + 'a {
        let parts = self.whole.stretches().iter().zip(self.exact.stretches());
        let segments = numbers.chunks_exact(4).zip(parts);
        segments.flat_map(|(numbers, (whole, exact))| {
            let before = whole.segment();
            let cut = whole.is_cut();
            let ends = [exact.start, exact.end];
            [0, 1].map(|side| {
                let load = numbers[2 + side];
                Returned {
                    load,
                    before: before[2 + side],
                    distance: exact.exact(ends[side]).distance(load),
                    is_cut: cut[side],
                }
            })
        })
    }
}
