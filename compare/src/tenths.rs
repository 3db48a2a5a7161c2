//! Questions about request A4 alone: parts rounded up to tenths, their sums, and ramps that are cut.

use second::calls::LIST_ROOM;

use crate::draft;
use crate::fuzz::Fuzz;

/// Roofs with random figures, of each of the two kinds.
const ROUNDS: usize = 2_000;
/// Stations at the wall that are read in turn.
const NEAR: u32 = 32;
/// Ground load, Ce, Ct, Cesl, situation, altitude. At station 8 the roof below drops by 2.
const LIGHT: [u32; 6] = [688, 100, 100, 200, 1, 300];
/// b1 + b2, then h, slope width, pitch and guard.
const WIDTHS: u32 = 27_136;
const SLIDING: [u32; 4] = [6_003, 6_261, 200, 0];
/// Two spans whose inner slopes are ramps.
const ODD: [u32; 6] = [1_001, 100, 100, 200, 1, 300];
const SPANS: [u32; 8] = [400, 200, 4_000, 5_000, 100, 350, 6_000, 7_000];

impl Fuzz {
    /// Roofs whose loads are known to differ, then roofs with sliding snow and projections that
    /// end inside their drifts.
    pub fn sweep_tenths(&mut self) {
        for width in (1..=20).chain([6_000, 12_005, 12_006, 12_007, 20_000]) {
            let figures = [&[WIDTHS - width, width][..], &SLIDING].concat();
            let roof = draft::of_figures(draft::LOWER, &figures);
            self.close_questions(&[draft::of_figures(draft::SITE, &LIGHT), roof], 1);
        }
        for kind in draft::SPANNED {
            let roof = draft::two_spans(kind, &SPANS);
            self.close_questions(&[draft::of_figures(draft::SITE, &ODD), roof], 1);
        }
        for _ in 0..ROUNDS {
            for kind in [draft::LOWER, draft::PROJECTION] {
                let roof = draft::cut(&mut self.random, kind);
                let site = draft::site_in(&mut self.random, 1);
                self.close_questions(&[site, roof], 1);
            }
        }
    }

    /// The listing, all arrangements of an item, and its loads at and near the wall.
    pub fn close_questions(&mut self, items: &[Vec<u8>], item: usize) {
        let sheet = draft::sheet(&mut self.random, items);
        let asked = self.checker.verdict(&sheet);
        self.checker.list(&sheet, LIST_ROOM);
        for code in [1, 2, 11, 12] {
            self.arrangement_questions(asked, item, code);
            for station in 0..NEAR {
                self.checker.load(asked, item, code, station);
            }
        }
    }
}
