//! Questions about request A2 alone: situations, roofs of kind 9 and exceptional drifts.

use std::ops::RangeInclusive;

use second::calls::LIST_ROOM;

use crate::check::Asked;
use crate::draft;
use crate::fuzz::Fuzz;
use crate::tally::DRIFT_ROUNDS;

/// The codes of drifts, and one on either side.
const DRIFT_CODES: RangeInclusive<u8> = 30..=46;
/// Pitches at a valley, in tenths of a degree. Two pairs are sound.
const STEEP: [(u32, u32); 8] = [
    (600, 600),
    (600, 599),
    (599, 600),
    (601, 0),
    (0, 601),
    (600, 601),
    (601, 599),
    (800, 800),
];

impl Fuzz {
    /// A roof of each kind in each situation, with every byte for the code.
    pub fn sweep_codes(&mut self) {
        for situation in 0..=draft::MAX_SITUATION {
            let items = draft::each_kind(&mut self.random, situation);
            let sheet = draft::sheet(&mut self.random, &items);
            let asked = self.checker.verdict(&sheet);
            for item in 1..items.len() {
                for code in 0..=255 {
                    self.checker.make(asked, item, code, 128);
                    self.checker.load(asked, item, code, 0);
                }
            }
        }
    }

    /// Every byte for the situation and for the count of spans, and every field of a roof with
    /// drifts at the ends of its range and beside them.
    pub fn sweep_refused(&mut self) {
        for kind in [draft::SITE, draft::MAP_SITE] {
            for situation in 0..=255 {
                self.situation(kind, situation);
            }
        }
        for count in 0..=255 {
            self.span_count(count);
        }
        for count in 2..=draft::MAX_SPANS {
            let site = draft::site_in(&mut self.random, 2);
            let roof = draft::spans(&mut self.random, draft::DRIFT_ROOF, count);
            self.field_ends(&[site, roof], 1);
            self.steep_valleys(count);
        }
    }

    fn situation(&mut self, kind: u8, number: u32) {
        let mut site = draft::item(&mut self.random, kind);
        let field = draft::situation(&site);
        draft::put(&mut site, field, number);
        let roof = draft::roof(&mut self.random);
        self.verdict_and_list(&[site, roof]);
    }

    /// A count with the length that fits it, lengths beside it and that of kind 4, behind a site
    /// and in its place.
    fn span_count(&mut self, count: usize) {
        let site = draft::site_in(&mut self.random, 3);
        let roof = draft::any_spans(&mut self.random, draft::DRIFT_ROOF, count);
        let fits = roof.len();
        let other = draft::spanned_length(draft::MULTI_SPAN, count);
        for length in [fits, fits - 1, fits + 1, fits + 20, other, 1, 2, 14] {
            let mut roof = roof.clone();
            roof.resize(length, 1);
            self.verdict_and_list(&[site.clone(), roof.clone()]);
            self.verdict_and_list(&[roof]);
        }
    }

    /// Every field of an item at the ends of its range and beside them.
    pub fn field_ends(&mut self, items: &[Vec<u8>], place: usize) {
        for field in draft::fields(&items[place]) {
            let (low, high) = (field.low, field.high);
            for value in [low, low.wrapping_sub(1), high, high + 1, u32::MAX] {
                let mut items = items.to_vec();
                draft::put(&mut items[place], field, value);
                self.verdict_and_list(&items);
            }
        }
    }

    /// Steep slopes at each valley, then with a depth of 0 as well, which is refused before them.
    fn steep_valleys(&mut self, count: usize) {
        let site = draft::site_in(&mut self.random, 3);
        let roof = draft::spans(&mut self.random, draft::DRIFT_ROOF, count);
        for valley in 1..count {
            let (left, right) = draft::valley_fields(valley);
            for pitches in STEEP {
                let mut roof = roof.clone();
                draft::put(&mut roof, left, pitches.0);
                draft::put(&mut roof, right, pitches.1);
                self.verdict_and_list(&[site.clone(), roof.clone()]);
                draft::put(&mut roof, draft::drift_fields(count, valley)[0], 0);
                self.verdict_and_list(&[site.clone(), roof]);
            }
        }
    }

    pub fn verdict_and_list(&mut self, items: &[Vec<u8>]) {
        let sheet = draft::sheet(&mut self.random, items);
        self.checker.verdict(&sheet);
        self.checker.list(&sheet, LIST_ROOM);
    }

    /// Every valley of roofs with 2 to 16 spans, in every situation.
    pub fn sweep_drifts(&mut self) {
        for _ in 0..DRIFT_ROUNDS {
            for count in 2..=draft::MAX_SPANS {
                for situation in 0..=draft::MAX_SITUATION {
                    self.drift_roof(count, situation);
                }
            }
        }
    }

    /// One roof. In situations 0 and 1 it lists as the roof of kind 4 with its spans.
    fn drift_roof(&mut self, count: usize, situation: u32) {
        let site = draft::site_in(&mut self.random, situation);
        let ground_load = draft::get(&site, draft::GROUND_LOAD);
        let roof = draft::drift_roof(&mut self.random, count, ground_load);
        let items = [site, roof];
        let sheet = draft::sheet(&mut self.random, &items);
        let asked = self.checker.verdict(&sheet);
        self.checker.list(&sheet, LIST_ROOM);
        for code in DRIFT_CODES {
            self.arrangement_questions(asked, 1, code);
        }
        if situation >= 2 {
            self.valleys(asked, &items);
        } else {
            let plain = [items[0].clone(), draft::without_drifts(&items[1])];
            let other = draft::sheet(&mut self.random, &plain);
            let alike = self.checker.alike(&sheet, &other, "the roof of kind 4");
            self.checker.tally.drifts.plain += u64::from(alike);
        }
    }

    /// The drift of each valley, which Ce, Ct, Cesl and the altitude leave as it is.
    fn valleys(&mut self, asked: Asked, items: &[Vec<u8>; 2]) {
        let other_site = draft::other_factors(&mut self.random, &items[0]);
        let other = draft::sheet(&mut self.random, &[other_site, items[1].clone()]);
        let count = usize::from(items[1][1]);
        for valley in 1..count {
            let code = 30 + valley as u8;
            let numbers = self.checker.make(asked, 1, code, 16);
            let sheets = [asked.sheet, &other];
            let what = "under other coefficients";
            let alike = self.checker.alike_segments(sheets, 1, code, what);
            let tally = &mut self.checker.tally.drifts;
            tally.alike += u64::from(alike);
            // The second segment rises to the valley.
            if let Some(&peak) = numbers.get(7) {
                tally.valleys += 1;
                tally.limits[limit(items, valley, peak)] += 1;
            }
        }
    }
}

/// Which of the three limits the load at a valley is: 2h, 5 × sk, or what the length gives.
fn limit(items: &[Vec<u8>; 2], valley: usize, peak: u32) -> usize {
    let [depth, _] = draft::drift_fields(usize::from(items[1][1]), valley);
    if peak == 2 * draft::get(&items[1], depth) {
        0
    } else if peak == 5 * draft::get(&items[0], draft::GROUND_LOAD) {
        1
    } else {
        2
    }
}
