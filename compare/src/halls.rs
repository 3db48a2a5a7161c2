//! Questions about request A7 alone: stepped roofs, what they stand under, circles and the order.

use second::calls::LIST_ROOM;

use crate::draft;
use crate::fuzz::Fuzz;

/// The codes of a stepped roof.
pub const CODES: [u8; 4] = [1, 2, 11, 12];
/// The number of a circle's refusal.
const CIRCLE: u32 = 17;
/// How often a circle of each length is met.
const CIRCLE_ROUNDS: usize = 40;
/// Halls wider than 100,000.
const WIDE_ROUNDS: usize = 1_000;

/// What a stepped roof of an accepted sheet stands under.
pub struct Step {
    /// The place of the upper item's kind among the upper kinds.
    pub upper: usize,
    pub side: usize,
    pub situation: usize,
    /// Whether b1 is more than a roof of kind 6 may have.
    pub is_wide: bool,
}

impl Step {
    pub fn of(sheet: &[u8], item: usize) -> Option<Self> {
        let upper = upper_of(sheet, item)?;
        let [site, upper] = [0, upper].map(|index| draft::item_of(sheet, index));
        let stepped = draft::item_of(sheet, item);
        Some(Self {
            upper: draft::UPPERS.iter().position(|&kind| kind == upper[0])?,
            side: draft::get(stepped, draft::SIDE) as usize,
            situation: draft::get(site, draft::situation(site)) as usize,
            is_wide: draft::is_wide(upper),
        })
    }
}

/// The index of the upper item, where an item of an accepted sheet is stepped.
pub fn upper_of(sheet: &[u8], item: usize) -> Option<usize> {
    let item = draft::item_of(sheet, item);
    (item[0] == draft::STEPPED).then(|| draft::get(item, draft::UPPER) as usize)
}

impl Fuzz {
    /// Every index on small sheets, every byte for index and side, fields at their ends, chains and
    /// circles of every length, and halls wider than 100,000.
    pub fn sweep_halls(&mut self) {
        for [hall, lower] in [[1, 2], [6, 5], [4, 2]] {
            self.every_index(hall, lower);
        }
        self.every_byte();
        self.step_fields();
        for count in 3..=draft::MAX_ITEMS {
            self.chains(count);
        }
        for length in 1..draft::MAX_ITEMS {
            self.circles(length);
        }
        for _ in 0..WIDE_ROUNDS {
            let items = draft::wide_hall(&mut self.random);
            self.close_questions(&items, 2);
        }
    }

    /// Seven items: the site, a pitched roof, a roof of kind 6 and four stepped ones, each of them
    /// with every index from 0 to 7.
    fn every_index(&mut self, hall: usize, lower: usize) {
        let mut items = vec![draft::site_in(&mut self.random, 1)];
        items.resize_with(7, || draft::item(&mut self.random, draft::STEPPED));
        items[hall] = draft::item(&mut self.random, draft::PITCHED);
        items[lower] = draft::item(&mut self.random, draft::LOWER);
        let stepped = (1..7).filter(|place| ![hall, lower].contains(place));
        for indexes in 0..8_u32.pow(4) {
            for (digit, place) in (0..).zip(stepped.clone()) {
                let index = indexes / 8_u32.pow(digit) % 8;
                draft::put(&mut items[place], draft::UPPER, index);
            }
            self.verdict_and_list(&items);
        }
    }

    /// Every byte for the index with every byte for the side, behind a roof of each kind.
    fn every_byte(&mut self) {
        let mut items = draft::each_kind(&mut self.random, 1);
        let item = items.len() - 1;
        for index in 0..=255 {
            for side in 0..=255 {
                draft::put(&mut items[item], draft::UPPER, index);
                draft::put(&mut items[item], draft::SIDE, side);
                let sheet = draft::sheet(&mut self.random, &items);
                if self.checker.verdict(&sheet).count > 0 {
                    self.close_questions(&items, item);
                }
            }
        }
    }

    /// Every field at the ends of its range and beside them, with another stepped roof before it or
    /// behind it. Where that one has no upper item or lies on a circle, it is refused later.
    fn step_fields(&mut self) {
        for upper in [1, 2, 3, 255] {
            for [item, other] in [[2, 3], [3, 2]] {
                let mut items = vec![draft::site_in(&mut self.random, 1); 4];
                items[1] = draft::item(&mut self.random, draft::PITCHED);
                items[item] = draft::under(&mut self.random, 1);
                items[other] = draft::under(&mut self.random, upper);
                self.field_ends(&items, item);
            }
        }
    }

    /// So many items in a chain, upper items first, last and in any order, in every situation.
    fn chains(&mut self, count: usize) {
        let first: Vec<_> = (1..count).collect();
        let last: Vec<_> = (1..count).rev().collect();
        for situation in 0..=draft::MAX_SITUATION {
            for kind in [draft::MONOPITCH, draft::PITCHED] {
                let mut any = first.clone();
                self.random.shuffle(&mut any);
                for places in [&first, &last, &any] {
                    self.chain(situation, kind, places);
                }
            }
        }
    }

    /// A roof of a kind at the first place and stepped ones at the others, each under the one before.
    fn chain(&mut self, situation: u32, kind: u8, places: &[usize]) {
        let site = draft::site_in(&mut self.random, situation);
        let mut items = vec![site; 1 + places.len()];
        items[places[0]] = draft::item(&mut self.random, kind);
        draft::chain(&mut self.random, &mut items, places);
        let sheet = draft::sheet(&mut self.random, &items);
        let asked = self.checker.verdict(&sheet);
        self.checker.list(&sheet, LIST_ROOM);
        for &item in &places[1..] {
            for code in CODES {
                self.arrangement_questions(asked, item, code);
            }
            self.force_questions(asked, item);
        }
        if let Some(given) = draft::given(&items) {
            self.as_lower(&sheet, &given, places.is_sorted());
        }
    }

    /// The library makes of stepped roofs what it makes of roofs of kind 6 with their figures, and
    /// lists the same where the order is that of the indexes.
    fn as_lower(&mut self, sheet: &[u8], given: &[Vec<u8>], in_order: bool) {
        let other = draft::sheet(&mut self.random, given);
        for item in 1..given.len() {
            for code in CODES {
                let sheets = [sheet, &other];
                let alike = self.checker.alike_segments(sheets, item, code, "as kind 6");
                self.checker.tally.halls.alike += u64::from(alike);
            }
        }
        if in_order {
            let alike = self.checker.alike(sheet, &other, "the roofs as kind 6");
            self.checker.tally.halls.listings += u64::from(alike);
        }
    }

    /// Circles of so many roofs in any places, among others. The first of the others leads into it.
    fn circles(&mut self, length: usize) {
        for _ in 0..CIRCLE_ROUNDS {
            let count = 1 + length + self.random.below(draft::MAX_ITEMS - length);
            let mut items = draft::some_items(&mut self.random, count);
            items[0] = draft::site_in(&mut self.random, 1);
            let mut circle: Vec<_> = (1..count).collect();
            self.random.shuffle(&mut circle);
            let others = circle.split_off(length);
            circle.push(circle[0]);
            draft::chain(&mut self.random, &mut items, &circle);
            if let Some(&leading) = others.first() {
                items[leading] = draft::under(&mut self.random, circle[0]);
            }
            let sheet = draft::sheet(&mut self.random, &items);
            let lowest = circle.into_iter().fold(count, usize::min);
            if self.checker.refused(&sheet, CIRCLE, lowest) {
                let tally = &mut self.checker.tally.halls;
                tally.circles[length - 1] += 1;
                tally.led += u64::from(others.first().is_some_and(|&leading| leading < lowest));
            }
            self.ask_anywhere(&sheet);
        }
    }
}
