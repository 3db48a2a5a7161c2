//! Stepped halls (request A7): what stands above each lower roof of kind 10.

use std::iter;

use crate::sheet::{number, Ceiling, Item, Items, LowerRoof, Refusal, Roof, Slope, SteppedRoof};
use crate::store::Store;

/// What an upper item gives to a roof below it.
#[derive(Clone, Copy)]
struct Upper {
    /// Its whole width.
    width: u32,
    /// Its slopes on the left and on the right.
    sides: [Slope; 2],
}

impl Upper {
    /// Items of kind 2, 3 and 10. Kind 2 serves either side, and kind 10 is flat without a guard.
    fn of(item: &Item) -> Option<Self> {
        let (width, sides) = match *item {
            Item::Roof(Roof::Monopitch(slope)) => (slope.width, [slope; 2]),
            Item::Roof(Roof::Pitched(slopes)) => (slopes[0].width + slopes[1].width, slopes),
            Item::Stepped(roof) => {
                let width = roof.lower_width;
                let flat = Slope {
                    width,
                    ..Slope::default()
                };
                (width, [flat; 2])
            }
            _ => return None,
        };
        Some(Self { width, sides })
    }
}

/// The items of an accepted sheet, by who stands above whom.
pub struct Steps {
    /// What each item gives as an upper item, where it is one.
    uppers: Vec<Option<Upper>>,
    /// The index of each item's upper item, where it is stepped.
    above: Vec<Option<usize>>,
}

impl Steps {
    /// Checks the store (18). Then hands on each item that its own rules accept, with its index,
    /// and checks the upper items.
    pub fn of(
        store: &[u32],
        sheet: &[u8],
        ceiling: Ceiling,
        mut keep: impl FnMut(usize, &Item),
    ) -> Result<Self, Refusal> {
        let store = Store::of(store)?;
        let items = Items::of(&store, sheet, ceiling)?;
        let mut steps = Self {
            uppers: Vec::with_capacity(items.len()),
            above: Vec::with_capacity(items.len()),
        };
        for (index, item) in items.enumerate() {
            let item = item.as_ref().map_err(|refusal| *refusal)?;
            steps.note(item);
            keep(index, item);
        }
        steps.check()?;
        Ok(steps)
    }

    fn note(&mut self, item: &Item) {
        self.uppers.push(Upper::of(item));
        self.above.push(match item {
            Item::Stepped(roof) => Some(roof.upper),
            _ => None,
        });
    }

    /// 16 over all items, then 17 over all items, the lowest one named.
    fn check(&self) -> Result<(), Refusal> {
        let mut indexes = 0..self.count();
        if let Some(item) = indexes.clone().find(|&item| self.lacks_upper(item)) {
            return Err(Refusal::new(number::UPPER, item));
        }
        match indexes.find(|&item| self.comes_back(item)) {
            Some(item) => Err(Refusal::new(number::CIRCLE, item)),
            None => Ok(()),
        }
    }

    /// Whether the index of the upper item is none of an item of kind 2, 3 or 10.
    fn lacks_upper(&self, item: usize) -> bool {
        let is_missing = |upper| !matches!(self.uppers.get(upper), Some(Some(_)));
        self.above[item].is_some_and(is_missing)
    }

    /// Whether following upper items from one comes back to it. A circle has as many steps as
    /// items at most.
    fn comes_back(&self, item: usize) -> bool {
        iter::successors(self.above[item], |&upper| self.above[upper])
            .take(self.count())
            .any(|upper| upper == item)
    }

    pub fn count(&self) -> usize {
        self.above.len()
    }

    /// The roofs as they are listed: each next one is the lowest left whose upper item, if it has
    /// one, is listed already.
    pub fn order(&self) -> Vec<usize> {
        let mut listed = vec![false; self.count()];
        let mut order = Vec::with_capacity(self.count());
        let next = |listed: &[bool]| {
            let is_ready = |&roof: &usize| self.above[roof].is_none_or(|upper| listed[upper]);
            (1..self.count()).find(|roof| !listed[*roof] && is_ready(roof))
        };
        while let Some(roof) = next(&listed) {
            listed[roof] = true;
            order.push(roof);
        }
        order
    }

    /// The figures of a roof of the sheet. The site has none.
    pub fn roof(&self, item: &Item) -> Option<Roof> {
        match *item {
            Item::Site(_) => None,
            Item::Roof(roof) => Some(roof),
            Item::Stepped(roof) => self.lower(roof).map(Roof::Lower),
        }
    }

    /// A stepped roof with the figures of kind 6. There are some for each on an accepted sheet.
    fn lower(&self, roof: SteppedRoof) -> Option<LowerRoof> {
        let upper = self.uppers[roof.upper]?;
        Some(LowerRoof {
            upper_width: upper.width,
            lower_width: roof.lower_width,
            step: roof.step,
            upper_slope: upper.sides[roof.side],
        })
    }
}

#[cfg(test)]
mod tests {
    use super::*;
    use crate::calls::{self, NONE, REFUSED};
    use crate::listing;
    use crate::sheets::{sheet, with_site, words, SITE};
    use crate::store::EMPTY;

    /// 20.0° and 40.0°, widths of 9,000 and 6,000, a guard on the right.
    fn hall() -> Vec<u8> {
        pitched([200, 400], [0, 1], [9_000, 6_000])
    }

    fn pitched(pitches: [u16; 2], guards: [u8; 2], widths: [u32; 2]) -> Vec<u8> {
        let mut item = vec![3];
        item.extend(pitches.into_iter().flat_map(u16::to_le_bytes));
        item.extend(guards);
        item.extend(widths.into_iter().flat_map(u32::to_le_bytes));
        item
    }

    /// 30.0° with a guard, 7,000 wide.
    fn shed() -> Vec<u8> {
        vec![2, 0x2C, 1, 1, 0x58, 0x1B, 0, 0]
    }

    fn stepped(lower_width: u32, step: u32, upper: u8, side: u8) -> Vec<u8> {
        let mut item = words(10, &[lower_width, step]);
        item.extend([upper, side]);
        item
    }

    fn under(upper: u8) -> Vec<u8> {
        stepped(20_000, 3_000, upper, 0)
    }

    /// A lower roof of kind 6, which no item stands under.
    fn lower() -> Vec<u8> {
        let mut item = words(6, &[10_000, 20_000, 3_000, 6_000]);
        item.extend([100, 0, 0]);
        item
    }

    fn refused(number: u32, item: u32) -> u32 {
        REFUSED + 65_536 * number + item
    }

    fn verdict(roofs: &[Vec<u8>]) -> u32 {
        calls::verdict(&EMPTY, &with_site(roofs))
    }

    /// Roofs by the indexes of their upper items, 0 for a hall.
    fn roofs_of(uppers: &[u8]) -> Vec<Vec<u8>> {
        let roof = |&upper| if upper == 0 { hall() } else { under(upper) };
        uppers.iter().map(roof).collect()
    }

    fn verdict_of(uppers: &[u8]) -> u32 {
        verdict(&roofs_of(uppers))
    }

    fn figures(roofs: &[Vec<u8>], index: usize) -> LowerRoof {
        match calls::ask(&EMPTY, &with_site(roofs), index) {
            Ok((_, Some(Roof::Lower(roof)))) => roof,
            other => panic!("{other:?}"),
        }
    }

    /// b1, then pitch, guard and width of the adjacent slope, of the last roof.
    fn above(roofs: &[Vec<u8>]) -> (u32, u16, bool, u32) {
        let roof = figures(roofs, roofs.len());
        let slope = roof.upper_slope;
        (roof.upper_width, slope.pitch, slope.guard, slope.width)
    }

    #[test]
    fn the_adjacent_side_gives_the_slope() {
        let beside = |upper, side| above(&[upper, stepped(20_000, 3_000, 1, side)]);
        assert_eq!(beside(hall(), 0), (15_000, 200, false, 9_000));
        assert_eq!(beside(hall(), 1), (15_000, 400, true, 6_000));
        for side in [0, 1] {
            assert_eq!(beside(shed(), side), (7_000, 300, true, 7_000));
            let aisle = stepped(8_000, 2_500, 1, 0);
            let below = stepped(4_000, 2_000, 2, side);
            assert_eq!(above(&[hall(), aisle, below]), (8_000, 0, false, 8_000));
        }
    }

    #[test]
    fn a_stepped_roof_has_its_own_width_and_step() {
        let roof = figures(&[stepped(4_321, 1_234, 2, 1), hall()], 1);
        assert_eq!((roof.lower_width, roof.step), (4_321, 1_234));
    }

    fn segments(roofs: &[Vec<u8>], item: usize, code: u8) -> Vec<u32> {
        let mut out = [0; 128];
        let count = calls::make(&EMPTY, &with_site(roofs), item, code, &mut out);
        assert!(count < REFUSED);
        out[..4 * count as usize].to_vec()
    }

    /// Document 01's figures of kind 6: b1 10,000, b2 20,000 and h 3,000 have 4,000 at the wall, and
    /// a slope of 6,000 at 20.0° adds 800.
    #[test]
    fn loads_of_kind_6() {
        let upper = pitched([200, 150], [0, 0], [6_000, 4_000]);
        let low = |side| segments(&[upper.clone(), stepped(20_000, 3_000, 1, side)], 2, 2);
        assert_eq!(low(0), [0, 24_000, 4_800, 800, 24_000, 80_000, 800, 800]);
        assert_eq!(low(1), [0, 24_000, 4_000, 800, 24_000, 80_000, 800, 800]);
        let twin = segments(&[lower()], 1, 2);
        assert_eq!(low(1), twin);
    }

    /// (200,000 + 10,000)/60,000 is 3.5, and at 10,000 of a drift of 15,000 the load is 1,700. On
    /// the right 0.8 × 100,000/15,000 slides down, 5,333.4 in tenths.
    #[test]
    fn an_upper_width_of_200_000() {
        let wide = pitched([0, 200], [0, 0], [100_000; 2]);
        let low = |side| segments(&[wide.clone(), stepped(10_000, 30_000, 1, side)], 2, 2);
        assert_eq!(low(0), [0, 40_000, 3_500, 1_700]);
        assert_eq!(low(1), [0, 40_000, 8_834, 3_478]);
        let mut six = lower();
        six[1..5].copy_from_slice(&100_001_u32.to_le_bytes());
        assert_eq!(verdict(&[six]), refused(8, 1));
    }

    #[test]
    fn codes_are_those_of_kind_6() {
        let lists: [&[u8]; 4] = [&[1, 2], &[1, 2, 11, 12], &[1, 2], &[1, 2, 11]];
        for (situation, list) in (0..).zip(lists) {
            let mut site = SITE.to_vec();
            site[11] = situation;
            let sheet = sheet(&[site, under(2), hall()]);
            let is_made =
                |code: &u8| calls::make(&EMPTY, &sheet, 1, *code, &mut [0; 128]) < REFUSED;
            assert!((0..=255).filter(is_made).eq(list.iter().copied()));
        }
    }

    /// On a mountain, under a guard.
    #[test]
    fn there_are_no_local_forces() {
        let mut site = SITE.to_vec();
        site[12..].copy_from_slice(&1_200_u16.to_le_bytes());
        let sheet = sheet(&[site, shed(), under(1)]);
        for slope in 0..=3 {
            assert_eq!(calls::overhang(&EMPTY, &sheet, 2, slope), NONE);
            assert_eq!(calls::guard_force(&EMPTY, &sheet, 2, slope), NONE);
        }
    }

    #[test]
    fn own_rules() {
        let with = |width, step, side| verdict(&[hall(), stepped(width, step, 1, side)]);
        assert_eq!([with(1, 1, 0), with(100_000, 30_000, 1)], [3; 2]);
        let outside = [
            with(0, 1, 0),
            with(100_001, 1, 0),
            with(1, 0, 0),
            with(1, 30_001, 0),
            with(1, 1, 2),
            with(1, 1, 255),
        ];
        assert_eq!(outside, [refused(8, 2); 6]);
        for length in [1, 10, 12, 14, 20] {
            let mut item = under(1);
            item.resize(length, 0);
            assert_eq!(verdict(&[hall(), item]), refused(4, 2));
        }
        assert_eq!(
            calls::verdict(&EMPTY, &sheet(&[under(1), hall()])),
            refused(5, 0)
        );
    }

    /// The site, past the last item, and roofs of other kinds.
    #[test]
    fn no_upper_item() {
        for upper in [0, 3, 4, 32, 255] {
            assert_eq!(verdict(&[hall(), under(upper)]), refused(16, 2));
        }
        let spans = [vec![4, 2], [0, 0, 0, 0, 1, 0, 0, 0, 1, 0, 0, 0].repeat(2)].concat();
        let mut drifts = [spans.clone(), [1, 0, 0, 0, 1, 0, 0, 0].to_vec()].concat();
        drifts[0] = 9;
        let others = [
            spans,
            words(5, &[1_000, 4_000]),
            lower(),
            words(7, &[1, 1, 1]),
            drifts,
            words(11, &[1, 1, 1]),
            words(12, &[1, 1, 1, 1]),
        ];
        for other in others {
            assert_eq!(verdict(&[other.clone(), hall()]), 3);
            assert_eq!(verdict(&[other.clone(), hall(), under(1)]), refused(16, 3));
            assert_eq!(verdict(&[under(2), other]), refused(16, 1));
        }
        // The lowest of two.
        assert_eq!(verdict_of(&[0, 1, 9, 8]), refused(16, 3));
    }

    /// The circles are 1; 2; 1 and 2; 1, 3 and 2; 2, 4 and 3; two circles.
    #[test]
    fn circles() {
        assert_eq!(verdict_of(&[1]), refused(17, 1));
        assert_eq!(verdict_of(&[0, 2]), refused(17, 2));
        assert_eq!(verdict_of(&[2, 1]), refused(17, 1));
        assert_eq!(verdict_of(&[3, 1, 2]), refused(17, 1));
        assert_eq!(verdict_of(&[0, 4, 2, 3]), refused(17, 2));
        assert_eq!(verdict_of(&[0, 5, 4, 3, 2]), refused(17, 2));
        let mut longest: Vec<u8> = (2..=31).collect();
        longest.push(1);
        assert_eq!(verdict_of(&longest), refused(17, 1));
        longest[30] = 31;
        assert_eq!(verdict_of(&longest), refused(17, 31));
    }

    /// Roofs that only lead into a circle are not named: 1, then 1 and 2, then 4 by way of 1.
    #[test]
    fn leading_into_a_circle() {
        assert_eq!(verdict_of(&[2, 2]), refused(17, 2));
        assert_eq!(verdict_of(&[2, 3, 4, 3]), refused(17, 3));
        assert_eq!(verdict_of(&[3, 0, 5, 1, 3]), refused(17, 3));
    }

    #[test]
    fn chains() {
        assert_eq!(verdict_of(&[0, 1, 2, 3]), 5);
        assert_eq!(verdict_of(&[2, 3, 4, 0]), 5);
        assert_eq!(verdict_of(&[4, 0, 2, 3, 2, 2]), 7);
        let mut longest: Vec<u8> = (2..=31).collect();
        longest.push(0);
        assert_eq!(verdict_of(&longest), 32);
    }

    #[test]
    fn upper_items_come_before_circles() {
        assert_eq!(verdict_of(&[1, 9]), refused(16, 2));
        assert_eq!(verdict_of(&[2, 1, 255]), refused(16, 3));
        assert_eq!(verdict_of(&[2, 9]), refused(16, 2));
    }

    /// A later item with a field outside, of an unknown kind, not of its length, or a site.
    #[test]
    fn own_rules_come_before_upper_items() {
        let steep = pitched([801, 0], [0; 2], [1; 2]);
        let wrong = [(steep, 8), (vec![13], 3), (vec![3], 4), (SITE.to_vec(), 5)];
        for first in [under(9), under(1)] {
            for (item, number) in wrong.clone() {
                assert_eq!(verdict(&[first.clone(), item]), refused(number, 2));
            }
            let aside = stepped(1, 1, 9, 2);
            assert_eq!(verdict(&[first, aside]), refused(8, 2));
        }
    }

    #[test]
    fn an_index_asked_for_comes_last() {
        let load = |uppers: &[u8]| calls::load(&EMPTY, &with_site(&roofs_of(uppers)), 40, 1, 0);
        assert_eq!(load(&[9, 0]), refused(16, 1));
        assert_eq!(load(&[1, 0]), refused(17, 1));
        assert_eq!(load(&[2, 0]), refused(12, 40));
    }

    /// The roofs in the order of their lines.
    fn order_of(uppers: &[u8]) -> Vec<usize> {
        let mut text = Vec::new();
        listing::list(&EMPTY, &with_site(&roofs_of(uppers)), &mut text);
        let text = String::from_utf8(text).unwrap();
        let number = |line: &str| line.split(' ').next().unwrap().parse().unwrap();
        let mut order: Vec<usize> = text.lines().skip(1).map(number).collect();
        order.dedup();
        order
    }

    #[test]
    fn order_of_the_listing() {
        assert_eq!(order_of(&[0, 1, 2]), [1, 2, 3]);
        assert_eq!(order_of(&[2, 3, 0]), [3, 2, 1]);
        // 1 waits for 3 and comes before 4 then.
        assert_eq!(order_of(&[3, 0, 2, 0]), [2, 3, 1, 4]);
        // 1 waits for 4 and is the lowest left then, before 5.
        assert_eq!(order_of(&[4, 1, 0, 0, 3]), [3, 4, 1, 2, 5]);
        // 2 waits for 1, which waits for 5, which waits for 6.
        assert_eq!(order_of(&[5, 1, 0, 3, 6, 0]), [3, 4, 6, 5, 1, 2]);
    }
}
