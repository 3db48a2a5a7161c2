//! Questions about request A3 alone: every offset and every length of a pair.

use crate::draft;
use crate::fuzz::Fuzz;
use crate::tally::PAIRS;

/// Where the items of the longest sheet lie, the site first. Each has room on both sides.
const PLACES: [usize; PAIRS] = [0x0A00, 0x1900, 0x3000];
/// The end of the pairs.
const HEAD: usize = 2 + 4 * PAIRS;

impl Fuzz {
    /// Every number of 16 bits for the offset and for the length of each pair. The item of an
    /// offset lies there, where the sheet has room for it.
    pub fn sweep_pairs(&mut self) {
        let items = [
            draft::site(&mut self.random),
            draft::item(&mut self.random, draft::ROOFS[0]),
            draft::spans(&mut self.random, draft::MULTI_SPAN, 2),
        ];
        let mut sheet = vec![0, 0];
        draft::noise(&mut self.random, &mut sheet, draft::MAX_SHEET - 2);
        sheet[..2].copy_from_slice(&(PAIRS as u16).to_le_bytes());
        for (index, item) in items.iter().enumerate() {
            sheet[PLACES[index]..][..item.len()].copy_from_slice(item);
            put_number(&mut sheet, 2 + 4 * index, PLACES[index] as u16);
            put_number(&mut sheet, 4 + 4 * index, item.len() as u16);
        }
        for (index, item) in items.iter().enumerate() {
            for number in 0..=u16::MAX {
                self.offset(&sheet, index, item, number);
                self.length(&sheet, index, number);
            }
        }
    }

    fn offset(&mut self, sheet: &[u8], index: usize, item: &[u8], offset: u16) {
        let mut moved = sheet.to_vec();
        let place = usize::from(offset);
        if (HEAD..=moved.len() - item.len()).contains(&place) {
            moved[place..][..item.len()].copy_from_slice(item);
        }
        put_number(&mut moved, 2 + 4 * index, offset);
        self.pair(&moved, index);
    }

    fn length(&mut self, sheet: &[u8], index: usize, length: u16) {
        let mut changed = sheet.to_vec();
        put_number(&mut changed, 4 + 4 * index, length);
        self.pair(&changed, index);
    }

    /// The verdict, and where it accepts a load that only the item in its place gives.
    fn pair(&mut self, sheet: &[u8], index: usize) {
        let asked = self.checker.verdict(sheet);
        self.checker.tally.pairs.asked += 1;
        if asked.count > 0 {
            self.checker.tally.pairs.accepted[index] += 1;
            self.checker.load(asked, index.max(1), 1, 0);
        }
    }
}

/// Writes a number of 16 bits.
pub fn put_number(sheet: &mut [u8], at: usize, number: u16) {
    sheet[at..at + 2].copy_from_slice(&number.to_le_bytes());
}
