//! Questions about request A6 alone: sheets at the quote desk's ceiling and beside it.

use second::calls::REFUSED;

use crate::draft;
use crate::fuzz::Fuzz;

/// Items and bytes at the desk's ceiling and beside it.
pub const ITEMS: [usize; 3] = [7, 8, 9];
pub const BYTES: [usize; 3] = [2_047, 2_048, 2_049];
/// How often each number of items is met with each number of bytes.
const ROUNDS: usize = 100;
/// The desk's answer to a sheet that is not for it: 1, item 0.
const OUTSIDE: u32 = REFUSED + 65_536;
/// Any reader's answer where the store is refused.
const STORE_REFUSED: u32 = REFUSED + 65_536 * 18;

/// The verdicts of a terminal and of the desk on the same sheet.
#[derive(Debug)]
pub struct Read {
    pub terminal: u32,
    desk: u32,
    items: usize,
    bytes: usize,
}

impl Read {
    pub fn new(sheet: &[u8], terminal: u32, desk: u32) -> Self {
        let count = sheet
            .first_chunk()
            .map_or(0, |&head| u16::from_le_bytes(head));
        Self {
            terminal,
            desk,
            items: count.into(),
            bytes: sheet.len(),
        }
    }

    pub fn is_inside(&self) -> bool {
        self.items <= ITEMS[1] && self.bytes <= BYTES[1]
    }

    /// Inside the ceiling the terminal's answer, outside of it the desk's own. The store comes first.
    pub fn is_right(&self) -> bool {
        let expected = if self.is_inside() || self.terminal == STORE_REFUSED {
            self.terminal
        } else {
            OUTSIDE
        };
        self.desk == expected
    }

    /// The places of its items and bytes among those at the ceiling.
    pub fn edge(&self) -> Option<(usize, usize)> {
        let items = ITEMS.iter().position(|&items| items == self.items)?;
        let bytes = BYTES.iter().position(|&bytes| bytes == self.bytes)?;
        Some((items, bytes))
    }
}

impl Fuzz {
    /// Every number of items with every number of bytes, sound and damaged.
    pub fn sweep_desk(&mut self) {
        for _ in 0..ROUNDS {
            for items in ITEMS {
                for bytes in BYTES {
                    let sheet = self.sheet_of(items, bytes);
                    self.checker.verdict(&sheet);
                    self.damaged(&sheet, items);
                }
            }
        }
    }

    /// A sheet of so many items and bytes.
    fn sheet_of(&mut self, count: usize, bytes: usize) -> Vec<u8> {
        loop {
            let items = draft::some_items(&mut self.random, count);
            let mut sheet = draft::packed(&mut self.random, &items);
            if let Some(left) = bytes.checked_sub(sheet.len()) {
                draft::noise(&mut self.random, &mut sheet, left);
                return sheet;
            }
        }
    }

    /// Each pair and each item damaged in turn: 1 comes before any of them.
    fn damaged(&mut self, sheet: &[u8], count: usize) {
        for item in 0..count {
            let pair = 2 + 4 * item;
            let offset = usize::from(u16::from_le_bytes([sheet[pair], sheet[pair + 1]]));
            let mut before = sheet.to_vec();
            before[pair..pair + 2].fill(0);
            self.checker.verdict(&before);
            let mut unknown = sheet.to_vec();
            unknown[offset] = 0;
            self.checker.verdict(&unknown);
        }
    }
}
