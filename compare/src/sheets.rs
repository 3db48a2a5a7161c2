//! Sheets and stores that the tests put together.

use crate::store::{FIELDS, NUMBERS};

/// sk 1,000, Ce and Ct 1.0, Cesl 2.0, situation 0, 500 m.
pub const SITE: [u8; 14] = [1, 0xE8, 3, 0, 0, 100, 0, 100, 0, 200, 0, 0, 0xF4, 1];

/// Alpine Region, zone 2 and the rest as above, so sk is 1,903.
pub const MAP_SITE: [u8; 12] = [8, 1, 2, 100, 0, 100, 0, 200, 0, 0, 0xF4, 1];

/// Items one after the other, without gaps.
pub fn sheet(items: &[Vec<u8>]) -> Vec<u8> {
    let mut offset = 2 + 4 * items.len();
    let mut numbers = vec![items.len()];
    for item in items {
        numbers.extend([offset, item.len()]);
        offset += item.len();
    }
    let head = numbers
        .into_iter()
        .flat_map(|number| (number as u16).to_le_bytes());
    head.chain(items.concat()).collect()
}

/// The site and roofs behind it.
pub fn with_site(roofs: &[Vec<u8>]) -> Vec<u8> {
    sheet(&[&[SITE.to_vec()], roofs].concat())
}

/// An item that begins with fields of 32 bits.
pub fn words(kind: u8, words: &[u32]) -> Vec<u8> {
    let fields = words.iter().flat_map(|word| word.to_le_bytes());
    [kind].into_iter().chain(fields).collect()
}

/// Sets in a store, with numbers behind them that no set may have.
pub fn store(sets: &[[u32; FIELDS]]) -> Vec<u32> {
    let mut numbers = vec![sets.len() as u32];
    numbers.extend(sets.as_flattened());
    numbers.resize(NUMBERS, u32::MAX);
    numbers
}

/// A site with its job day.
pub fn dated(site: &[u8], day: u16) -> Vec<u8> {
    [site, &day.to_le_bytes()].concat()
}
