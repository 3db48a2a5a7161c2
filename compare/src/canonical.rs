//! One way to write a sheet (request A10): without gaps, items in their order, straight after the
//! pairs.

use crate::sheet::{number, part, Refusal, TERMINALS};
use crate::steps::Steps;

/// The items of an accepted sheet as its parts, or the refusal of the sheet or the store.
pub fn items<'a>(store: &[u32], sheet: &'a [u8]) -> Result<Vec<&'a [u8]>, Refusal> {
    let steps = Steps::of(store, sheet, TERMINALS, |_, _| ())?;
    Ok((0..steps.count()).map(|item| part(sheet, item)).collect())
}

/// Writes an accepted sheet in the one way at the front of `out`; its length. 11 comes after every
/// other rule and names item 0.
pub fn write(store: &[u32], sheet: &[u8], out: &mut [u8]) -> Result<u32, Refusal> {
    let bytes = put_together(&items(store, sheet)?);
    let front = out
        .get_mut(..bytes.len())
        .ok_or(Refusal::new(number::ROOM, 0))?;
    front.copy_from_slice(&bytes);
    Ok(bytes.len() as u32)
}

/// The count, an offset and a length for each item, and the items.
fn put_together(items: &[&[u8]]) -> Vec<u8> {
    let mut offset = 2 + 4 * items.len();
    let length = offset + items.iter().map(|item| item.len()).sum::<usize>();
    let mut bytes = Vec::with_capacity(length);
    put(&mut bytes, items.len());
    for item in items {
        put(&mut bytes, offset);
        put(&mut bytes, item.len());
        offset += item.len();
    }
    for item in items {
        bytes.extend_from_slice(item);
    }
    bytes
}

/// No number of a sheet has more than 16 bits.
fn put(bytes: &mut Vec<u8>, number: usize) {
    bytes.extend((number as u16).to_le_bytes());
}

#[cfg(test)]
mod tests {
    use crate::calls::{canonical, verdict, REFUSED};
    use crate::sheets::{self, dated, sheet, with_site, words, MAP_SITE, SITE};
    use crate::store::EMPTY;

    /// 11, item 0.
    const TOO_FEW: u32 = REFUSED + 65_536 * 11;

    /// A site and a monopitch roof of 30.0°, 5,000 wide. Two bytes lie before the site, one before
    /// the roof, and three behind it.
    const LOOSE: [u8; 38] = [
        2, 0, 12, 0, 14, 0, 27, 0, 8, 0, 0x11, 0x12, 1, 0xE8, 3, 0, 0, 100, 0, 100, 0, 200, 0, 0,
        0xF4, 1, 0x13, 2, 0x2C, 1, 0, 0x88, 0x13, 0, 0, 0x14, 0x15, 0x16,
    ];
    const TIGHT: [u8; 32] = [
        2, 0, 10, 0, 14, 0, 24, 0, 8, 0, 1, 0xE8, 3, 0, 0, 100, 0, 100, 0, 200, 0, 0, 0xF4, 1, 2,
        0x2C, 1, 0, 0x88, 0x13, 0, 0,
    ];

    /// The answer with so many bytes lent, and the lent bytes.
    fn written(sheet: &[u8], room: usize) -> (u32, Vec<u8>) {
        let mut out = vec![0xEE; room];
        (canonical(&EMPTY, sheet, &mut out), out)
    }

    /// The result with more bytes lent than any sheet has.
    fn result(sheet: &[u8]) -> Vec<u8> {
        let (length, mut out) = written(sheet, 16_385);
        assert!(length < REFUSED);
        out.truncate(length as usize);
        out
    }

    #[test]
    fn gaps_are_left_out() {
        assert_eq!(written(&LOOSE, 32), (32, TIGHT.to_vec()));
        assert_eq!(result(&TIGHT), TIGHT);
    }

    #[test]
    fn bytes_behind_the_result_stay() {
        for room in [33, 38, 39, 100] {
            let (length, out) = written(&LOOSE, room);
            assert_eq!(length, 32);
            assert_eq!(out[..32], TIGHT);
            assert!(out[32..].iter().all(|&byte| byte == 0xEE));
        }
    }

    #[test]
    fn too_few_bytes_are_refused_at_item_0() {
        for room in 0..32 {
            assert_eq!(written(&LOOSE, room), (TOO_FEW, vec![0xEE; room]));
            assert_eq!(written(&TIGHT, room), (TOO_FEW, vec![0xEE; room]));
        }
    }

    /// LOOSE with a byte changed.
    fn changed(place: usize, byte: u8) -> Vec<u8> {
        let mut sheet = LOOSE.to_vec();
        sheet[place] = byte;
        sheet
    }

    /// A map site alone: its region, zone and altitude.
    fn on_map(region: u8, zone: u8, altitude: u16) -> Vec<u8> {
        let mut site = MAP_SITE.to_vec();
        site[1..3].copy_from_slice(&[region, zone]);
        site[10..].copy_from_slice(&altitude.to_le_bytes());
        sheet(&[site])
    }

    /// A sheet for each number, and the item that it names.
    fn refused_sheets() -> Vec<(u32, u32, Vec<u8>)> {
        let roof = |kind, figures: &[u32]| with_site(&[words(kind, figures)]);
        let stepped = |upper| with_site(&[[words(10, &[1, 1]), vec![upper, 0]].concat()]);
        let spans = [0x58, 2, 0x58, 2, 1, 0, 0, 0, 1, 0, 0, 0].repeat(2);
        vec![
            (1, 0, LOOSE[..9].to_vec()),
            (2, 0, changed(2, 9)),
            (3, 1, roof(13, &[])),
            (4, 1, roof(5, &[1])),
            (5, 0, sheet(&[words(5, &[1, 2])])),
            (6, 0, changed(17, 121)),
            (7, 0, changed(25, 6)),
            (8, 1, roof(5, &[0, 2])),
            (9, 1, with_site(&[[vec![4, 2], spans].concat()])),
            (10, 1, roof(5, &[1_001, 2_000])),
            (14, 0, on_map(9, 1, 500)),
            (15, 0, on_map(4, 1, 0)),
            (16, 1, stepped(0)),
            (17, 1, stepped(1)),
            (19, 0, sheet(&[dated(&SITE, 65_535)])),
        ]
    }

    /// Each with no bytes lent, with few and with more than enough.
    #[test]
    fn every_other_rule_comes_first() {
        for (number, item, sheet) in refused_sheets() {
            let refusal = REFUSED + 65_536 * number + item;
            assert_eq!(verdict(&EMPTY, &sheet), refusal);
            for room in [0, 1, 38, 200] {
                assert_eq!(written(&sheet, room), (refusal, vec![0xEE; room]));
            }
        }
        let mut out = [0xEE; 40];
        let refusal = REFUSED + 65_536 * 18;
        assert_eq!(canonical(&EMPTY[1..], &LOOSE, &mut out), refusal);
        assert_eq!(canonical(&EMPTY[1..], &LOOSE, &mut []), refusal);
        assert_eq!(out, [0xEE; 40]);
    }

    /// A day is part of its item, and the store that the job is read with plays no part.
    #[test]
    fn a_dated_site_keeps_its_day() {
        let store = sheets::store(&[[7, 200, 80, 400, 5_000, 15_000]]);
        let site = dated(&SITE, 0x0107);
        let mut loose = vec![1, 0, 7, 0, 16, 0, 0xAB];
        loose.extend(&site);
        loose.push(0xCD);
        let mut out = [0xEE; 24];
        assert_eq!(canonical(&store, &loose, &mut out), 22);
        assert_eq!(out[..22], sheet(&[site]));
        assert_eq!(out[22..], [0xEE; 2]);
    }

    /// A roof before its upper item, which is listed first, stays before it.
    #[test]
    fn items_keep_their_order() {
        let stepped = [words(10, &[1, 1]), vec![2, 0]].concat();
        let roofs = [stepped, vec![2, 0x2C, 1, 0, 0x88, 0x13, 0, 0]];
        let tight = with_site(&roofs);
        let mut loose = tight.clone();
        loose.extend([1, 2, 3]);
        assert_eq!(result(&loose), tight);
    }

    /// Exchanged, changed in one bit, and one fewer.
    #[test]
    fn other_items_give_other_bytes() {
        let roofs = [words(5, &[1, 2]), words(5, &[1, 3])];
        let [first, other] = &roofs;
        let pairs = [[first, other], [other, first], [first, first]];
        let results = pairs.map(|pair| result(&with_site(&pair.map(Clone::clone))));
        assert_ne!(results[0], results[1]);
        assert_ne!(results[0], results[2]);
        assert_ne!(results[0], result(&with_site(&roofs[..1])));
    }

    /// Items of the longest result, and the longest sheet.
    #[test]
    fn the_longest_sheets() {
        let mut roof = vec![9, 16];
        roof.extend([0, 0, 0, 0, 1, 0, 0, 0, 1, 0, 0, 0].repeat(16));
        roof.extend([1, 0, 0, 0, 1, 0, 0, 0].repeat(15));
        let tight = with_site(&vec![roof; 31]);
        assert_eq!(tight.len(), 130 + 14 + 31 * 314);
        let mut loose = tight.clone();
        loose.resize(16_384, 0xAB);
        let needed = tight.len();
        assert_eq!(written(&loose, needed), (needed as u32, tight));
        let few = needed - 1;
        assert_eq!(written(&loose, few), (TOO_FEW, vec![0xEE; few]));
    }
}
