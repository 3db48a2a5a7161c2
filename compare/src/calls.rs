//! The twelve calls with the same answers as the C calls of the library.

use crate::arrangement::Arrangement;
use crate::board::Board;
use crate::canonical;
use crate::forces;
use crate::ground;
use crate::listing;
use crate::loads::Tenths;
use crate::sheet::{number, Ceiling, Item, Refusal, Roof, Site, DESK, TERMINALS};
use crate::steps::Steps;
use crate::store;

/// A refusal is this plus 65,536 × number plus the item; an index above 65,535 shows as 65,535.
pub const REFUSED: u32 = 0x8000_0000;
/// The answer where there is no such force.
pub const NONE: u32 = u32::MAX;
/// The least room for a listing.
pub const LIST_ROOM: usize = listing::ROOM;

/// The site, and the roof asked for unless the item is the site itself.
pub type Asked = (Site, Option<Roof>);

/// The count of a sheet's items, or a refusal.
pub fn verdict(store: &[u32], sheet: &[u8]) -> u32 {
    answer(count(store, sheet, TERMINALS))
}

/// The same, as the quote desk reads it.
pub fn desk_verdict(store: &[u32], sheet: &[u8]) -> u32 {
    answer(count(store, sheet, DESK))
}

/// Writes an arrangement's segments, four numbers each; their count, or a refusal.
pub fn make(store: &[u32], sheet: &[u8], item: usize, code: u8, out: &mut [u32]) -> u32 {
    answer(try_make(store, sheet, item, code, out))
}

/// The count of an arrangement's segments, or a refusal.
pub fn segment_count(store: &[u32], sheet: &[u8], item: usize, code: u8) -> u32 {
    let board = board(store, sheet, item, code);
    answer(board.map(|board| board.count() as u32))
}

/// Writes the segment of an index, four numbers, at the front of `out`; 4, or a refusal, which
/// alters nothing.
pub fn segment(
    store: &[u32],
    sheet: &[u8],
    item: usize,
    code: u8,
    index: usize,
    out: &mut [u32],
) -> u32 {
    answer(try_segment(store, sheet, item, code, index, out))
}

/// The load at a station, or a refusal.
pub fn load(store: &[u32], sheet: &[u8], item: usize, code: u8, station: u32) -> u32 {
    answer(try_load(store, sheet, item, code, station))
}

/// The overhang at the eave of a slope, `NONE`, or a refusal.
pub fn overhang(store: &[u32], sheet: &[u8], item: usize, slope: u8) -> u32 {
    answer(force(store, sheet, item, slope, forces::overhang))
}

/// The force at the guard of a slope, `NONE`, or a refusal.
pub fn guard_force(store: &[u32], sheet: &[u8], item: usize, slope: u8) -> u32 {
    answer(force(store, sheet, item, slope, forces::guard_force))
}

/// Writes the listing at the front of `out`; its bytes. Too little room gives 0.
pub fn list(store: &[u32], sheet: &[u8], out: &mut [u8]) -> usize {
    if out.len() < LIST_ROOM {
        return 0;
    }
    let mut text = Vec::new();
    listing::list(store, sheet, &mut text);
    out[..text.len()].copy_from_slice(&text);
    text.len()
}

/// Writes a sheet in the one way at the front of `out`; its length, or a refusal, which alters
/// nothing.
pub fn canonical(store: &[u32], sheet: &[u8], out: &mut [u8]) -> u32 {
    answer(canonical::write(store, sheet, out))
}

/// Puts a set behind the last one of a store; the new count, or a refusal, which alters nothing.
pub fn add_set(store: &mut [u32], set: &[u32]) -> u32 {
    answer(store::add(store, set))
}

/// The ground load of a place on the map, or a refusal, which names item 0.
pub fn ground_load(region: u8, zone: u8, altitude: u16) -> u32 {
    let load = ground::load(region, zone, altitude);
    answer(load.map_err(|number| Refusal::new(number, 0)))
}

/// The number of a refusal and the item that it names.
pub fn refusal_parts(code: u32) -> (u32, u32) {
    ((code - REFUSED) / 65_536, code % 65_536)
}

fn answer(result: Result<u32, Refusal>) -> u32 {
    result.unwrap_or_else(|refusal| {
        let item = refusal.item.min(65_535) as u32;
        REFUSED + 65_536 * u32::from(refusal.number) + item
    })
}

fn count(store: &[u32], sheet: &[u8], ceiling: Ceiling) -> Result<u32, Refusal> {
    let steps = Steps::of(store, sheet, ceiling, |_, _| ())?;
    Ok(steps.count() as u32)
}

/// The figures of an item. Every rule on the store and the sheet comes before the index asked for.
pub fn ask(store: &[u32], sheet: &[u8], index: usize) -> Result<Asked, Refusal> {
    let mut site = None;
    let mut wanted = None;
    let steps = Steps::of(store, sheet, TERMINALS, |place, item| {
        if let Item::Site(found) = item {
            site = Some(*found);
        }
        if place == index {
            wanted = Some(*item);
        }
    })?;
    let wanted = wanted.ok_or(Refusal::new(number::PAST_END, index))?;
    Ok((site.expect("the first item is a site"), steps.roof(&wanted)))
}

fn arrangement(
    store: &[u32],
    sheet: &[u8],
    item: usize,
    code: u8,
) -> Result<Arrangement<Tenths>, Refusal> {
    let (site, roof) = ask(store, sheet, item)?;
    roof.and_then(|roof| Arrangement::of(&site, &roof, code))
        .ok_or(Refusal::new(number::NOT_MADE, item))
}

fn try_make(
    store: &[u32],
    sheet: &[u8],
    item: usize,
    code: u8,
    out: &mut [u32],
) -> Result<u32, Refusal> {
    let made = arrangement(store, sheet, item, code)?;
    let stretches = made.stretches();
    let room = out
        .get_mut(..4 * stretches.len())
        .ok_or(Refusal::new(number::ROOM, item))?;
    for (place, stretch) in room.chunks_exact_mut(4).zip(stretches) {
        place.copy_from_slice(&stretch.segment());
    }
    Ok(stretches.len() as u32)
}

fn board(store: &[u32], sheet: &[u8], item: usize, code: u8) -> Result<Board, Refusal> {
    let (site, roof) = ask(store, sheet, item)?;
    roof.and_then(|roof| Board::of(site, roof, code))
        .ok_or(Refusal::new(number::NOT_MADE, item))
}

fn try_segment(
    store: &[u32],
    sheet: &[u8],
    item: usize,
    code: u8,
    index: usize,
    out: &mut [u32],
) -> Result<u32, Refusal> {
    let segment = board(store, sheet, item, code)?
        .segment(index)
        .ok_or(Refusal::new(number::PAST_END, item))?;
    let front = out
        .first_chunk_mut()
        .ok_or(Refusal::new(number::ROOM, item))?;
    *front = segment;
    Ok(segment.len() as u32)
}

fn try_load(
    store: &[u32],
    sheet: &[u8],
    item: usize,
    code: u8,
    station: u32,
) -> Result<u32, Refusal> {
    arrangement(store, sheet, item, code)?
        .reading(station)
        .ok_or(Refusal::new(number::PAST_END, item))
}

fn force(
    store: &[u32],
    sheet: &[u8],
    item: usize,
    slope: u8,
    rule: fn(&Site, &Roof, u8) -> Option<u32>,
) -> Result<u32, Refusal> {
    let (site, roof) = ask(store, sheet, item)?;
    let force = roof.and_then(|roof| rule(&site, &roof, slope));
    Ok(force.unwrap_or(NONE))
}

#[cfg(test)]
mod tests {
    use super::*;
    use crate::sheets::{with_site, words};
    use crate::store::EMPTY;

    /// A site alone.
    const SHEET: [u8; 20] = [
        1, 0, 6, 0, 14, 0, 1, 0xE8, 3, 0, 0, 100, 0, 100, 0, 200, 0, 0, 0xF4, 1,
    ];

    #[test]
    fn an_index_comes_back_whole_up_to_65_535() {
        let codes = [
            (1, 0x800C_0001),
            (255, 0x800C_00FF),
            (256, 0x800C_0100),
            (65_534, 0x800C_FFFE),
            (65_535, 0x800C_FFFF),
            (65_536, 0x800C_FFFF),
            (1 << 32, 0x800C_FFFF),
            (usize::MAX, 0x800C_FFFF),
        ];
        for (index, code) in codes {
            assert_eq!(load(&EMPTY, &SHEET, index, 1, 0), code, "index {index}");
            assert_eq!(
                make(&EMPTY, &SHEET, index, 1, &mut []),
                code,
                "index {index}"
            );
            assert_eq!(overhang(&EMPTY, &SHEET, index, 1), code, "index {index}");
            assert_eq!(guard_force(&EMPTY, &SHEET, index, 1), code, "index {index}");
        }
    }

    #[test]
    fn a_refusal_has_its_number_above_the_item() {
        assert_eq!(verdict(&EMPTY, &SHEET), 1);
        assert_eq!(verdict(&EMPTY, &[]), 0x8001_0000);
        assert_eq!(load(&EMPTY, &SHEET, 0, 1, 0), 0x800D_0000);
        assert_eq!(refusal_parts(0x800C_FFFE), (12, 65_534));
    }

    /// Sheets with the site in front, so many cylindrical roofs and so many bytes behind them.
    fn with_roofs(roofs: usize, tail: usize) -> Vec<u8> {
        let mut sheet = with_site(&vec![words(5, &[1, 2]); roofs]);
        sheet.resize(sheet.len() + tail, 0);
        sheet
    }

    /// The quote desk reads 8 items and 2,048 bytes. 1 comes before 2, for either caller.
    #[test]
    fn the_desk_has_a_ceiling_of_its_own() {
        for roofs in 0..32 {
            let sheet = with_roofs(roofs, 0);
            let count = 1 + roofs as u32;
            assert_eq!(verdict(&EMPTY, &sheet), count);
            let desk = if count <= 8 { count } else { 0x8001_0000 };
            assert_eq!(desk_verdict(&EMPTY, &sheet), desk);
        }
        let bytes = with_roofs(7, 0).len();
        assert_eq!(desk_verdict(&EMPTY, &with_roofs(7, 2_047 - bytes)), 8);
        assert_eq!(desk_verdict(&EMPTY, &with_roofs(7, 2_048 - bytes)), 8);
        assert_eq!(
            desk_verdict(&EMPTY, &with_roofs(7, 2_049 - bytes)),
            0x8001_0000
        );
        assert_eq!(verdict(&EMPTY, &with_roofs(7, 2_049 - bytes)), 8);
        let mut overlapping = with_roofs(8, 0);
        overlapping[6] = 0;
        assert_eq!(verdict(&EMPTY, &overlapping), 0x8002_0001);
        assert_eq!(desk_verdict(&EMPTY, &overlapping), 0x8001_0000);
        assert_eq!(desk_verdict(&EMPTY, &[]), 0x8001_0000);
    }

    /// A map site alone: Alpine Region, zone 2, 500 m.
    const MAP_SHEET: [u8; 18] = [
        1, 0, 6, 0, 12, 0, 8, 1, 2, 100, 0, 100, 0, 200, 0, 0, 0xF4, 1,
    ];

    fn changed(changes: &[(usize, u8)]) -> [u8; 18] {
        let mut sheet = MAP_SHEET;
        for &(place, value) in changes {
            sheet[place] = value;
        }
        sheet
    }

    #[test]
    fn a_map_site_stands_in_front() {
        assert_eq!(verdict(&EMPTY, &MAP_SHEET), 1);
        // Not of its length, as an item of kind 1, and behind another site.
        assert_eq!(verdict(&EMPTY, &changed(&[(4, 11)])), 0x8004_0000);
        assert_eq!(verdict(&EMPTY, &changed(&[(6, 1)])), 0x8004_0000);
        for (kind, number) in [(0, 3), (8, 5), (10, 4), (11, 4), (12, 4), (13, 3), (255, 3)] {
            let mut sheet = vec![2, 0, 10, 0, 12, 0, 22, 0, 12, 0];
            sheet.extend(&MAP_SHEET[6..]);
            sheet.extend(&MAP_SHEET[6..]);
            sheet[22] = kind;
            assert_eq!(verdict(&EMPTY, &sheet), REFUSED + 65_536 * number + 1);
        }
    }

    /// Exposure, altitude, zone and load are wrong at first, then one less each time.
    #[test]
    fn a_map_site_is_refused_in_order() {
        let light = [(7, 8), (8, 1), (16, 0), (17, 0)];
        let off = [(7, 8), (8, 0), (16, 0), (17, 0)];
        let high = [(7, 8), (8, 0), (16, 0xDD), (17, 5)];
        let open = [(9, 121), (8, 0), (16, 0xDD), (17, 5)];
        let numbers = [open, high, off, light].map(|wrong| verdict(&EMPTY, &changed(&wrong)));
        assert_eq!(
            numbers,
            [0x8006_0000, 0x8007_0000, 0x800E_0000, 0x800F_0000]
        );
        assert_eq!(verdict(&EMPTY, &changed(&[(7, 0)])), 0x800E_0000);
        assert_eq!(verdict(&EMPTY, &changed(&[(7, 9)])), 0x800E_0000);
        assert_eq!(verdict(&EMPTY, &changed(&[(8, 6)])), 0x800E_0000);
    }

    /// Situations 0 to 3 on both kinds of sites, and the altitude refused behind the situation.
    #[test]
    fn a_situation_is_at_most_3() {
        for situation in 0..=255 {
            let answer = if situation > 3 { 0x8006_0000 } else { 1 };
            let mut sheet = SHEET;
            sheet[17] = situation;
            assert_eq!(verdict(&EMPTY, &sheet), answer);
            assert_eq!(verdict(&EMPTY, &changed(&[(15, situation)])), answer);
        }
        assert_eq!(
            verdict(&EMPTY, &changed(&[(15, 4), (17, 0xFF)])),
            0x8006_0000
        );
    }

    /// In the site's place a roof of kind 9 is refused by 5 where its length fits, else by 4.
    #[test]
    fn a_roof_with_drifts_stands_behind_the_site() {
        for (count, length, number) in [(1, 14, 5), (2, 34, 5), (0, 14, 4), (1, 13, 4), (2, 14, 4)]
        {
            let mut sheet = vec![1, 0, 6, 0, length, 0, 9, count];
            sheet.resize(6 + usize::from(length), 0);
            assert_eq!(verdict(&EMPTY, &sheet), REFUSED + 65_536 * number);
        }
    }

    #[test]
    fn a_ground_load_is_refused_in_order() {
        assert_eq!(ground_load(1, 2, 500), 1_903);
        assert_eq!(ground_load(0, 0, 1_501), 0x8007_0000);
        assert_eq!(ground_load(0, 1, 1_500), 0x800E_0000);
        assert_eq!(ground_load(9, 1, 0), 0x800E_0000);
        assert_eq!(ground_load(8, 0, 0), 0x800E_0000);
        assert_eq!(ground_load(2, 6, 1_500), 0x800E_0000);
        assert_eq!(ground_load(8, 1, 0), 0x800F_0000);
        assert_eq!(ground_load(2, 5, 1_500), 0x800F_0000);
    }
}
