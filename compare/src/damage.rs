//! Sheets that break the rules, one at a time or several at once.

use crate::draft;
use crate::random::Random;

/// A sheet of sound items with one to three damages. Some of them leave it sound.
pub fn sheet(random: &mut Random, mut items: Vec<Vec<u8>>) -> Vec<u8> {
    let damages = 1 + [0, 0, 1, 2][random.below(4)];
    let on_bytes = (0..damages).filter(|_| random.once_in(3)).count();
    let target = random.below(items.len());
    for _ in on_bytes..damages {
        // Half of the time the same item, so that the order of its rules is met.
        let place = if random.once_in(2) {
            target
        } else {
            random.below(items.len())
        };
        let place = place.min(items.len() - 1);
        harm_items(random, &mut items, place);
    }
    items.truncate(draft::MAX_ITEMS);
    let mut sheet = draft::sheet(random, &items);
    for _ in 0..on_bytes {
        harm_bytes(random, &mut sheet);
    }
    sheet
}

fn harm_items(random: &mut Random, items: &mut Vec<Vec<u8>>, place: usize) {
    match random.below(18) {
        0..=2 => outside(random, &mut items[place]),
        3 => change_kind(random, &mut items[place]),
        4 => change_length(random, &mut items[place]),
        5 => misplace_site(random, items, place),
        6 => {
            let high = random.pick(&[1_501, 1_502, 0xFFFF]);
            let altitude = draft::altitude(&items[0]);
            draft::put(&mut items[0], altitude, high);
        }
        7 => items.push(bad_count(random)),
        8 => items.push(bad_valley(random)),
        9 | 10 => items[0] = off_map(random),
        11 => items.push(bad_drift(random)),
        12 => bad_situation(random, &mut items[0]),
        13 | 14 => items.push(bad_upper(random, items.len())),
        15 => circle(random, items),
        16 => items.push(bad_height(random)),
        _ => items.push(bad_arch(random)),
    }
}

/// One field just outside its range, or far off.
fn outside(random: &mut Random, item: &mut [u8]) {
    let fields = draft::fields(item);
    if fields.is_empty() {
        return;
    }
    let field = random.pick(&fields);
    let below = field.low.wrapping_sub(1);
    let value = random.pick(&[below, field.high + 1, field.high + 2, u32::MAX, 1 << 31]);
    draft::put(item, field, value);
}

fn change_kind(random: &mut Random, item: &mut [u8]) {
    if let Some(kind) = item.first_mut() {
        *kind = random.pick(&[0, 1, 2, 3, 4, 5, 6, 7, 8, 9, 10, 11, 12, 13, 128, 255]);
    }
}

fn change_length(random: &mut Random, item: &mut Vec<u8>) {
    match random.below(13) {
        0 => item.clear(),
        1 => item.truncate(1),
        2 => item.truncate(item.len().saturating_sub(1)),
        3 => item.push(0),
        // The lengths of the two sites, without a day and with one.
        4 => item.resize(12, 0),
        5 => item.resize(14, 0),
        6 => item.resize(16, 0),
        // The lengths of a parapet and of a small projection.
        7 => item.resize(13, 1),
        8 => item.resize(17, 1),
        // A day more, a span more, a valley more, or the last two.
        9 => draft::noise(random, item, 2),
        10 => draft::noise(random, item, 12),
        11 => draft::noise(random, item, 8),
        _ => draft::noise(random, item, 20),
    }
}

/// A later site, or a first item that is none.
fn misplace_site(random: &mut Random, items: &mut Vec<Vec<u8>>, place: usize) {
    let last = items.len() - 1;
    match random.below(4) {
        0 => items.swap(0, last),
        1 if last > 0 => drop(items.remove(0)),
        _ => {
            let site = draft::site(random);
            items.insert(place + 1, site);
        }
    }
}

/// Regions, zones and altitudes around the lightest and the heaviest load of the map.
const LOAD_EDGES: [(u32, u32, u32); 21] = [
    (4, 1, 0),
    (4, 1, 107),
    (4, 1, 108),
    (6, 1, 0),
    (6, 1, 16),
    (6, 1, 17),
    (8, 1, 0),
    (8, 1, 29),
    (8, 1, 30),
    (2, 3, 1_417),
    (2, 3, 1_418),
    (2, 3, 1_500),
    (2, 4, 1_220),
    (2, 4, 1_221),
    (2, 4, 1_500),
    (2, 5, 1_085),
    (2, 5, 1_086),
    (2, 5, 1_500),
    (5, 5, 1_426),
    (5, 5, 1_427),
    (5, 5, 1_500),
];

/// A map site with its region, its zone or its load outside, sometimes with a field that is
/// refused before them. Some loads are just inside.
fn off_map(random: &mut Random) -> Vec<u8> {
    let mut item = draft::item(random, draft::MAP_SITE);
    if random.once_in(2) {
        let (region, zone, altitude) = random.pick(&LOAD_EDGES);
        draft::place(&mut item, region, zone, altitude);
    }
    match random.below(4) {
        0 => {
            let region = random.pick(&[0, 9, 10, 128, 255]);
            draft::put(&mut item, draft::REGION, region);
        }
        1 => {
            let zone = random.pick(&[0, 6, 7, 128, 255]);
            draft::put(&mut item, draft::ZONE, zone);
        }
        2 => outside(random, &mut item),
        _ => {}
    }
    if random.once_in(6) {
        outside(random, &mut item);
    }
    item
}

/// A multi-span roof of either kind with a count outside 2..16, all else sound, whose length fits
/// the count or doesn't.
fn bad_count(random: &mut Random) -> Vec<u8> {
    let kind = random.pick(&draft::SPANNED);
    let count = random.pick(&[0, 1, 17, 18, 255]);
    let mut item = draft::any_spans(random, kind, count);
    match random.below(6) {
        0 => item[1] = random.byte(),
        1 => change_length(random, &mut item),
        2 => {
            let other = random.pick(&draft::SPANNED);
            item.resize(draft::spanned_length(other, count), 0);
        }
        _ => {}
    }
    item
}

/// A multi-span roof of either kind with steep slopes at a valley. 60.0° beside 59.9° is sound.
fn bad_valley(random: &mut Random) -> Vec<u8> {
    let kind = random.pick(&draft::SPANNED);
    let mut item = draft::item(random, kind);
    steepen(random, &mut item);
    if random.once_in(4) {
        outside(random, &mut item);
    }
    item
}

fn steepen(random: &mut Random, item: &mut [u8]) {
    let valleys = usize::from(item[1]) - 1;
    let (left, right) = draft::valley_fields(1 + random.below(valleys));
    let pair = random.pick(&[
        (600, 600),
        (601, 0),
        (0, 601),
        (599, 600),
        (600, 599),
        (800, 800),
        (600, 601),
    ]);
    draft::put(item, left, pair.0);
    draft::put(item, right, pair.1);
}

/// A valley whose depth or length is outside, sometimes with a steep one, which is refused later.
fn bad_drift(random: &mut Random) -> Vec<u8> {
    let mut item = draft::item(random, draft::DRIFT_ROOF);
    let spans = usize::from(item[1]);
    let figures = draft::drift_fields(spans, 1 + random.below(spans - 1));
    let field = random.pick(&figures);
    let value = random.pick(&[0, field.high + 1, 1 << 17, 1 << 31, u32::MAX]);
    draft::put(&mut item, field, value);
    if random.once_in(3) {
        steepen(random, &mut item);
    }
    item
}

/// A parapet or a small projection with a height outside its range, sometimes with another field
/// outside as well. 30,000 is sound for a parapet.
fn bad_height(random: &mut Random) -> Vec<u8> {
    let kind = random.pick(&[draft::PARAPET, draft::SMALL_PROJECTION]);
    let mut item = draft::item(random, kind);
    let [height, _] = random.pick(draft::steps_and_widths(kind));
    let value = random.pick(&[0, height.high + 1, 30_000, 1 << 17, 1 << 31, u32::MAX]);
    draft::put(&mut item, height, value);
    if random.once_in(6) {
        outside(random, &mut item);
    }
    item
}

/// Only where the first item is a site, as any other has other fields.
fn bad_situation(random: &mut Random, item: &mut [u8]) {
    if matches!(item.first(), Some(&draft::SITE | &draft::MAP_SITE)) {
        let number = random.pick(&[4, 5, 128, 255]);
        draft::put(item, draft::situation(item), number);
    }
}

/// A stepped roof under the site, itself, past the last item, or any item, sometimes with a field
/// outside its range as well.
fn bad_upper(random: &mut Random, count: usize) -> Vec<u8> {
    let any = random.below(count);
    let upper = random.pick(&[0, count, count + 1, draft::MAX_ITEMS, 255, any]);
    let mut item = draft::under(random, upper);
    if random.once_in(6) {
        outside(random, &mut item);
    }
    item
}

/// Stepped roofs in a circle, in the places of others. What stood under one of them leads into it.
fn circle(random: &mut Random, items: &mut [Vec<u8>]) {
    let mut places: Vec<_> = (1..items.len()).collect();
    random.shuffle(&mut places);
    places.truncate(1 + random.below(4));
    places.extend(places.first().copied());
    draft::chain(random, items, &places);
}

/// An arch that is too high, sometimes with a figure outside its range as well.
fn bad_arch(random: &mut Random) -> Vec<u8> {
    let mut item = draft::item(random, draft::CYLINDRICAL);
    let fields = draft::fields(&item);
    let rise = random.between(2, 15_000);
    let low = if random.once_in(2) { 2 * rise - 1 } else { 2 };
    draft::put(&mut item, fields[0], rise);
    draft::put(&mut item, fields[1], random.between(2, low.max(2)).max(low));
    if random.once_in(6) {
        outside(random, &mut item);
    }
    item
}

fn harm_bytes(random: &mut Random, sheet: &mut Vec<u8>) {
    match random.below(8) {
        0 | 1 => flip(random, sheet),
        2 => truncate(random, sheet),
        3 => extend(random, sheet),
        4 => change_count(random, sheet),
        _ => change_pair(random, sheet),
    }
}

/// Some bits or bytes anywhere, half of the time among the pairs.
fn flip(random: &mut Random, sheet: &mut [u8]) {
    for _ in 0..=random.below(3) {
        if sheet.is_empty() {
            return;
        }
        let most = if random.once_in(2) { 40 } else { sheet.len() };
        let place = random.below(sheet.len().min(most));
        if random.once_in(2) {
            sheet[place] ^= 1 << random.below(8);
        } else {
            sheet[place] = random.byte();
        }
    }
}

fn truncate(random: &mut Random, sheet: &mut Vec<u8>) {
    let length = match random.below(6) {
        0 => random.below(7),
        1 | 2 => sheet.len().saturating_sub(1 + random.below(3)),
        _ => random.below(sheet.len() + 1),
    };
    sheet.truncate(length);
}

/// More bytes at the end, also past the longest sheet.
fn extend(random: &mut Random, sheet: &mut Vec<u8>) {
    let left = draft::MAX_SHEET.saturating_sub(sheet.len());
    let more = random.pick(&[1, left, left + 1, left + 2, left + 60_000]);
    draft::noise(random, sheet, more);
}

fn change_count(random: &mut Random, sheet: &mut [u8]) {
    let Some(place) = sheet.get_mut(..2) else {
        return;
    };
    let count = u16::from_le_bytes([place[0], place[1]]);
    let changed = random.pick(&[
        0,
        count.wrapping_sub(1),
        count.wrapping_add(1),
        32,
        33,
        count | 0x100,
        0xFFFF,
    ]);
    place.copy_from_slice(&changed.to_le_bytes());
}

/// Pairs swapped, moved by a little, or thrown far off.
fn change_pair(random: &mut Random, sheet: &mut [u8]) {
    let count = usize::from(*sheet.first().unwrap_or(&0)).min(draft::MAX_ITEMS);
    if count == 0 || sheet.len() < 2 + 4 * count {
        return;
    }
    let place = 2 + 4 * random.below(count);
    if random.once_in(4) {
        let other = 2 + 4 * random.below(count);
        (0..4).for_each(|byte| sheet.swap(place + byte, other + byte));
        return;
    }
    let half = place + 2 * random.below(2);
    let value = u16::from_le_bytes([sheet[half], sheet[half + 1]]);
    let changed = random.pick(&[
        value.wrapping_sub(1),
        value.wrapping_add(1),
        value.wrapping_add(12),
        0,
        (2 + 4 * count) as u16,
        sheet.len() as u16,
        0xFFFF,
    ]);
    sheet[half..half + 2].copy_from_slice(&changed.to_le_bytes());
}
