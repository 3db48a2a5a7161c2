//! The twelve calls as safe functions.

/// A number of bytes that holds the listing of any sheet.
pub const LIST_ROOM: usize = 267_373;

/// A number of bytes that holds any sheet.
pub const SHEET_BYTES: usize = 16_384;

/// Numbers of a store of national figures: the count of its sets, then six numbers a set.
pub const STORE_NUMBERS: usize = 193;

/// A store without sets.
pub const EMPTY_STORE: [u32; STORE_NUMBERS] = [0; STORE_NUMBERS];

const REFUSED: u32 = 0x8000_0000;
const NONE: u32 = u32::MAX;

/// What a call answers.
#[derive(Clone, Copy, Debug, PartialEq, Eq)]
pub enum Answer {
    /// A count, a load in N/m² or a force in N/m.
    Value(u32),
    /// There is no such force.
    None,
    /// Why there is no answer, and at which item; an index above 65,535 shows as 65,535.
    Refused { number: u32, item: u32 },
}

impl Answer {
    pub fn refused(number: u32, item: usize) -> Self {
        let item = item.min(65_535) as u32;
        Self::Refused { number, item }
    }

    pub fn value(self) -> Option<u32> {
        match self {
            Self::Value(value) => Some(value),
            _ => None,
        }
    }

    /// The text of the answer, a value with its unit.
    pub fn with_unit(self, unit: &str) -> String {
        match self {
            Self::Value(value) => format!("{value} {unit}"),
            Self::None => "none".to_string(),
            Self::Refused { number, item } => format!("refused {number} item {item}"),
        }
    }
}

/// The number `NONE` is tested first: it lies above `REFUSED` and is no refusal.
impl From<u32> for Answer {
    fn from(answer: u32) -> Self {
        match answer {
            NONE => Self::None,
            0..REFUSED => Self::Value(answer),
            _ => Self::Refused {
                number: (answer - REFUSED) / 65_536,
                item: (answer - REFUSED) % 65_536,
            },
        }
    }
}

/// The calls as the header has them. Each with a sheet or a store owes pointers that are not null and
/// aligned, with the lengths given, and memory lent for writing that overlaps nothing else. Slices
/// promise all of it.
mod ffi {
    extern "C" {
        pub fn snow_add_set(store: *mut u32, numbers: usize, set: *const u32, fields: usize)
            -> u32;
        pub fn snow_verdict(
            store: *const u32,
            numbers: usize,
            sheet: *const u8,
            length: usize,
        ) -> u32;
        pub fn snow_desk_verdict(
            store: *const u32,
            numbers: usize,
            sheet: *const u8,
            length: usize,
        ) -> u32;
        pub fn snow_make(
            store: *const u32,
            numbers: usize,
            sheet: *const u8,
            length: usize,
            item: usize,
            code: u8,
            out: *mut u32,
            room: usize,
        ) -> u32;
        pub fn snow_segment_count(
            store: *const u32,
            numbers: usize,
            sheet: *const u8,
            length: usize,
            item: usize,
            code: u8,
        ) -> u32;
        pub fn snow_segment(
            store: *const u32,
            numbers: usize,
            sheet: *const u8,
            length: usize,
            item: usize,
            code: u8,
            index: usize,
            out: *mut u32,
            room: usize,
        ) -> u32;
        pub fn snow_load(
            store: *const u32,
            numbers: usize,
            sheet: *const u8,
            length: usize,
            item: usize,
            code: u8,
            station: u32,
        ) -> u32;
        pub fn snow_overhang(
            store: *const u32,
            numbers: usize,
            sheet: *const u8,
            length: usize,
            item: usize,
            slope: u8,
        ) -> u32;
        pub fn snow_guard_force(
            store: *const u32,
            numbers: usize,
            sheet: *const u8,
            length: usize,
            item: usize,
            slope: u8,
        ) -> u32;
        pub fn snow_list(
            store: *const u32,
            numbers: usize,
            sheet: *const u8,
            length: usize,
            out: *mut u8,
            room: usize,
        ) -> usize;
        pub fn snow_canonical(
            store: *const u32,
            numbers: usize,
            sheet: *const u8,
            length: usize,
            out: *mut u8,
            room: usize,
        ) -> u32;
        pub fn snow_ground_load(region: u8, zone: u8, altitude: u16) -> u32;
    }
}

/// Puts a set of six numbers behind the last one of a store; the new count.
pub fn add_set(store: &mut [u32], set: &[u32]) -> Answer {
    let (numbers, store) = (store.len(), store.as_mut_ptr());
    // SAFETY: both slices have the lengths given, and the store is borrowed alone.
    unsafe { ffi::snow_add_set(store, numbers, set.as_ptr(), set.len()) }.into()
}

/// The count of a sheet's items.
pub fn verdict(store: &[u32], sheet: &[u8]) -> Answer {
    let (numbers, store) = (store.len(), store.as_ptr());
    // SAFETY: both slices have the lengths given.
    unsafe { ffi::snow_verdict(store, numbers, sheet.as_ptr(), sheet.len()) }.into()
}

/// The same for the quote desk, which takes at most 8 items and 2,048 bytes.
pub fn desk_verdict(store: &[u32], sheet: &[u8]) -> Answer {
    let (numbers, store) = (store.len(), store.as_ptr());
    // SAFETY: both slices have the lengths given.
    unsafe { ffi::snow_desk_verdict(store, numbers, sheet.as_ptr(), sheet.len()) }.into()
}

/// Writes the segments of an arrangement at the front of `out`, four numbers each; their count.
pub fn make(store: &[u32], sheet: &[u8], item: usize, code: u8, out: &mut [u32]) -> Answer {
    let (numbers, store) = (store.len(), store.as_ptr());
    let (length, sheet) = (sheet.len(), sheet.as_ptr());
    let (room, out) = (out.len(), out.as_mut_ptr());
    // SAFETY: the slices have the lengths given, and the one written to is borrowed alone.
    unsafe { ffi::snow_make(store, numbers, sheet, length, item, code, out, room) }.into()
}

/// The count of segments of an arrangement.
pub fn segment_count(store: &[u32], sheet: &[u8], item: usize, code: u8) -> Answer {
    let (numbers, store) = (store.len(), store.as_ptr());
    let (length, sheet) = (sheet.len(), sheet.as_ptr());
    // SAFETY: both slices have the lengths given.
    unsafe { ffi::snow_segment_count(store, numbers, sheet, length, item, code) }.into()
}

/// Writes one segment by its index to the first four numbers of `out`; 4.
pub fn segment(
    store: &[u32],
    sheet: &[u8],
    item: usize,
    code: u8,
    index: usize,
    out: &mut [u32],
) -> Answer {
    let (numbers, store) = (store.len(), store.as_ptr());
    let (length, sheet) = (sheet.len(), sheet.as_ptr());
    let (room, out) = (out.len(), out.as_mut_ptr());
    // SAFETY: the slices have the lengths given, and the one written to is borrowed alone.
    unsafe { ffi::snow_segment(store, numbers, sheet, length, item, code, index, out, room) }.into()
}

/// The load at a station, in whole N/m².
pub fn load(store: &[u32], sheet: &[u8], item: usize, code: u8, station: u32) -> Answer {
    let (numbers, store) = (store.len(), store.as_ptr());
    let (length, sheet) = (sheet.len(), sheet.as_ptr());
    // SAFETY: both slices have the lengths given.
    unsafe { ffi::snow_load(store, numbers, sheet, length, item, code, station) }.into()
}

/// The overhang at the eave of a slope, in N/m; either eave of a pitched roof has that of the larger of its two loads.
pub fn overhang(store: &[u32], sheet: &[u8], item: usize, slope: u8) -> Answer {
    let (numbers, store) = (store.len(), store.as_ptr());
    let (length, sheet) = (sheet.len(), sheet.as_ptr());
    // SAFETY: both slices have the lengths given.
    unsafe { ffi::snow_overhang(store, numbers, sheet, length, item, slope) }.into()
}

/// The force at the guard of a slope, in N/m.
pub fn guard_force(store: &[u32], sheet: &[u8], item: usize, slope: u8) -> Answer {
    let (numbers, store) = (store.len(), store.as_ptr());
    let (length, sheet) = (sheet.len(), sheet.as_ptr());
    // SAFETY: both slices have the lengths given.
    unsafe { ffi::snow_guard_force(store, numbers, sheet, length, item, slope) }.into()
}

/// Writes the listing at the front of `out`; its bytes, or 0 where `out` is shorter than `LIST_ROOM`.
pub fn list(store: &[u32], sheet: &[u8], out: &mut [u8]) -> usize {
    let (numbers, store) = (store.len(), store.as_ptr());
    let (room, out) = (out.len(), out.as_mut_ptr());
    // SAFETY: the slices have the lengths given, and the one written to is borrowed alone.
    unsafe { ffi::snow_list(store, numbers, sheet.as_ptr(), sheet.len(), out, room) }
}

/// Writes a sheet in the one way at the front of `out`; the length of the result.
pub fn canonical(store: &[u32], sheet: &[u8], out: &mut [u8]) -> Answer {
    let (numbers, store) = (store.len(), store.as_ptr());
    let (length, sheet) = (sheet.len(), sheet.as_ptr());
    let (room, out) = (out.len(), out.as_mut_ptr());
    // SAFETY: the slices have the lengths given, and the one written to is borrowed alone.
    unsafe { ffi::snow_canonical(store, numbers, sheet, length, out, room) }.into()
}

/// The ground load sk of a map site, in N/m².
pub fn ground_load(region: u8, zone: u8, altitude: u16) -> Answer {
    // SAFETY: the call takes numbers alone.
    unsafe { ffi::snow_ground_load(region, zone, altitude) }.into()
}
