//! The twelve C calls of the library behind safe functions.

mod raw {
    #[link(name = "terminal", kind = "static")]
    extern "C" {
        pub fn snow_add_set(store: *mut u32, numbers: usize, set: *const u32, fields: usize)
            -> u32;
        pub fn snow_verdict(
            store: *const u32,
            numbers: usize,
            sheet: *const u8,
            length: usize,
        ) -> u32;
        pub fn snow_desk_verdict(
            store: *const u32,
            numbers: usize,
            sheet: *const u8,
            length: usize,
        ) -> u32;
        pub fn snow_make(
            store: *const u32,
            numbers: usize,
            sheet: *const u8,
            length: usize,
            item: usize,
            code: u8,
            out: *mut u32,
            room: usize,
        ) -> u32;
        pub fn snow_segment_count(
            store: *const u32,
            numbers: usize,
            sheet: *const u8,
            length: usize,
            item: usize,
            code: u8,
        ) -> u32;
        pub fn snow_segment(
            store: *const u32,
            numbers: usize,
            sheet: *const u8,
            length: usize,
            item: usize,
            code: u8,
            index: usize,
            out: *mut u32,
            room: usize,
        ) -> u32;
        pub fn snow_load(
            store: *const u32,
            numbers: usize,
            sheet: *const u8,
            length: usize,
            item: usize,
            code: u8,
            station: u32,
        ) -> u32;
        pub fn snow_overhang(
            store: *const u32,
            numbers: usize,
            sheet: *const u8,
            length: usize,
            item: usize,
            slope: u8,
        ) -> u32;
        pub fn snow_guard_force(
            store: *const u32,
            numbers: usize,
            sheet: *const u8,
            length: usize,
            item: usize,
            slope: u8,
        ) -> u32;
        pub fn snow_list(
            store: *const u32,
            numbers: usize,
            sheet: *const u8,
            length: usize,
            out: *mut u8,
            room: usize,
        ) -> usize;
        pub fn snow_canonical(
            store: *const u32,
            numbers: usize,
            sheet: *const u8,
            length: usize,
            out: *mut u8,
            room: usize,
        ) -> u32;
        pub fn snow_ground_load(region: u8, zone: u8, altitude: u16) -> u32;
    }
}

// Each call with a sheet or a store owes pointers that are not null, have the length given and overlap nothing
// that is written. Slices promise all of that.

pub fn add_set(store: &mut [u32], set: &[u32]) -> u32 {
    let (numbers, store) = (store.len(), store.as_mut_ptr());
    // SAFETY: both slices have the lengths given, and the store is borrowed alone.
    unsafe { raw::snow_add_set(store, numbers, set.as_ptr(), set.len()) }
}

pub fn verdict(store: &[u32], sheet: &[u8]) -> u32 {
    let (numbers, store) = (store.len(), store.as_ptr());
    // SAFETY: both slices have the lengths given.
    unsafe { raw::snow_verdict(store, numbers, sheet.as_ptr(), sheet.len()) }
}

pub fn desk_verdict(store: &[u32], sheet: &[u8]) -> u32 {
    let (numbers, store) = (store.len(), store.as_ptr());
    // SAFETY: both slices have the lengths given.
    unsafe { raw::snow_desk_verdict(store, numbers, sheet.as_ptr(), sheet.len()) }
}

pub fn make(store: &[u32], sheet: &[u8], item: usize, code: u8, out: &mut [u32]) -> u32 {
    let (numbers, store) = (store.len(), store.as_ptr());
    let (length, sheet) = (sheet.len(), sheet.as_ptr());
    let (room, out) = (out.len(), out.as_mut_ptr());
    // SAFETY: the slices have the lengths given, and the one written to is borrowed alone.
    unsafe { raw::snow_make(store, numbers, sheet, length, item, code, out, room) }
}

pub fn segment_count(store: &[u32], sheet: &[u8], item: usize, code: u8) -> u32 {
    let (numbers, store) = (store.len(), store.as_ptr());
    // SAFETY: both slices have the lengths given.
    unsafe { raw::snow_segment_count(store, numbers, sheet.as_ptr(), sheet.len(), item, code) }
}

pub fn segment(
    store: &[u32],
    sheet: &[u8],
    item: usize,
    code: u8,
    index: usize,
    out: &mut [u32],
) -> u32 {
    let (numbers, store) = (store.len(), store.as_ptr());
    let (length, sheet) = (sheet.len(), sheet.as_ptr());
    let (room, out) = (out.len(), out.as_mut_ptr());
    // SAFETY: the slices have the lengths given, and the one written to is borrowed alone.
    unsafe { raw::snow_segment(store, numbers, sheet, length, item, code, index, out, room) }
}

pub fn load(store: &[u32], sheet: &[u8], item: usize, code: u8, station: u32) -> u32 {
    let (numbers, store) = (store.len(), store.as_ptr());
    let (length, sheet) = (sheet.len(), sheet.as_ptr());
    // SAFETY: both slices have the lengths given.
    unsafe { raw::snow_load(store, numbers, sheet, length, item, code, station) }
}

pub fn overhang(store: &[u32], sheet: &[u8], item: usize, slope: u8) -> u32 {
    let (numbers, store) = (store.len(), store.as_ptr());
    // SAFETY: both slices have the lengths given.
    unsafe { raw::snow_overhang(store, numbers, sheet.as_ptr(), sheet.len(), item, slope) }
}

pub fn guard_force(store: &[u32], sheet: &[u8], item: usize, slope: u8) -> u32 {
    let (numbers, store) = (store.len(), store.as_ptr());
    // SAFETY: both slices have the lengths given.
    unsafe { raw::snow_guard_force(store, numbers, sheet.as_ptr(), sheet.len(), item, slope) }
}

pub fn list(store: &[u32], sheet: &[u8], out: &mut [u8]) -> usize {
    let (numbers, store) = (store.len(), store.as_ptr());
    let (room, out) = (out.len(), out.as_mut_ptr());
    // SAFETY: the slices have the lengths given, and the one written to is borrowed alone.
    unsafe { raw::snow_list(store, numbers, sheet.as_ptr(), sheet.len(), out, room) }
}

pub fn canonical(store: &[u32], sheet: &[u8], out: &mut [u8]) -> u32 {
    let (numbers, store) = (store.len(), store.as_ptr());
    let (room, out) = (out.len(), out.as_mut_ptr());
    // SAFETY: the slices have the lengths given, and the one written to is borrowed alone.
    unsafe { raw::snow_canonical(store, numbers, sheet.as_ptr(), sheet.len(), out, room) }
}

pub fn ground_load(region: u8, zone: u8, altitude: u16) -> u32 {
    // SAFETY: the call takes numbers alone.
    unsafe { raw::snow_ground_load(region, zone, altitude) }
}
