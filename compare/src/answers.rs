//! Everything that the library answers about a sheet, where the answers are known or have to stay.

use second::calls::{LIST_ROOM, REFUSED};

use crate::draft::MAX_SHEET;
use crate::ffi;

const CODES: [u8; 7] = [1, 2, 3, 11, 12, 13, 31];
const STATIONS: [u32; 6] = [0, 1, 4_000, 22_222, 60_001, u32::MAX];
const SLOPES: [u8; 3] = [0, 1, 2];
/// Indexes of single segments: those that most arrangements have, and those that few or none have.
const INDEXES: [usize; 5] = [0, 1, 3, 31, usize::MAX];
/// Numbers of the longest arrangement.
const SLICE: usize = 128;
/// Fills memory before it is lent.
const MARK: u32 = 0xA5A5_A5A5;
const MARK_BYTE: u8 = 0xA5;

#[derive(PartialEq)]
pub struct Answers {
    /// Those of every call on a sheet but the listing, the desk's apart.
    answers: Vec<u32>,
    desk: u32,
    /// The slices that arrangements and single segments were made in.
    slices: Vec<u32>,
    /// The bytes that the sheet was written to in the one way.
    written: Vec<u8>,
    listing: Vec<u8>,
}

impl Answers {
    /// About a sheet's items, so many, and an index behind them.
    pub fn of(store: &[u32], sheet: &[u8], count: usize) -> Self {
        let mut listing = vec![0; LIST_ROOM];
        let bytes = ffi::list(store, sheet, &mut listing);
        listing.truncate(bytes);
        let mut written = vec![MARK_BYTE; MAX_SHEET];
        let length = ffi::canonical(store, sheet, &mut written);
        let mut all = Self {
            answers: vec![ffi::verdict(store, sheet), length],
            desk: ffi::desk_verdict(store, sheet),
            slices: Vec::new(),
            written,
            listing,
        };
        for item in 0..=count {
            all.ask_item(store, sheet, item);
        }
        all
    }

    fn ask_item(&mut self, store: &[u32], sheet: &[u8], item: usize) {
        for code in CODES {
            let mut out = [MARK; SLICE];
            self.answers
                .push(ffi::make(store, sheet, item, code, &mut out));
            self.slices.extend(out);
            self.ask_segments(store, sheet, item, code);
            let load = |station| ffi::load(store, sheet, item, code, station);
            self.answers.extend(STATIONS.map(load));
        }
        for slope in SLOPES {
            self.answers.extend([
                ffi::overhang(store, sheet, item, slope),
                ffi::guard_force(store, sheet, item, slope),
            ]);
        }
    }

    /// The count, and single segments with a number lent that has to stay.
    fn ask_segments(&mut self, store: &[u32], sheet: &[u8], item: usize, code: u8) {
        self.answers
            .push(ffi::segment_count(store, sheet, item, code));
        for index in INDEXES {
            let mut out = [MARK; 5];
            self.answers
                .push(ffi::segment(store, sheet, item, code, index, &mut out));
            self.slices.extend(out);
        }
    }

    /// Whether they are the same, the desk's apart, which has a ceiling on bytes that gaps count for.
    pub fn are_those_of(&self, other: &Self) -> bool {
        self.answers == other.answers
            && self.slices == other.slices
            && self.written == other.written
            && self.listing == other.listing
    }

    /// Whether every call refuses by a number that names item 0, and nothing is written.
    pub fn are_refused(&self, number: u32) -> bool {
        let refusal = REFUSED + 65_536 * number;
        self.answers.iter().all(|&answer| answer == refusal)
            && self.desk == refusal
            && self.slices.iter().all(|&number| number == MARK)
            && self.written.iter().all(|&byte| byte == MARK_BYTE)
            && self.listing == format!("REFUSED {number} 0\n").into_bytes()
    }
}
