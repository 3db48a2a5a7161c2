//! The time of the library against that of the second calculation.

use std::hint::black_box;
use std::time::Instant;

use second::calls::{self, LIST_ROOM};
use second::listing;
use second::store::EMPTY;

use crate::draft::{self, DRIFT_ROOF, MULTI_SPAN, PARAPET, SMALL_PROJECTION};
use crate::ffi;
use crate::fuzz::heavy_sheet;
use crate::random::Random;
use crate::stores;

const SHEETS: usize = 8;
const BATCHES: usize = 101;
const CODES: [u8; 4] = [1, 2, 11, 12];
/// The roof that is read segment by segment, the last one.
const ITEM: usize = 31;

/// Times of the batches of both sides in nanoseconds for one sheet.
struct Times {
    library: Vec<f64>,
    second: Vec<f64>,
}

pub fn print(seed: u64) {
    let mut random = Random::new(seed);
    let sheets = heavy_sheets(&mut random, MULTI_SPAN, 1);
    println!(
        "TIMES {SHEETS} sheets of 31 roofs with 16 spans, {} lines a listing, best of {BATCHES} batches",
        lines(&sheets)
    );
    listing_times(&EMPTY, &sheets).print("listing");
    verdict_times(&EMPTY, &sheets).print("verdict");
    make_times(&sheets).print("making");
    segment_times(&sheets).print(&format!("single segments of item {ITEM}"));
    canonical_times(&EMPTY, &sheets).print("one way");
    for situation in [3, 1] {
        let sheets = heavy_sheets(&mut random, DRIFT_ROOF, situation);
        println!(
            "TIMES {SHEETS} sheets of 31 roofs of kind 9 with 16 spans, situation {situation}, {} lines a listing",
            lines(&sheets)
        );
        listing_times(&EMPTY, &sheets).print("listing");
    }
    step_times(&mut random);
    set_times(&mut random);
    parapet_times(&mut random);
}

/// 31 parapets and small projections in turn, none of them all drift.
fn parapet_times(random: &mut Random) {
    let sheets: Vec<_> = (0..SHEETS).map(|_| parapets(random)).collect();
    println!(
        "TIMES {SHEETS} sheets of 31 roofs of kinds 11 and 12, situation 3, {} lines a listing",
        lines(&sheets)
    );
    listing_times(&EMPTY, &sheets).print("listing");
    verdict_times(&EMPTY, &sheets).print("verdict");
}

fn parapets(random: &mut Random) -> Vec<u8> {
    let mut items = vec![draft::site_in(random, 3)];
    for kind in [PARAPET, SMALL_PROJECTION].into_iter().cycle().take(31) {
        let mut roof = draft::item(random, kind);
        for [_, width] in draft::steps_and_widths(kind) {
            draft::put(&mut roof, *width, random.between(15_001, 100_000));
        }
        items.push(roof);
    }
    draft::sheet(random, &items)
}

/// Dated jobs that use the last of 32 sets, with one arch and with 31.
fn set_times(random: &mut Random) {
    let store = stores::store(random, stores::MAX_SETS);
    for arches in [1, 31] {
        let sheets: Vec<_> = (0..SHEETS).map(|_| dated_arches(random, arches)).collect();
        println!(
            "TIMES {SHEETS} sheets of a dated site and {arches} of kind 5, 32 sets in the store"
        );
        listing_times(&store, &sheets).print("listing");
        verdict_times(&store, &sheets).print("verdict");
    }
}

fn dated_arches(random: &mut Random, arches: usize) -> Vec<u8> {
    let site = draft::site_in(random, 1);
    let arch = draft::of_figures(draft::CYLINDRICAL, &[5_000, 10_000]);
    let mut items = vec![arch; 1 + arches];
    items[0] = draft::dated(&site, stores::LAST_DAY);
    draft::sheet(random, &items)
}

/// 31 roofs in a chain, and the same roofs with those of kind 10 as kind 6.
fn step_times(random: &mut Random) {
    let chains: Vec<_> = (0..SHEETS).map(|_| draft::long_chain(random)).collect();
    let lower = chains.iter().filter_map(|items| draft::given(items));
    let lower: Vec<_> = lower.collect();
    for (what, items) in [("10 in a chain", chains), ("6", lower)] {
        let sheets: Vec<_> = items
            .iter()
            .map(|items| draft::sheet(random, items))
            .collect();
        println!(
            "TIMES {SHEETS} sheets of 31 roofs, 30 of them of kind {what}, {} lines a listing",
            lines(&sheets)
        );
        listing_times(&EMPTY, &sheets).print("listing");
        verdict_times(&EMPTY, &sheets).print("verdict");
    }
}

fn heavy_sheets(random: &mut Random, kind: u8, situation: u32) -> Vec<Vec<u8>> {
    let sheets = (0..SHEETS).map(|_| heavy_sheet(random, kind, situation));
    sheets.collect()
}

/// Lines of one listing, all sheets having the same number.
fn lines(sheets: &[Vec<u8>]) -> usize {
    let mut text = Vec::new();
    listing::list(&EMPTY, &sheets[0], &mut text);
    text.iter().filter(|&&byte| byte == b'\n').count()
}

fn listing_times(store: &[u32], sheets: &[Vec<u8>]) -> Times {
    let mut buffer = vec![0; LIST_ROOM];
    let mut text = Vec::with_capacity(LIST_ROOM);
    let library = |sheet: &[u8]| {
        black_box(ffi::list(store, sheet, &mut buffer));
        black_box(&mut buffer);
    };
    let second = |sheet: &[u8]| {
        text.clear();
        listing::list(store, sheet, &mut text);
        black_box(&mut text);
    };
    alternate(sheets, 2, library, second)
}

fn verdict_times(store: &[u32], sheets: &[Vec<u8>]) -> Times {
    let library = |sheet: &[u8]| {
        black_box(ffi::verdict(store, sheet));
    };
    let second = |sheet: &[u8]| {
        black_box(calls::verdict(store, sheet));
    };
    alternate(sheets, 50, library, second)
}

/// The sheet in the one way, in the most bytes that a sheet may have.
fn canonical_times(store: &[u32], sheets: &[Vec<u8>]) -> Times {
    let [mut first, mut other] = [(); 2].map(|()| vec![0; draft::MAX_SHEET]);
    let library = |sheet: &[u8]| {
        black_box(ffi::canonical(store, sheet, &mut first));
        black_box(&mut first);
    };
    let second = |sheet: &[u8]| {
        black_box(calls::canonical(store, sheet, &mut other));
        black_box(&mut other);
    };
    alternate(sheets, 50, library, second)
}

/// Every arrangement of the sheet. Each call checks the sheet anew, on both sides.
fn make_times(sheets: &[Vec<u8>]) -> Times {
    let library = |sheet: &[u8]| every_arrangement(sheet, ffi::make);
    let second = |sheet: &[u8]| every_arrangement(sheet, calls::make);
    alternate(sheets, 1, library, second)
}

/// The library's call or the second calculation's.
type Make = fn(&[u32], &[u8], usize, u8, &mut [u32]) -> u32;

fn every_arrangement(sheet: &[u8], make: Make) {
    let mut out = [0; 128];
    for item in 1..=31 {
        for code in CODES {
            black_box(make(&EMPTY, sheet, item, code, &mut out));
            black_box(&mut out);
        }
    }
}

/// Every arrangement of one roof of the sheet, segment by segment, and its count. Each call checks the
/// sheet anew, on both sides.
fn segment_times(sheets: &[Vec<u8>]) -> Times {
    let library = |sheet: &[u8]| every_segment(sheet, ffi::segment_count, ffi::segment);
    let second = |sheet: &[u8]| every_segment(sheet, calls::segment_count, calls::segment);
    alternate(sheets, 1, library, second)
}

/// The library's calls or the second calculation's.
type Count = fn(&[u32], &[u8], usize, u8) -> u32;
type Segment = fn(&[u32], &[u8], usize, u8, usize, &mut [u32]) -> u32;

fn every_segment(sheet: &[u8], count: Count, segment: Segment) {
    let mut out = [0; 4];
    for code in CODES {
        for index in 0..count(&EMPTY, sheet, ITEM, code) as usize {
            black_box(segment(&EMPTY, sheet, ITEM, code, index, &mut out));
            black_box(&mut out);
        }
    }
}

/// Batches of both sides in turn, so that a slow moment of the machine meets both.
fn alternate(
    sheets: &[Vec<u8>],
    rounds: usize,
    mut library: impl FnMut(&[u8]),
    mut second: impl FnMut(&[u8]),
) -> Times {
    let mut times = Times {
        library: Vec::new(),
        second: Vec::new(),
    };
    batch(sheets, rounds, &mut library);
    batch(sheets, rounds, &mut second);
    for _ in 0..BATCHES {
        times.library.push(batch(sheets, rounds, &mut library));
        times.second.push(batch(sheets, rounds, &mut second));
    }
    times
}

fn batch(sheets: &[Vec<u8>], rounds: usize, work: &mut impl FnMut(&[u8])) -> f64 {
    let start = Instant::now();
    for _ in 0..rounds {
        for sheet in sheets {
            work(black_box(sheet));
        }
    }
    start.elapsed().as_nanos() as f64 / (rounds * sheets.len()) as f64
}

impl Times {
    fn print(mut self, name: &str) {
        self.library.sort_by(f64::total_cmp);
        self.second.sort_by(f64::total_cmp);
        let middle = BATCHES / 2;
        println!(
            "  {name} library {:.0} ns, second {:.0} ns, ratio {:.2} (medians {:.2})",
            self.library[0],
            self.second[0],
            self.library[0] / self.second[0],
            self.library[middle] / self.second[middle]
        );
    }
}
