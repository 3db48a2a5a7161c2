//! Asks the calls about one sheet, about some ground loads and about sets of national figures, prints
//! every answer and checks what the header says of them. The sheet is asked about with an empty store.
//!
//!     terminal_example SHEET         all answers; the exit code is 1 where a check fails
//!     terminal_example SHEET list    the listing alone

mod snow;

use std::env;
use std::fs;
use std::io::{self, Write};
use std::process::ExitCode;

use snow::{Answer, EMPTY_STORE, SHEET_BYTES, STORE_NUMBERS};

/// 32 segments of four numbers, the most there are.
const SLICE: usize = 128;
/// Numbers of a set.
const FIELDS: usize = 6;
/// Fills memory before it is lent.
const MARK_BYTE: u8 = 0xA5;
const MARK: u32 = u32::from_ne_bytes([MARK_BYTE; 4]);
/// Shapes of persistent snow, those of exceptional falls, and a drift in each of up to 15 valleys, of which 31 is that at an obstruction too.
const CODES: [u8; 21] = [
    1, 2, 3, 11, 12, 13, 31, 32, 33, 34, 35, 36, 37, 38, 39, 40, 41, 42, 43, 44, 45,
];
/// No sheet has such an item.
const MISSING: [usize; 6] = [255, 256, 65_534, 65_535, 65_536, usize::MAX];
/// A region, a zone and an altitude in m.
type Place = (u8, u8, u16);
const ON_MAP: [Place; 8] = [
    (1, 2, 500),
    (2, 3, 300),
    (3, 1, 650),
    (4, 4, 800),
    (5, 2, 452),
    (6, 5, 120),
    (7, 3, 60),
    (8, 1, 250),
];
/// Places without a ground load, and the number that refuses each.
const OFF_MAP: [(Place, u32); 8] = [
    ((9, 6, 1_501), 7),
    ((1, 2, 65_535), 7),
    ((0, 1, 1_500), 14),
    ((9, 1, 0), 14),
    ((8, 0, 0), 14),
    ((2, 6, 1_500), 14),
    ((8, 1, 0), 15),
    ((2, 5, 1_500), 15),
];

fn is_marked(memory: &[u8]) -> bool {
    memory.iter().all(|&byte| byte == MARK_BYTE)
}

/// A sheet, and the checks on what the calls answer about it.
struct Caller {
    sheet: Vec<u8>,
    checks: u32,
    failures: u32,
}

impl Caller {
    fn check(&mut self, holds: bool, what: &str, item: usize) {
        self.checks += 1;
        if !holds {
            self.failures += 1;
            eprintln!("item {item}: {what}");
        }
    }

    /// Lends a marked slice. A refusal alters nothing of it, an answer only the segments at its front.
    fn make(&mut self, item: usize, code: u8, room: usize) -> (Answer, [u32; SLICE]) {
        let mut out = [MARK; SLICE];
        let answer = snow::make(&EMPTY_STORE, &self.sheet, item, code, &mut out[..room]);
        let written = 4 * answer.value().unwrap_or(0) as usize;
        let kept = out.iter().skip(written).all(|&number| number == MARK);
        self.check(kept, "snow_make altered more than its segments", item);
        (answer, out)
    }

    /// Lends the first numbers of five marked ones for one segment. A refusal alters nothing of
    /// them, an answer the four at their front.
    fn segment(&mut self, item: usize, code: u8, index: usize, room: usize) -> (Answer, [u32; 5]) {
        let mut out = [MARK; 5];
        let answer = snow::segment(
            &EMPTY_STORE,
            &self.sheet,
            item,
            code,
            index,
            &mut out[..room],
        );
        let written = answer.value().map_or(0, |_| 4);
        let kept = out.iter().skip(written).all(|&number| number == MARK);
        self.check(kept, "snow_segment altered more than its segment", item);
        (answer, out)
    }

    fn segment_count(&self, item: usize, code: u8) -> Answer {
        snow::segment_count(&EMPTY_STORE, &self.sheet, item, code)
    }

    /// The arrangement that was made, as a board reads it that has space for one segment: the count,
    /// then each index.
    fn ask_one_by_one(&mut self, item: usize, code: u8, made: &[u32]) {
        let answer = self.segment_count(item, code);
        println!("COUNT {item} {code}: {}", answer.with_unit("segments"));
        let count = made.len() / 4;
        let same = answer == Answer::Value(count as u32);
        self.check(same, "the count is another one", item);
        for (index, four) in made.chunks_exact(4).enumerate() {
            let (answer, out) = self.segment(item, code, index, 5);
            let same = answer == Answer::Value(4) && out.starts_with(four);
            self.check(same, "a single segment differs", item);
        }
        let (short, _) = self.segment(item, code, 0, 3);
        let is_11 = short == Answer::refused(11, item);
        self.check(is_11, "three numbers for a segment", item);
        let (past, _) = self.segment(item, code, count, 3);
        let is_12 = past == Answer::refused(12, item);
        self.check(is_12, "an index at the count", item);
    }

    fn load(&self, item: usize, code: u8, station: u32) -> Answer {
        let answer = snow::load(&EMPTY_STORE, &self.sheet, item, code, station);
        println!(
            "LOAD {item} {code} at {station}: {}",
            answer.with_unit("N/m2")
        );
        answer
    }

    /// A segment and the loads on it. A position shared with a neighbour reads the greater load.
    fn ask_segment(&mut self, item: usize, code: u8, segment: [u32; 4]) {
        let [start, end, first, second] = segment;
        println!("SEGMENT {item} {code}: {start} {end} {first} {second}");
        let at_start = self.load(item, code, start).value();
        self.load(item, code, start + (end - start) / 2);
        let at_end = self.load(item, code, end).value();
        self.check(
            at_start >= Some(first),
            "load below the segment's first",
            item,
        );
        self.check(
            at_end >= Some(second),
            "load below the segment's second",
            item,
        );
    }

    /// The segments of one arrangement; their count.
    fn ask_arrangement(&mut self, item: usize, code: u8) -> usize {
        let (answer, out) = self.make(item, code, SLICE);
        println!("MAKE {item} {code}: {}", answer.with_unit("segments"));
        let Some(count) = answer.value() else {
            let is_13 = answer == Answer::refused(13, item);
            self.check(is_13, "refused, and not with 13", item);
            let same = self.load(item, code, 0) == answer;
            self.check(same, "a load where no arrangement is made", item);
            let same = self.segment_count(item, code) == answer;
            self.check(same, "segments where no arrangement is made", item);
            let same = self.segment(item, code, usize::MAX, 3).0 == answer;
            self.check(same, "a segment where no arrangement is made", item);
            return 0;
        };
        let numbers = 4 * count as usize;
        self.ask_one_by_one(item, code, &out[..numbers]);
        for segment in out[..numbers].chunks_exact(4) {
            self.ask_segment(item, code, [segment[0], segment[1], segment[2], segment[3]]);
        }
        let past = self.load(item, code, out[numbers - 3] + 1);
        self.check(
            past == Answer::refused(12, item),
            "a load past the roof's end",
            item,
        );
        let (short, _) = self.make(item, code, numbers - 1);
        self.check(
            short == Answer::refused(11, item),
            "a slice too short",
            item,
        );
        count as usize
    }

    /// The forces at eave and guard of one slope; how many there are.
    fn ask_slope(&self, item: usize, slope: u8) -> usize {
        let overhang = snow::overhang(&EMPTY_STORE, &self.sheet, item, slope);
        let guard = snow::guard_force(&EMPTY_STORE, &self.sheet, item, slope);
        println!(
            "OVERHANG {item} slope {slope}: {}",
            overhang.with_unit("N/m")
        );
        println!("GUARD {item} slope {slope}: {}", guard.with_unit("N/m"));
        [overhang, guard]
            .iter()
            .filter(|force| force.value().is_some())
            .count()
    }

    /// One roof; the count of its lines in the listing.
    fn ask_roof(&mut self, item: usize) -> usize {
        let segments: usize = CODES
            .iter()
            .map(|&code| self.ask_arrangement(item, code))
            .sum();
        let (unknown, _) = self.make(item, 99, SLICE);
        self.check(
            unknown == Answer::refused(13, item),
            "code 99 is made",
            item,
        );
        segments + self.ask_slope(item, 1) + self.ask_slope(item, 2)
    }

    /// Every call that asks for this item gives the same refusal.
    fn check_refused(&mut self, item: usize, refusal: Answer) {
        let reading = snow::load(&EMPTY_STORE, &self.sheet, item, 1, 0);
        let overhang = snow::overhang(&EMPTY_STORE, &self.sheet, item, 1);
        let guard = snow::guard_force(&EMPTY_STORE, &self.sheet, item, 1);
        let (made, _) = self.make(item, 1, SLICE);
        self.check(made == refusal, "snow_make refuses otherwise", item);
        let same = self.segment_count(item, 1) == refusal;
        self.check(same, "snow_segment_count refuses otherwise", item);
        let same = self.segment(item, 1, 0, 5).0 == refusal;
        self.check(same, "snow_segment refuses otherwise", item);
        self.check(reading == refusal, "snow_load refuses otherwise", item);
        let same = overhang == refusal && guard == refusal;
        self.check(same, "a force is refused otherwise", item);
    }

    /// An index that the sheet has no item for is refused by 12.
    fn ask_missing(&mut self, item: usize) {
        let answer = snow::load(&EMPTY_STORE, &self.sheet, item, 1, 0);
        println!("INDEX {item}: {}", answer.with_unit("N/m2"));
        self.check_refused(item, Answer::refused(12, item));
    }

    fn ground_load(&self, place: Place) -> Answer {
        let (region, zone, altitude) = place;
        let answer = snow::ground_load(region, zone, altitude);
        println!(
            "GROUND region {region} zone {zone} at {altitude} m: {}",
            answer.with_unit("N/m2")
        );
        answer
    }

    /// A ground load of each region, which is no less a metre higher up, and places that are
    /// refused. Where several numbers hold, the first in the order is given.
    fn ask_map(&mut self) {
        for place in ON_MAP {
            let load = self.ground_load(place).value();
            let above = snow::ground_load(place.0, place.1, place.2 + 1).value();
            let rises = load >= Some(100) && load <= above && above <= Some(25_000);
            self.check(rises, "a ground load falls or is out of range", 0);
        }
        for (place, number) in OFF_MAP {
            let refused = self.ground_load(place) == Answer::refused(number, 0);
            self.check(refused, "a ground load is refused otherwise", 0);
        }
    }

    /// Adds a set. A refusal alters nothing, an answer the count and the set's place alone.
    fn add_set(&mut self, store: &mut [u32; STORE_NUMBERS], set: &[u32]) -> Answer {
        let mut after = *store;
        let answer = snow::add_set(store, set);
        println!(
            "SET of {} numbers from day {}: {}",
            set.len(),
            set[0],
            answer.with_unit("sets")
        );
        if let Some(count) = answer.value() {
            let place = 1 + FIELDS * after[0] as usize;
            after[place..place + FIELDS].copy_from_slice(set);
            after[0] += 1;
            let is_next = count == after[0];
            self.check(is_next, "the count of sets is another one", 0);
        }
        let kept = *store == after;
        self.check(kept, "snow_add_set altered more than its set", 0);
        answer
    }

    /// A country's annex by its first day, then a later one. Open jobs stay on the old one.
    fn ask_sets(&mut self) {
        let first = [9_000, 180, 80, 400, 5_000, 15_000];
        let second = [9_500, 250, 100, 300, 4_000, 20_000, 0]; // the last number is one too many
        let refused = |number| Answer::refused(number, 0);
        let mut store = EMPTY_STORE;
        let load = dated_load(&store, 9_132);
        self.check(load == refused(19), "a job without a set", 0);
        let count = self.add_set(&mut store, &first);
        self.check(count == Answer::Value(1), "the first set", 0);
        let load = dated_load(&store, 8_999);
        self.check(load == refused(19), "a job before the first set", 0);
        let load = dated_load(&store, 9_132);
        self.check(load == Answer::Value(1_800), "a job of the first set", 0);
        let count = self.add_set(&mut store, &second[..FIELDS - 1]);
        self.check(count == refused(18), "a set of five numbers is added", 0);
        let count = self.add_set(&mut store, &second);
        self.check(count == refused(18), "a set of seven numbers is added", 0);
        let count = self.add_set(&mut store, &second[..FIELDS]);
        self.check(count == Answer::Value(2), "the second set", 0);
        let count = self.add_set(&mut store, &first);
        self.check(count == refused(18), "a set that isn't later is added", 0);
        self.ask_jobs(&store);
    }

    /// Jobs before and from the second set's first day, and a store that is too short.
    fn ask_jobs(&mut self, store: &[u32]) {
        let load = dated_load(store, 9_132);
        self.check(load == Answer::Value(1_800), "an open job changes", 0);
        let load = dated_load(store, 9_499);
        let is_old = load == Answer::Value(1_800);
        self.check(is_old, "the last day of the first set", 0);
        let load = dated_load(store, 9_500);
        let is_new = load == Answer::Value(2_200);
        self.check(is_new, "the first day of the second set", 0);
        let load = dated_load(&store[..STORE_NUMBERS - 1], 9_500);
        let is_refused = load == Answer::refused(18, 0);
        self.check(is_refused, "a store of 192 numbers", 0);
    }

    /// Prints the listing; the count of its lines. One byte of room too little alters nothing.
    fn list(&mut self) -> io::Result<usize> {
        let mut text = vec![MARK_BYTE; snow::LIST_ROOM];
        let bytes = snow::list(&EMPTY_STORE, &self.sheet, &mut text[..snow::LIST_ROOM - 1]);
        let kept = is_marked(&text);
        self.check(bytes == 0 && kept, "a listing in too little room", 0);
        let bytes = snow::list(&EMPTY_STORE, &self.sheet, &mut text);
        io::stdout().write_all(&text[..bytes])?;
        Ok(text[..bytes].iter().filter(|&&byte| byte == b'\n').count())
    }

    /// What the quote desk answers: the terminal's verdict, or 1 where the sheet has more than 8
    /// items or 2,048 bytes.
    fn ask_desk(&mut self, verdict: Answer) {
        let answer = snow::desk_verdict(&EMPTY_STORE, &self.sheet);
        println!("DESK: {}", answer.with_unit("items"));
        let items = self
            .sheet
            .first_chunk()
            .map_or(0, |&n| u16::from_le_bytes(n));
        let inside = items <= 8 && self.sheet.len() <= 2_048;
        let expected = if inside {
            verdict
        } else {
            Answer::refused(1, 0)
        };
        self.check(answer == expected, "the desk reads otherwise", 0);
    }

    /// Writes the sheet in the one way, and again. A refusal is the verdict's; a byte of room too little alters nothing.
    fn ask_canonical(&mut self, verdict: Answer) {
        let mut once = [MARK_BYTE; SHEET_BYTES + 1];
        let answer = snow::canonical(&EMPTY_STORE, &self.sheet, &mut once);
        println!("CANONICAL: {}", answer.with_unit("bytes"));
        let Some(length) = answer.value().filter(|_| verdict.value().is_some()) else {
            let refused = answer == verdict && is_marked(&once);
            self.check(refused, "a refused sheet is written", 0);
            return;
        };
        let (written, behind) = once.split_at(length as usize);
        let kept = written.len() <= self.sheet.len() && is_marked(behind);
        self.check(kept, "snow_canonical altered more than its result", 0);
        let mut again = vec![MARK_BYTE; written.len()];
        let short_of = snow::canonical(&EMPTY_STORE, written, &mut again[1..]);
        let refused = short_of == Answer::refused(11, 0) && is_marked(&again);
        self.check(refused, "a sheet in too little room", 0);
        let same = snow::canonical(&EMPTY_STORE, written, &mut again);
        let same = same == answer && again == written;
        self.check(same, "written again it is another sheet", 0);
    }

    fn ask(&mut self) -> io::Result<()> {
        let mut lines = 1; // the header, or the line REFUSED
        let verdict = snow::verdict(&EMPTY_STORE, &self.sheet);
        println!("VERDICT: {}", verdict.with_unit("items"));
        self.ask_desk(verdict);
        self.ask_canonical(verdict);
        if let Some(count) = verdict.value() {
            let count = count as usize;
            for item in 1..count {
                lines += self.ask_roof(item);
            }
            self.ask_missing(count);
            for item in MISSING {
                self.ask_missing(item);
            }
        } else {
            self.check_refused(1, verdict);
        }
        let listed = self.list()?;
        self.check(listed == lines, "the listing has other lines", 0);
        self.ask_map();
        self.ask_sets();
        println!("CHECKS: {}", self.checks);
        Ok(())
    }
}

/// A dated job: an arch of 4,000 on 20,000 under 1,000 N/m². μ3 is 2.2 before the upper value of the
/// set in use limits it, and the load at the right peak is 1,000 times μ3.
fn dated_load(store: &[u32], day: u16) -> Answer {
    let head = [2, 0, 10, 0, 16, 0, 26, 0, 9, 0];
    let site = [1, 0xE8, 3, 0, 0, 100, 0, 100, 0, 200, 0, 0, 0xF4, 1];
    let arch = [5, 0xA0, 0x0F, 0, 0, 0x20, 0x4E, 0, 0];
    let sheet = [&head[..], &site, &day.to_le_bytes(), &arch].concat();
    let answer = snow::load(store, &sheet, 1, 2, 60_000);
    println!(
        "JOB of day {day}, {} sets in {} numbers: {}",
        store[0],
        store.len(),
        answer.with_unit("N/m2")
    );
    answer
}

fn main() -> io::Result<ExitCode> {
    let arguments: Vec<String> = env::args().collect();
    let Some(path) = arguments.get(1) else {
        eprintln!("usage: terminal_example SHEET [list]");
        return Ok(ExitCode::from(2));
    };
    let mut caller = Caller {
        sheet: fs::read(path)?,
        checks: 0,
        failures: 0,
    };
    if arguments.get(2).is_some_and(|part| part == "list") {
        caller.list()?;
    } else {
        caller.ask()?;
    }
    Ok(ExitCode::from(u8::from(caller.failures > 0)))
}
