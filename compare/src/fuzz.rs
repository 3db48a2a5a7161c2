//! Random questions about random sheets.

use std::hint::black_box;

use second::calls::LIST_ROOM;

use crate::check::{Asked, Checker, Lent, MAX_LIST_ROOM};
use crate::damage;
use crate::draft;
use crate::random::Random;
use crate::stores;
use crate::tally::{LENGTHS, MISSING};

/// One sheet in so many is asked about beside the library's result for it.
const SAME_JOB: u64 = 32;
/// Of one sheet in so many an item is asked about on the sheet with its roofs turned too.
const TURNED: u64 = 3;
/// Of one sheet in so many an item is asked about before and after its pitches are moved too. It isn't
/// one of the former sheets.
const MOVED: u64 = 3;
/// Items of one sheet that are asked about closely.
const CLOSE: usize = 3;
/// The codes of the rules, those beside them, and some that never exist.
const CODES: [u8; 37] = [
    0, 1, 2, 3, 4, 5, 6, 7, 8, 9, 10, 11, 12, 13, 14, 20, 21, 22, 30, 31, 32, 33, 34, 35, 36, 37,
    38, 39, 40, 41, 42, 43, 44, 45, 46, 128, 255,
];
const SLOPES: [u8; 5] = [0, 1, 2, 3, 255];
/// Altitudes at the ends of their range and of 8 and 16 bits, with every region and every zone.
const ALTITUDES: [u16; 10] = [0, 1, 255, 256, 1_499, 1_500, 1_501, 1_502, 32_768, 65_535];

pub struct Fuzz {
    pub checker: Checker,
    pub random: Random,
    next_length: usize,
}

impl Fuzz {
    pub fn new(seed: u64) -> Self {
        Self {
            checker: Checker::new(seed),
            random: Random::new(seed),
            next_length: 0,
        }
    }

    /// Every second sheet is damaged, and one store in 16 is broken. Two sites in three are dated.
    pub fn run(&mut self, sheets: u64) {
        for number in 0..sheets {
            let store = self.lend_any();
            if self.random.once_in(16) {
                let broken = stores::broken(&store);
                let place = self.random.below(broken.len());
                self.checker.lend(&broken[place]);
            }
            let mut items = draft::items(&mut self.random);
            if !self.random.once_in(3) {
                let day = stores::day(&mut self.random, &store);
                items[0] = draft::dated(&items[0], day);
            }
            let sheet = if number % 2 == 0 {
                draft::sheet(&mut self.random, &items)
            } else {
                damage::sheet(&mut self.random, items)
            };
            self.ask_anywhere(&sheet);
            if number % SAME_JOB == 0 {
                self.same_job(&sheet);
            }
            if number % TURNED == 0 {
                self.ask_turned(&sheet);
            }
            if number % MOVED == 1 {
                self.ask_moved(&sheet);
            }
        }
    }

    /// Lends a sound store.
    pub fn lend_any(&mut self) -> Vec<u32> {
        let store = stores::any_store(&mut self.random);
        self.checker.lend(&store);
        store
    }

    /// Every pitch under the heaviest snow, where each entry of a table shows in the forces.
    pub fn sweep(&mut self) {
        for pitch in 0..=draft::MAX_PITCH {
            let items = draft::pitch_items(pitch);
            let sheet = draft::sheet(&mut self.random, &items);
            self.ask_anywhere(&sheet);
            let asked = Asked {
                sheet: &sheet,
                count: items.len(),
            };
            for item in 1..items.len() {
                self.force_questions(asked, item);
            }
        }
    }

    /// Every place on the map, and bytes of every value for the region and the zone.
    pub fn sweep_map(&mut self) {
        for region in 1..=8 {
            for zone in 1..=5 {
                for altitude in 0..=draft::MAX_ALTITUDE {
                    self.map_place(region, zone, altitude);
                }
            }
        }
        for region in 0..=255 {
            for zone in 0..=255 {
                for altitude in ALTITUDES {
                    self.checker.ground_load(region, zone, altitude);
                }
            }
        }
    }

    /// The load of a place, and a sheet with a roof there. Where there is a load, the sheet with
    /// that load given lists the same.
    fn map_place(&mut self, region: u8, zone: u8, altitude: u32) {
        let load = self.checker.ground_load(region, zone, altitude as u16);
        self.checker.tally.map.places += 1;
        let mut site = draft::item(&mut self.random, draft::MAP_SITE);
        draft::place(&mut site, region.into(), zone.into(), altitude);
        let given = load.map(|load| draft::given_site(&site, load));
        let mut items = [site, draft::roof(&mut self.random)];
        let sheet = draft::sheet(&mut self.random, &items);
        self.checker.verdict(&sheet);
        self.checker.list(&sheet, LIST_ROOM);
        if let Some(given) = given {
            items[0] = given;
            let other = draft::sheet(&mut self.random, &items);
            let alike = self.checker.alike(&sheet, &other, "the ground load given");
            self.checker.tally.map.alike += u64::from(alike);
        }
    }

    /// The sheet may start anywhere in memory, and no call may alter it or the store.
    pub fn ask_anywhere(&mut self, sheet: &[u8]) {
        let store = self.checker.store().to_vec();
        let shift = self.random.below(8);
        let mut shifted = vec![0; shift];
        shifted.extend_from_slice(sheet);
        self.ask(&shifted[shift..]);
        black_box(&mut shifted);
        if shifted[shift..] != *sheet || self.checker.store() != store {
            let lent = Lent {
                store: &store,
                sheet,
            };
            let describe = || "a call altered the sheet or the store".to_string();
            self.checker.tally.disagree(lent, describe);
        }
    }

    /// The verdict, and all calls on items of the sheet and on others.
    fn ask(&mut self, sheet: &[u8]) {
        let asked = self.checker.verdict(sheet);
        self.lists(sheet);
        self.ground_question();
        self.index_questions(asked);
        if asked.count > 1 {
            for _ in 0..CLOSE.min(asked.count - 1) {
                let item = 1 + self.random.below(asked.count - 1);
                self.item_questions(asked, item);
            }
        }
    }

    fn lists(&mut self, sheet: &[u8]) {
        self.checker.list(sheet, LIST_ROOM);
        if self.random.once_in(8) {
            let less = self.random.below(LIST_ROOM);
            let more = LIST_ROOM + self.random.below(MAX_LIST_ROOM - LIST_ROOM + 1);
            let rooms = [0, 1, LIST_ROOM - 1, less, LIST_ROOM + 1, more];
            let room = self.random.pick(&rooms);
            self.checker.list(sheet, room);
        }
    }

    /// A place on the map or beside it, at any altitude.
    fn ground_question(&mut self) {
        let region = self.random.between(0, 9) as u8;
        let zone = self.random.between(0, 6) as u8;
        let altitude = self.random.next() as u16 >> self.random.below(16);
        self.checker.ground_load(region, zone, altitude);
    }

    /// All calls on the site, on an index that is not there, and on a refused sheet.
    pub fn index_questions(&mut self, asked: Asked) {
        let some = self.random.below(40);
        let missing = self.random.pick(&MISSING);
        let any = self.random.next() as usize >> self.random.below(64);
        for item in [0, asked.count, asked.count + 1, some, missing, any] {
            let code = self.random.pick(&CODES);
            let slope = self.random.pick(&SLOPES);
            let room = self.next_length();
            let station = self.random.next() as u32 >> self.random.below(32);
            self.checker.make(asked, item, code, room);
            self.checker.load(asked, item, code, station);
            self.checker.overhang(asked, item, slope);
            self.checker.guard_force(asked, item, slope);
        }
    }

    /// Both forces at each slope, and at some that no roof has.
    pub fn force_questions(&mut self, asked: Asked, item: usize) {
        for slope in SLOPES {
            self.checker.overhang(asked, item, slope);
            self.checker.guard_force(asked, item, slope);
        }
    }

    fn item_questions(&mut self, asked: Asked, item: usize) {
        self.force_questions(asked, item);
        for code in CODES {
            let room = self.next_length();
            self.checker.make(asked, item, code, room);
        }
        let code = self.random.byte();
        self.checker.make(asked, item, code, 128);
        // The codes that exist are met again with slices around the right length.
        let valleys: [u8; 3] = std::array::from_fn(|_| 32 + self.random.below(14) as u8);
        for code in [1, 2, 3, 11, 12, 13, 31].into_iter().chain(valleys) {
            self.arrangement_questions(asked, item, code);
        }
    }

    pub fn arrangement_questions(&mut self, asked: Asked, item: usize, code: u8) {
        let numbers = self.checker.make(asked, item, code, 128);
        if numbers.is_empty() {
            let station = self.random.pick(&[0, 1, 4_000, u32::MAX]);
            self.checker.load(asked, item, code, station);
            return;
        }
        let enough = numbers.len();
        for room in [enough - 1, enough, enough + 1, enough - 4] {
            self.checker.make(asked, item, code, room);
        }
        for segment in numbers.chunks_exact(4) {
            self.segment_stations(asked, item, code, segment);
        }
        self.end_stations(asked, item, code, numbers[enough - 3]);
    }

    fn segment_stations(&mut self, asked: Asked, item: usize, code: u8, segment: &[u32]) {
        let (start, end) = (segment[0], segment[1]);
        let inside = self.random.between(start, end);
        for station in [start.saturating_sub(1), start, start + 1, inside] {
            self.checker.load(asked, item, code, station);
        }
    }

    fn end_stations(&mut self, asked: Asked, item: usize, code: u8, end: u32) {
        let beyond = end + self.random.between(1, 1_000_000);
        let wrapped = end.wrapping_add(1 << 31);
        for station in [0, end - 1, end, end + 1, beyond, wrapped, u32::MAX] {
            self.checker.load(asked, item, code, station);
        }
    }

    /// Lengths in turn, so that a run goes through all of them.
    fn next_length(&mut self) -> usize {
        self.next_length = (self.next_length + 1) % LENGTHS;
        self.next_length
    }
}

/// A sheet of the heaviest kind: 31 multi-span roofs of 16 spans.
pub fn heavy_sheet(random: &mut Random, kind: u8, situation: u32) -> Vec<u8> {
    let mut items = vec![draft::site_in(random, situation)];
    for _ in 1..draft::MAX_ITEMS {
        items.push(draft::spans(random, kind, draft::MAX_SPANS));
    }
    draft::sheet(random, &items)
}
