//! Each call asked of both sides and compared, lent memory included.

use std::hint::black_box;

use second::calls::{self, LIST_ROOM};
use second::canonical;
use second::loads::Exact;
use second::store::EMPTY;

use crate::before::Before;
use crate::desk::Read;
use crate::draft;
use crate::eaves::Eave;
use crate::ffi;
use crate::layouts::Layout;
use crate::random::Random;
use crate::segments;
use crate::stores::Placed;
use crate::tally::{Call, Tally, MISSING};
use crate::turns;

/// No number of a segment and no byte of a listing has this value.
const MARK: u32 = 0xA5A5_A5A5;
const MARK_BYTE: u8 = 0xA5;
/// Marked memory before and behind what is lent.
const FRINGE: usize = 64;
/// The longest slice of numbers that is lent.
const MAX_ROOM: usize = 200;
/// The longest text buffer that is lent.
pub const MAX_LIST_ROOM: usize = LIST_ROOM + 1_000;
/// The number of a refusal for a slice that is too short.
const TOO_SHORT: u32 = 11;
/// The most bytes that are lent for a sheet in the one way.
pub const MAX_SHEET_ROOM: usize = draft::MAX_SHEET + 100;
/// Such bytes start at any of so many places in turn, the numbers of a single segment too.
const SHIFTS: usize = 8;
/// One arrangement in so many is put together in slices of every room.
const EVERY_ROOM: u64 = 64;

/// What a call on a sheet is lent.
#[derive(Clone, Copy)]
pub struct Lent<'a> {
    pub store: &'a [u32],
    pub sheet: &'a [u8],
}

/// What is asked about: a sheet and the count of its items, 0 where it is refused.
#[derive(Clone, Copy)]
pub struct Asked<'a> {
    pub sheet: &'a [u8],
    pub count: usize,
}

/// What a single segment is asked by.
#[derive(Clone, Copy)]
pub struct Single {
    pub item: usize,
    pub code: u8,
    pub index: usize,
    pub room: usize,
}

impl Single {
    pub fn new(item: usize, code: u8, index: usize, room: usize) -> Self {
        Self {
            item,
            code,
            index,
            room,
        }
    }

    fn describe(&self) -> String {
        let Self {
            item,
            code,
            index,
            room,
        } = self;
        format!("segment item {item} code {code} index {index} room {room}")
    }
}

/// Memory that either side writes a result to, and what is there before and after a call.
struct Memory<T> {
    sides: [Vec<T>; 2],
    old: Vec<T>,
}

impl<T: Copy + PartialEq> Memory<T> {
    fn of(old: Vec<T>) -> Self {
        Self {
            sides: [old.clone(), old.clone()],
            old,
        }
    }

    /// Whether both sides wrote the same result and nothing around it; all is as before then.
    fn gives_back(&mut self, place: usize, length: usize, end: usize) -> bool {
        let [ours, theirs] = &self.sides;
        let behind = place + length..end;
        let is_kept = ours[..end] == theirs[..end]
            && theirs[..place] == self.old[..place]
            && theirs[behind.clone()] == self.old[behind];
        let written = if is_kept {
            place..place + length
        } else {
            0..end
        };
        for side in &mut self.sides {
            side[written.clone()].copy_from_slice(&self.old[written.clone()]);
        }
        is_kept
    }
}

pub struct Checker {
    pub tally: Tally,
    /// Lent with every sheet until another one is.
    store: Placed,
    /// How often one was lent.
    lent: usize,
    ours: Vec<u32>,
    theirs: Vec<u32>,
    text: Vec<u8>,
    buffer: Vec<u8>,
    /// Lent for a sheet in the one way, and for a single segment.
    bytes: Memory<u8>,
    numbers: Memory<u32>,
    /// Draws the lengths of what is lent so, and indexes of segments.
    random: Random,
    /// Items and codes of the sheet asked about that were put together from single segments.
    together: Vec<(usize, u8)>,
    /// Kept for the next question about the same arrangement of the sheet asked about.
    before: Option<Before>,
}

impl Checker {
    pub fn new(seed: u64) -> Self {
        let mut random = Random::new(!seed);
        let mut old = Vec::new();
        draft::noise(&mut random, &mut old, MAX_SHEET_ROOM + SHIFTS + 2 * FRINGE);
        let numbers = (0..MAX_ROOM + SHIFTS + 2 * FRINGE).map(|_| random.next() as u32);
        let numbers = numbers.collect();
        Self {
            tally: Tally::new(),
            store: Placed::new(&EMPTY, 0),
            lent: 0,
            ours: vec![MARK; MAX_ROOM + 2 * FRINGE],
            theirs: vec![MARK; MAX_ROOM + 2 * FRINGE],
            text: vec![MARK_BYTE; MAX_LIST_ROOM],
            buffer: vec![MARK_BYTE; MAX_LIST_ROOM + 2 * FRINGE],
            bytes: Memory::of(old),
            numbers: Memory::of(numbers),
            random,
            together: Vec::new(),
            before: None,
        }
    }

    /// Lends a store from here on, each time at another place in memory.
    pub fn lend(&mut self, store: &[u32]) {
        self.lent += 1;
        self.store = Placed::new(store, self.lent % 4);
    }

    pub fn store(&self) -> &[u32] {
        &self.store
    }

    /// Compares the verdicts and hands on the count of items. Every other question about a sheet
    /// comes behind its verdict, with the same store.
    pub fn verdict<'a>(&mut self, sheet: &'a [u8]) -> Asked<'a> {
        self.forget();
        let ours = calls::verdict(&self.store, sheet);
        let theirs = ffi::verdict(&self.store, sheet);
        let accepted = ours < calls::REFUSED;
        let count = if accepted { ours as usize } else { 0 };
        self.tally.sheets += 1;
        self.tally.accepted_sheets += u64::from(accepted);
        if accepted {
            let site = draft::item_of(sheet, 0);
            self.tally.map_sheets += u64::from(site[0] == draft::MAP_SITE);
            let situation = draft::get(site, draft::situation(site));
            self.tally.situations[situation as usize] += 1;
            self.tally.halls.sheet(sheet, count);
        }
        self.tally.sets.verdict(lent(&self.store, sheet), ours);
        let asked = Asked { sheet, count };
        self.settle(Call::Verdict, asked, 0, [ours, theirs], || {
            "verdict".to_string()
        });
        self.desk_verdict(asked, ours);
        self.layout(asked);
        self.turn_round(asked, ours);
        asked
    }

    /// Leaves what is kept about a sheet, before another one is asked about.
    pub fn forget(&mut self) {
        self.before = None;
        self.together.clear();
    }

    /// Compares the verdicts on the sheet with its roofs turned and holds them to its own; turned
    /// twice it is the sheet again.
    fn turn_round(&mut self, asked: Asked, verdict: u32) {
        let Some(turned) = turns::turned_sheet(asked.sheet, verdict) else {
            return;
        };
        let ours = calls::verdict(&self.store, &turned);
        let theirs = ffi::verdict(&self.store, &turned);
        let other = Asked {
            sheet: &turned,
            ..asked
        };
        self.settle(Call::Verdict, other, 0, [ours, theirs], || {
            "verdict on a turned sheet".to_string()
        });
        let again = turns::turned_sheet(&turned, verdict);
        let is_same = theirs == verdict && again.as_deref() == Some(asked.sheet);
        self.tally.turns.sheet(verdict, is_same);
        if !is_same {
            let [own, turned] = [verdict, theirs].map(show);
            let describe = || format!("verdict {own}, turned {turned}, turned twice {again:02x?}");
            self.disagree(asked.sheet, describe);
        }
    }

    /// Compares the verdicts on a sheet whose verdict is known beforehand; whether the library has
    /// that one.
    pub fn known(&mut self, sheet: &[u8], known: u32) -> bool {
        self.verdict(sheet);
        let theirs = ffi::verdict(&self.store, sheet);
        if theirs != known {
            let describe = || format!("verdict: known {}, library {}", show(known), show(theirs));
            self.disagree(sheet, describe);
        }
        theirs == known
    }

    /// The same where the verdict is a refusal.
    pub fn refused(&mut self, sheet: &[u8], number: u32, item: usize) -> bool {
        self.known(sheet, calls::REFUSED + 65_536 * number + item as u32)
    }

    /// Counts a disagreement about a sheet and the store lent with it.
    pub fn disagree(&mut self, sheet: &[u8], describe: impl FnOnce() -> String) {
        self.tally.disagree(lent(&self.store, sheet), describe);
    }

    /// Compares the desk's verdicts, and holds them to that of a terminal.
    fn desk_verdict(&mut self, asked: Asked, terminal: u32) {
        let ours = calls::desk_verdict(&self.store, asked.sheet);
        let theirs = ffi::desk_verdict(&self.store, asked.sheet);
        self.settle(Call::DeskVerdict, asked, 0, [ours, theirs], || {
            "desk_verdict".to_string()
        });
        if ours == theirs {
            let read = Read::new(asked.sheet, terminal, ours);
            self.tally.read(lent(&self.store, asked.sheet), &read);
        }
    }

    /// Asks for the sheet in the one way, in lent bytes of two lengths. For an accepted one the first
    /// is just enough, and the library's result is read again.
    fn layout(&mut self, asked: Asked) {
        let bytes = if asked.count > 0 {
            let layout = Layout::of(asked.sheet, asked.count);
            self.tally.layouts.sheet(&layout);
            let (_, result) = self.canonical(asked, layout.bytes);
            self.read_again(asked, &result);
            layout.bytes
        } else {
            let room = self.other_room(asked.sheet.len());
            self.canonical(asked, room);
            asked.sheet.len()
        };
        let room = self.other_room(bytes);
        self.canonical(asked, room);
    }

    /// A length beside one, as long, none, or any.
    fn other_room(&mut self, bytes: usize) -> usize {
        let near = self.random.below(2 * bytes + 1);
        let any = self.random.below(MAX_SHEET_ROOM + 1);
        let less = bytes.saturating_sub(1);
        let rooms = [less, less, bytes, bytes + 1, 0, near, any];
        self.random.pick(&rooms).min(MAX_SHEET_ROOM)
    }

    /// Compares the answers, the bytes that are lent and the memory around them; the library's answer
    /// and its result, which is empty where there is none.
    pub fn canonical(&mut self, asked: Asked, room: usize) -> (u32, Vec<u8>) {
        let place = FRINGE + room % SHIFTS;
        let bytes = place..place + room;
        let [ours, theirs] = &mut self.bytes.sides;
        let answers = [
            calls::canonical(&self.store, asked.sheet, &mut ours[bytes.clone()]),
            ffi::canonical(&self.store, asked.sheet, &mut theirs[bytes.clone()]),
        ];
        black_box(theirs);
        self.tally.layouts.room(asked, room);
        let describe = || format!("canonical room {room}");
        self.settle(Call::Canonical, asked, 0, answers, describe);
        let length = match answers[1] {
            length if length < calls::REFUSED => room.min(length as usize),
            _ => 0,
        };
        let result = self.bytes.sides[1][bytes][..length].to_vec();
        let end = place + room + FRINGE;
        let is_kept = self.bytes.gives_back(place, length, end);
        if answers[0] == answers[1] && !is_kept {
            let describe = || format!("{}: other bytes written", describe());
            self.disagree(asked.sheet, describe);
        }
        (answers[1], result)
    }

    /// The library's result is no longer than the sheet, and the library accepts it and writes it so
    /// again. The second calculation reads the sheet's items from it.
    fn read_again(&mut self, asked: Asked, result: &[u8]) {
        let store = &self.store;
        let mut again = vec![!0; result.len()];
        let is_same = ffi::canonical(store, result, &mut again) as usize == result.len()
            && again == result
            && ffi::verdict(store, result) as usize == asked.count
            && result.len() <= asked.sheet.len()
            && canonical::items(store, result) == canonical::items(store, asked.sheet);
        self.tally.layouts.read_again += u64::from(is_same);
        if !is_same {
            self.disagree(asked.sheet, || format!("canonical gives {result:02x?}"));
        }
    }

    /// Compares a sheet in the one way with that known beforehand; whether the library writes that.
    pub fn written_as(&mut self, sheet: &[u8], known: &[u8]) -> bool {
        let asked = self.verdict(sheet);
        let (_, result) = self.canonical(asked, known.len());
        if result != known {
            let describe = || format!("canonical: known {known:02x?}, library {result:02x?}");
            self.disagree(sheet, describe);
        }
        result == known
    }

    /// The same with the answer known beforehand, in lent bytes of a length.
    pub fn answers_as(&mut self, asked: Asked, room: usize, known: u32) -> bool {
        let (answer, _) = self.canonical(asked, room);
        if answer != known {
            let [known, answer] = [known, answer].map(show);
            let describe = || format!("canonical room {room}: known {known}, library {answer}");
            self.disagree(asked.sheet, describe);
        }
        answer == known
    }

    /// Compares segments, the numbers behind them and the memory around the slice.
    pub fn make(&mut self, asked: Asked, item: usize, code: u8, room: usize) -> Vec<u32> {
        self.ours.fill(MARK);
        self.theirs.fill(MARK);
        let slice = FRINGE..FRINGE + room;
        let (store, sheet) = (&self.store, asked.sheet);
        let ours = calls::make(store, sheet, item, code, &mut self.ours[slice.clone()]);
        let theirs = ffi::make(store, sheet, item, code, &mut self.theirs[slice.clone()]);
        black_box(&mut self.theirs);
        self.tally.length(room, ours);
        self.tally.drifts.answer(code, ours);
        self.tally.halls.answer(asked.sheet, item, code, ours);
        let describe = || format!("make item {item} code {code} room {room}");
        self.settle(Call::Make, asked, item, [ours, theirs], describe);
        if ours == theirs && self.ours != self.theirs {
            let (left, right) = (&self.ours[slice.clone()], &self.theirs[slice]);
            let lent = lent(&self.store, asked.sheet);
            self.tally.disagree(lent, || match left == right {
                true => format!("{}: memory around the slice", describe()),
                false => format!("{}: second {left:?}, library {right:?}", describe()),
            });
        }
        let written = if ours < calls::REFUSED { 4 * ours } else { 0 };
        let numbers = self.ours[FRINGE..FRINGE + written as usize].to_vec();
        if ours == theirs {
            self.by_segments(asked, item, code, theirs);
        }
        if ours == theirs && !numbers.is_empty() {
            self.recall(asked, item, code);
            if let Some(before) = &self.before {
                let lent = lent(&self.store, asked.sheet);
                for returned in before.segments(&numbers) {
                    self.tally.returned(lent, &returned, describe);
                }
            }
        }
        numbers
    }

    /// Asks for the same arrangement segment by segment, where it is made once while the sheet is
    /// asked about.
    fn by_segments(&mut self, asked: Asked, item: usize, code: u8, made: u32) {
        if made < calls::REFUSED {
            if !self.together.contains(&(item, code)) {
                self.together.push((item, code));
                self.put_together(asked, item, code, made as usize);
            }
        } else if calls::refusal_parts(made).0 != TOO_SHORT {
            self.not_by_segments(asked, item, code, made);
        }
    }

    /// Puts an arrangement together from single segments and holds it to what the library makes of it
    /// at once. Then asks for segments that aren't there, and in slices that are too short.
    fn put_together(&mut self, asked: Asked, item: usize, code: u8, made: usize) {
        let numbers = self.theirs[FRINGE..FRINGE + 4 * made].to_vec();
        let count = self.segment_count(asked, item, code);
        let mut together = Vec::with_capacity(numbers.len());
        for index in 0..made {
            let room = self.room_for_one();
            let (_, segment) = self.segment(asked, Single::new(item, code, index, room));
            together.extend(segment);
        }
        let is_whole = together == numbers && count as usize == made;
        let kind = draft::item_of(asked.sheet, item)[0];
        let before = self.tally.segments.together(kind, code, is_whole);
        if !is_whole {
            let describe = || {
                format!("item {item} code {code}: {count} segments {together:?}, made {numbers:?}")
            };
            self.disagree(asked.sheet, describe);
        }
        self.other_indexes(asked, item, code, made);
        if before.is_multiple_of(EVERY_ROOM) {
            self.every_room(asked, item, code, made);
        }
    }

    /// Four numbers, or more.
    fn room_for_one(&mut self) -> usize {
        let any = 4 + self.random.below(MAX_ROOM - 3);
        self.random.pick(&[4, 4, 5, 7, 128, any])
    }

    /// The index behind the last segment, another one behind it, and one that is there with too few
    /// numbers lent.
    fn other_indexes(&mut self, asked: Asked, item: usize, code: u8, count: usize) {
        let any = self.random.next() as usize >> self.random.below(64);
        let missing = self.random.pick(&MISSING);
        let behind = self.random.pick(&[count + 1, missing, missing, any]);
        let there = self.random.below(count);
        let few = self.random.below(4);
        let room = self.random.pick(&segments::ROOMS);
        for (index, room) in [(count, room), (behind, few), (there, few)] {
            self.segment(asked, Single::new(item, code, index, room));
        }
    }

    /// Each segment, and the two indexes behind the last one, in slices of every room.
    fn every_room(&mut self, asked: Asked, item: usize, code: u8, count: usize) {
        for index in 0..count + 2 {
            for room in segments::ROOMS {
                self.segment(asked, Single::new(item, code, index, room));
            }
        }
    }

    /// What making refuses for another reason than its slice is refused by both calls, where it is for
    /// the code of a roof by one of them in turn.
    fn not_by_segments(&mut self, asked: Asked, item: usize, code: u8, refusal: u32) {
        let is_both = !(1..asked.count).contains(&item);
        let is_count = self.random.once_in(2);
        let missing = self.random.pick(&MISSING);
        let index = self.random.pick(&[0, 1, 31, 32, missing]);
        let room = self.random.pick(&segments::ROOMS);
        let single = Single::new(item, code, index, room);
        let count = (is_both || is_count).then(|| self.segment_count(asked, item, code));
        let segment = (is_both || !is_count).then(|| self.segment(asked, single).0);
        for answer in count.into_iter().chain(segment) {
            if answer != refusal {
                let [made, answer] = [refusal, answer].map(show);
                let describe = || format!("{}: made {made}, {answer}", single.describe());
                self.disagree(asked.sheet, describe);
            }
        }
    }

    /// Compares the counts of segments; the library's answer.
    pub fn segment_count(&mut self, asked: Asked, item: usize, code: u8) -> u32 {
        let ours = calls::segment_count(&self.store, asked.sheet, item, code);
        let theirs = ffi::segment_count(&self.store, asked.sheet, item, code);
        let describe = || format!("segment_count item {item} code {code}");
        self.settle(Call::SegmentCount, asked, item, [ours, theirs], describe);
        theirs
    }

    /// Compares single segments, the numbers that are lent and the memory around them; the library's
    /// answer and its segment, which is all 0 where there is none.
    pub fn segment(&mut self, asked: Asked, single: Single) -> (u32, [u32; 4]) {
        let Single {
            item,
            code,
            index,
            room,
        } = single;
        let place = FRINGE + (room + index % SHIFTS) % SHIFTS;
        let slice = place..place + room;
        let (store, sheet) = (&self.store, asked.sheet);
        let [ours, theirs] = &mut self.numbers.sides;
        let answers = [
            calls::segment(store, sheet, item, code, index, &mut ours[slice.clone()]),
            ffi::segment(store, sheet, item, code, index, &mut theirs[slice.clone()]),
        ];
        black_box(theirs);
        let is_there = item < asked.count;
        self.tally.segments.answer(is_there, single, answers[1]);
        let describe = || single.describe();
        self.settle(Call::Segment, asked, item, answers, describe);
        let sides = &self.numbers.sides;
        let fronts = [0, 1].map(|side| sides[side][slice.clone()].first_chunk().copied());
        let segment = fronts[1].filter(|_| answers[1] == 4);
        let length = segment.map_or(0, |segment: [u32; 4]| segment.len());
        let end = place + room + FRINGE;
        let is_kept = self.numbers.gives_back(place, length, end);
        if answers[0] == answers[1] && !is_kept {
            let [left, right] = fronts;
            let describe = || match left == right {
                true => format!("{}: memory behind the segment or around", describe()),
                false => format!("{}: second {left:?}, library {right:?}", describe()),
            };
            self.disagree(asked.sheet, describe);
        }
        (answers[1], segment.unwrap_or_default())
    }

    /// Compares the counts with the answer known beforehand; whether the library has that one.
    pub fn known_count(&mut self, asked: Asked, item: usize, code: u8, known: u32) -> bool {
        let answer = self.segment_count(asked, item, code);
        if answer != known {
            let [known, answer] = [known, answer].map(show);
            let describe = || {
                format!("segment_count item {item} code {code}: known {known}, library {answer}")
            };
            self.disagree(asked.sheet, describe);
        }
        answer == known
    }

    /// Compares single segments with what is known beforehand; whether the library answers that.
    pub fn known_segment(&mut self, asked: Asked, single: Single, known: (u32, [u32; 4])) -> bool {
        let answer = self.segment(asked, single);
        if answer != known {
            let [known, answer] = [known, answer].map(|(answer, segment)| (show(answer), segment));
            let describe = || format!("{}: known {known:?}, library {answer:?}", single.describe());
            self.disagree(asked.sheet, describe);
        }
        answer == known
    }

    /// Compares the loads at a station; the library's answer.
    pub fn load(&mut self, asked: Asked, item: usize, code: u8, station: u32) -> u32 {
        let ours = calls::load(&self.store, asked.sheet, item, code, station);
        let theirs = ffi::load(&self.store, asked.sheet, item, code, station);
        self.tally.drifts.answer(code, ours);
        self.tally.halls.answer(asked.sheet, item, code, ours);
        let describe = || format!("load item {item} code {code} station {station}");
        self.settle(Call::Load, asked, item, [ours, theirs], describe);
        if ours == theirs && ours < calls::REFUSED {
            self.recall(asked, item, code);
            if let Some(before) = &self.before {
                let returned = before.at(station, ours);
                let lent = lent(&self.store, asked.sheet);
                self.tally.returned(lent, &returned, describe);
            }
        }
        theirs
    }

    /// The load by the exact rule at a station, where there is one.
    pub fn exact(&mut self, asked: Asked, item: usize, code: u8, station: u32) -> Option<Exact> {
        self.recall(asked, item, code);
        self.before.as_ref()?.exact(station)
    }

    /// Keeps what the loads of an arrangement are held against besides.
    fn recall(&mut self, asked: Asked, item: usize, code: u8) {
        let is_kept = |before: &Before| before.is_of(item, code);
        if !self.before.as_ref().is_some_and(is_kept) {
            self.before = Before::of(lent(&self.store, asked.sheet), item, code);
        }
    }

    /// Compares the overhangs, and holds one that both return to the rule over the unrounded load.
    pub fn overhang(&mut self, asked: Asked, item: usize, slope: u8) {
        let ours = calls::overhang(&self.store, asked.sheet, item, slope);
        let theirs = ffi::overhang(&self.store, asked.sheet, item, slope);
        let describe = || format!("overhang item {item} slope {slope}");
        self.settle(Call::Overhang, asked, item, [ours, theirs], describe);
        if ours == theirs && ours < calls::REFUSED {
            let lent = lent(&self.store, asked.sheet);
            if let Some(eave) = Eave::of(lent, item, slope, ours) {
                self.tally.eave(lent, &eave, describe);
            }
        }
    }

    pub fn guard_force(&mut self, asked: Asked, item: usize, slope: u8) {
        let ours = calls::guard_force(&self.store, asked.sheet, item, slope);
        let theirs = ffi::guard_force(&self.store, asked.sheet, item, slope);
        self.settle(Call::GuardForce, asked, item, [ours, theirs], || {
            format!("guard_force item {item} slope {slope}")
        });
    }

    /// Compares the listings, the bytes behind them and the memory around the buffer.
    pub fn list(&mut self, sheet: &[u8], room: usize) {
        self.tally.call(Call::List);
        let ours = calls::list(&self.store, sheet, &mut self.text[..room]);
        let theirs = ffi::list(&self.store, sheet, &mut self.buffer[FRINGE..FRINGE + room]);
        black_box(&mut self.buffer);
        let (before, after) = self.buffer.split_at(FRINGE);
        let (text, behind) = after.split_at(ours);
        let agree =
            ours == theirs && text == &self.text[..ours] && is_marked(before) && is_marked(behind);
        if !agree {
            let describe = || describe_list(room, &self.text[..ours], theirs, after);
            self.tally.disagree(lent(&self.store, sheet), describe);
            self.buffer.fill(MARK_BYTE);
        }
        self.buffer[FRINGE..FRINGE + ours].fill(MARK_BYTE);
    }

    /// Compares what becomes of a store and the memory around it when a set is added; the library's
    /// answer, and the store after it.
    pub fn add_set(&mut self, store: &[u32], set: &[u32]) -> (u32, Vec<u32>) {
        let [mut ours, mut theirs] = [0, 1].map(|_| {
            let fringe = [MARK; FRINGE];
            [&fringe, store, &fringe].concat()
        });
        let place = FRINGE..FRINGE + store.len();
        let kept = set.to_vec();
        let answers = [
            calls::add_set(&mut ours[place.clone()], set),
            ffi::add_set(&mut theirs[place.clone()], set),
        ];
        self.tally.call(Call::AddSet);
        self.tally.sets.answer(answers[0]);
        if answers[0] != answers[1] || ours != theirs || set != kept {
            let [second, library] = answers.map(show);
            let [ours, theirs] = [&ours, &theirs].map(|memory| &memory[place.clone()]);
            self.tally.disagree(lent(store, &[]), || {
                format!("add_set {set:?}: second {second} {ours:?}, library {library} {theirs:?}")
            });
        }
        (answers[1], theirs[place].to_vec())
    }

    /// Compares the ground loads of a place; the load, where there is one.
    pub fn ground_load(&mut self, region: u8, zone: u8, altitude: u16) -> Option<u32> {
        let ours = calls::ground_load(region, zone, altitude);
        let theirs = ffi::ground_load(region, zone, altitude);
        self.tally.call(Call::GroundLoad);
        self.tally.map.answer(ours);
        if ours != theirs {
            self.tally.disagree(lent(&[], &[]), || {
                format!(
                    "ground_load region {region} zone {zone} altitude {altitude}: second {}, library {}",
                    show(ours),
                    show(theirs)
                )
            });
        }
        (ours < calls::REFUSED).then_some(ours)
    }

    /// Compares the library's listing of a sheet with its listing of another that means the same;
    /// whether they are alike.
    pub fn alike(&mut self, sheet: &[u8], other: &[u8], what: &str) -> bool {
        let store = &self.store;
        let first = ffi::list(store, sheet, &mut self.buffer[FRINGE..FRINGE + LIST_ROOM]);
        let second = ffi::list(store, other, &mut self.text[..LIST_ROOM]);
        let alike = self.buffer[FRINGE..FRINGE + first] == self.text[..second];
        if !alike {
            let lent = lent(store, sheet);
            self.tally
                .disagree(lent, || format!("{what} lists otherwise"));
        }
        self.buffer[FRINGE..FRINGE + first].fill(MARK_BYTE);
        alike
    }

    /// The library's answer of making, and the slice.
    pub fn made(&self, sheet: &[u8], item: usize, code: u8) -> (u32, [u32; 128]) {
        let mut out = [MARK; 128];
        (ffi::make(&self.store, sheet, item, code, &mut out), out)
    }

    /// Whether the library makes the same segments of two sheets.
    pub fn same_segments(&self, sheets: [&[u8]; 2], item: usize, code: u8) -> bool {
        let [first, second] = sheets.map(|sheet| self.made(sheet, item, code));
        first == second
    }

    /// Compares the library's segments with those that it makes of another sheet; whether they are
    /// alike.
    pub fn alike_segments(
        &mut self,
        sheets: [&[u8]; 2],
        item: usize,
        code: u8,
        what: &str,
    ) -> bool {
        let alike = self.same_segments(sheets, item, code);
        if !alike {
            let describe = || format!("item {item} code {code} differs {what}");
            self.tally.disagree(lent(&self.store, sheets[0]), describe);
        }
        alike
    }

    fn settle(
        &mut self,
        call: Call,
        asked: Asked,
        item: usize,
        answers: [u32; 2],
        describe: impl Fn() -> String,
    ) {
        let [ours, theirs] = answers;
        self.tally.call(call);
        self.tally.answer(call, ours, item < asked.count);
        self.tally.index(item, ours);
        if ours != theirs {
            self.tally.disagree(lent(&self.store, asked.sheet), || {
                format!(
                    "{}: second {}, library {}",
                    describe(),
                    show(ours),
                    show(theirs)
                )
            });
        }
    }
}

fn lent<'a>(store: &'a [u32], sheet: &'a [u8]) -> Lent<'a> {
    Lent { store, sheet }
}

fn is_marked(bytes: &[u8]) -> bool {
    bytes.iter().fold(0, |all, byte| all | (byte ^ MARK_BYTE)) == 0
}

fn show(answer: u32) -> String {
    if answer == calls::NONE {
        "none".to_string()
    } else if answer >= calls::REFUSED {
        let (number, item) = calls::refusal_parts(answer);
        format!("refused {number} item {item}")
    } else {
        answer.to_string()
    }
}

/// The first byte in which the buffer differs from the text and the marks behind it.
fn describe_list(room: usize, text: &[u8], theirs: usize, buffer: &[u8]) -> String {
    let expected = text.iter().chain(std::iter::repeat(&MARK_BYTE));
    let place = expected.zip(buffer).position(|(a, b)| a != b);
    let from = place.unwrap_or(0).saturating_sub(40);
    let part = |bytes: &[u8]| {
        let end = bytes.len().min(from + 80);
        String::from_utf8_lossy(&bytes[from.min(end)..end]).into_owned()
    };
    format!(
        "list room {room}: second {} bytes, library {theirs}, first difference at {place:?}\n  {:?}\n  {:?}",
        text.len(),
        part(text),
        part(buffer)
    )
}
