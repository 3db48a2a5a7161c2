//! Questions about request A11 alone: single segments of every roof in slices of every room, and what
//! is refused.

use second::calls::REFUSED;

use crate::check::{Asked, Single};
use crate::draft;
use crate::fuzz::Fuzz;
use crate::layouts::{Known, FIRST_DAY};
use crate::stores;
use crate::tally::MISSING;

/// Segments of the longest arrangement.
pub const MOST: usize = 32;
/// Rooms in which every segment is asked for.
pub const ROOMS: [usize; 10] = [0, 1, 2, 3, 4, 5, 6, 7, 8, 128];
/// Kinds and codes that go together: kind 9 has 19 codes, kind 3 has 6, each of 4, 5, 6 and 10 has 4,
/// kind 2 has 2, and each of 7, 11 and 12 has one.
pub const CODES: usize = 19 + 6 + 4 * 4 + 2 + 3;
/// The rules that a single segment is refused by, in their order: the store, the sheet, the item's
/// index, the code, the segment's index and the room. A bit of a way stands for each one.
const RULES: usize = 6;
/// Ways to break some of them, and the way that breaks none.
pub const WAYS: usize = 1 << RULES;
/// Codes that no roof has.
const NO_CODES: [u8; 7] = [0, 4, 10, 14, 30, 46, 255];
/// The item whose rules are broken. A pitched roof stands before it.
const ITEM: usize = 2;
/// How often all roofs are drawn.
const ROUNDS: usize = 2;

/// The answer with a segment, or a refusal and no segment.
type Answer = (u32, [u32; 4]);

fn refused(number: u32, item: usize) -> Answer {
    (REFUSED + 65_536 * number + item.min(65_535) as u32, [0; 4])
}

/// The answer about a segment that is there or isn't.
fn answer(segment: Option<&[u32; 4]>, item: usize, room: usize) -> Answer {
    match segment {
        None => refused(12, item),
        Some(_) if room < 4 => refused(11, item),
        Some(segment) => (4, *segment),
    }
}

/// An arrangement of a sound sheet, and the stores and sheets that are refused in its place.
struct Sound {
    store: Vec<u32>,
    broken: Vec<Vec<u32>>,
    sheet: Vec<u8>,
    refused: Vec<Known>,
    code: u8,
    segments: Vec<[u32; 4]>,
}

impl Fuzz {
    /// Roofs of every kind and code, kinds 4 and 9 with every count of spans, and all ways to break
    /// the rules. The store has one set.
    pub fn sweep_segments(&mut self) {
        let set = stores::set(&mut self.random, FIRST_DAY);
        let store = stores::of_sets(&mut self.random, &[set]);
        self.checker.lend(&store);
        for _ in 0..ROUNDS {
            for situation in 0..=draft::MAX_SITUATION {
                self.kinds_by_segments(situation);
                for place in 0..draft::SPANNED.len() {
                    self.spans_by_segments(situation, place);
                }
            }
        }
        for situation in 0..=draft::MAX_SITUATION {
            self.broken_rules(&store, situation);
        }
    }

    /// A roof of each kind, a stepped one under each kind of upper item.
    fn kinds_by_segments(&mut self, situation: u32) {
        let items = draft::each_kind(&mut self.random, situation);
        let sheet = draft::sheet(&mut self.random, &items);
        let asked = self.checker.verdict(&sheet);
        for item in 1..items.len() {
            for code in 0..=46 {
                self.every_segment(asked, item, code);
            }
        }
    }

    /// Roofs with 2 to 16 spans. Each slope is a segment, and an exceptional drift has two between two
    /// bare ones.
    fn spans_by_segments(&mut self, situation: u32, place: usize) {
        for spans in 2..=draft::MAX_SPANS {
            let site = draft::site_in(&mut self.random, situation);
            let roof = draft::spans(&mut self.random, draft::SPANNED[place], spans);
            let sheet = draft::packed(&mut self.random, &[site, roof]);
            let asked = self.checker.verdict(&sheet);
            for code in 0..=46 {
                let known = if code > 30 { 4 } else { 2 * spans };
                let count = self.every_segment(asked, 1, code);
                self.checker.tally.segments.spans[place][spans - 2] += u64::from(count == known);
                if ![0, known].contains(&count) {
                    let describe = || format!("code {code}: known {known} segments, made {count}");
                    self.checker.disagree(&sheet, describe);
                }
            }
        }
    }

    /// Every index of an arrangement, those behind the last one and those that no arrangement has, in
    /// every room; the count, 0 where the code isn't made.
    fn every_segment(&mut self, asked: Asked, item: usize, code: u8) -> usize {
        let numbers = self.checker.make(asked, item, code, 128);
        let (segments, _) = numbers.as_chunks();
        let count = segments.len();
        if count == 0 {
            return 0;
        }
        for index in (0..count + 2).chain(MISSING) {
            for (place, room) in ROOMS.into_iter().enumerate() {
                let known = answer(segments.get(index), item, room);
                let single = Single::new(item, code, index, room);
                let is_known = self.checker.known_segment(asked, single, known);
                let tally = &mut self.checker.tally.segments;
                tally.room(index < count, index, place, is_known);
            }
        }
        count
    }

    /// Every way to break the rules about each code of a roof of each kind.
    fn broken_rules(&mut self, store: &[u32], situation: u32) {
        let mut roofs = draft::ROOFS
            .map(|kind| draft::item(&mut self.random, kind))
            .to_vec();
        roofs.push(draft::under(&mut self.random, 1));
        for roof in roofs {
            let site = draft::site_in(&mut self.random, situation);
            let hall = draft::item(&mut self.random, draft::PITCHED);
            let items = [site, hall, roof];
            let mut refused = self.known_refusals(&items);
            // Here the roof behind such an item may be one that it stands under.
            refused.retain(|&(number, place, _)| (number, place) != (16, 1));
            let mut sound = Sound {
                store: store.to_vec(),
                broken: stores::broken(store),
                sheet: draft::packed(&mut self.random, &items),
                refused,
                code: 0,
                segments: Vec::new(),
            };
            for code in 0..=46 {
                self.checker.lend(store);
                let asked = self.checker.verdict(&sound.sheet);
                let numbers = self.checker.make(asked, ITEM, code, 128);
                sound.code = code;
                sound.segments = numbers.as_chunks().0.to_vec();
                self.every_way(&sound);
            }
        }
    }

    fn every_way(&mut self, sound: &Sound) {
        if sound.segments.is_empty() {
            return;
        }
        for way in 0..WAYS {
            let is_known = self.broken_way(sound, |rule| way >> rule & 1 == 1);
            *self.checker.tally.segments.ways.entry(way).or_default() += u64::from(is_known);
        }
    }

    /// Whether the library has the refusal of the first rule that is broken, or else the segment.
    fn broken_way(&mut self, sound: &Sound, is_broken: impl Fn(usize) -> bool) -> bool {
        let store = match is_broken(0) {
            true => &sound.broken[self.random.below(sound.broken.len())],
            false => &sound.store,
        };
        self.checker.lend(store);
        let whole = (0, 0, sound.sheet.clone());
        let (number, place, sheet) = match is_broken(1) {
            true => &sound.refused[self.random.below(sound.refused.len())],
            false => &whole,
        };
        let asked = self.checker.verdict(sheet);
        let single = self.single(sound, &is_broken);
        let item = single.item;
        let refusals = [
            refused(18, 0),
            refused(*number, *place),
            refused(12, item),
            refused(13, item),
            refused(12, item),
            refused(11, item),
        ];
        let first = (0..RULES).find(|&rule| is_broken(rule));
        let segment = sound.segments.get(single.index);
        let known = first.map_or_else(|| answer(segment, item, single.room), |rule| refusals[rule]);
        let count = match first {
            Some(rule) if rule < 4 => known.0,
            _ => sound.segments.len() as u32,
        };
        let is_count = self.checker.known_count(asked, item, single.code, count);
        self.checker.known_segment(asked, single, known) && is_count
    }

    /// What a segment is asked by where some of the last four rules are broken.
    fn single(&mut self, sound: &Sound, is_broken: impl Fn(usize) -> bool) -> Single {
        let random = &mut self.random;
        let missing = random.pick(&MISSING);
        let (mut item, mut code) = (ITEM, sound.code);
        if is_broken(2) {
            item = missing;
        }
        if is_broken(3) && !is_broken(2) && random.once_in(4) {
            // The site has no arrangement.
            item = 0;
        } else if is_broken(3) {
            code = random.pick(&NO_CODES);
        }
        let count = sound.segments.len();
        let past = random.pick(&[count, count + 1, MOST, missing]);
        let there = random.below(count);
        let few = random.below(4);
        let enough = 4 + random.below(125);
        Single {
            item,
            code,
            index: if is_broken(4) { past } else { there },
            room: if is_broken(5) { few } else { enough },
        }
    }
}

#[cfg(test)]
mod tests {
    use super::*;

    /// The library is the second calculation itself here.
    #[test]
    fn every_case_is_met() {
        let mut fuzz = Fuzz::new(1);
        fuzz.sweep_segments();
        let tally = &fuzz.checker.tally;
        assert!(tally.agrees());
        assert!(tally.segments.is_good());
    }
}
