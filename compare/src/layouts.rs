//! Questions about request A10 alone: layouts of the same items, other items, and lent bytes of
//! every length.

use second::calls::REFUSED;

use crate::answers::Answers;
use crate::check::{Asked, MAX_SHEET_ROOM};
use crate::draft::{self, MAX_SHEET};
use crate::fuzz::Fuzz;
use crate::jobs::SITES;
use crate::pairs::put_number;
use crate::stores::{self, LAST_DAY};

/// Items in a sheet: the ends of both readers' ranges, those beside them, and a few.
pub const COUNTS: [usize; 8] = [1, 2, 3, 7, 8, 9, 31, 32];
/// How often items of each number are laid out, and in how many ways.
const ROUNDS: usize = 40;
const WAYS: usize = 7;
pub const LAYOUTS: u64 = (ROUNDS * WAYS) as u64;
/// Bytes of a site and two roofs: of kinds 1, 2 and 3, and of kinds 8 with a day, 3 and 10.
const TRIOS: [usize; 2] = [14 + 8 + 15, 14 + 15 + 11];
/// The places of their gaps.
const PLACES: usize = 4;
/// Every gap that leaves room for them, at each of these places.
pub const GAPS: u64 = (PLACES * (2 * (MAX_SHEET - 13) - TRIOS[0] - TRIOS[1])) as u64;
/// Bytes of items that are changed, and pairs of items that are exchanged, for each layout.
const CHANGES: usize = 24;
const EXCHANGES: usize = 6;
/// Items of the sheets for which every length is lent, and lengths above those of the results.
const LENGTH_COUNTS: [usize; 4] = [1, 3, 8, 32];
const ABOVE: usize = 70;
/// The first day of the set in the store.
pub const FIRST_DAY: u32 = 1_000;
/// The longest sheet that is refused with every length lent.
const SHORT: usize = 200;
const TOO_FEW: u32 = REFUSED + 65_536 * 11;

/// Where an accepted sheet has gaps, and how many bytes it has without them.
pub struct Layout {
    /// Bytes before the items, between them and behind them.
    pub gaps: [usize; 3],
    pub bytes: usize,
}

impl Layout {
    pub fn of(sheet: &[u8], count: usize) -> Self {
        let head = 2 + 4 * count;
        let places = (0..count).map(|item| draft::place_of(sheet, item));
        let items = places.map(|place| place.len()).sum::<usize>();
        let first = draft::place_of(sheet, 0).start - head;
        let last = sheet.len() - draft::place_of(sheet, count - 1).end;
        Self {
            gaps: [first, sheet.len() - head - items - first - last, last],
            bytes: head + items,
        }
    }
}

/// Ways to lend bytes for a sheet: none, less, one less than it needs, just enough, one more, more.
pub const ROOMS: usize = 6;

/// The way in which so many are lent.
pub fn room_of(room: usize, bytes: usize) -> usize {
    match room {
        0 => 0,
        _ if room + 1 < bytes => 1,
        _ if room > bytes + 1 => 5,
        _ => room + 3 - bytes,
    }
}

/// A refusal known beforehand: its number, the item that it names, and the sheet.
pub type Known = (u32, usize, Vec<u8>);

/// What is wrong in the place of an item behind a site of kind 1, a pitched roof and an arch, by the
/// number that refuses it.
fn wrong_items(site: &[u8]) -> Vec<Known> {
    let figures = draft::of_figures;
    let given = |values: [u32; 6]| figures(draft::SITE, &values);
    let on_map = |values: [u32; 7]| figures(draft::MAP_SITE, &values);
    let steep = [200, 600, 4_000, 4_000, 600, 200, 4_000, 4_000];
    let spans = |kind| draft::two_spans(kind, &steep);
    let under = |upper| figures(draft::STEPPED, &[8_000, 2_500, upper, 0]);
    vec![
        (3, 1, vec![13]),
        (3, 2, vec![0, 0]),
        (4, 1, vec![]),
        (4, 2, vec![draft::PARAPET; 12]),
        (5, 0, figures(draft::CYLINDRICAL, &[1, 2])),
        (5, 2, site.to_vec()),
        (6, 0, given([1_000, 121, 1, 100, 0, 1_501])),
        (6, 0, on_map([9, 6, 80, 0, 100, 0, 0])),
        (7, 0, given([1_000, 120, 1, 100, 0, 1_501])),
        (7, 0, on_map([9, 6, 80, 1, 100, 0, 1_501])),
        (8, 1, figures(draft::PITCHED, &[801, 0, 0, 0, 1, 1])),
        (8, 2, figures(draft::CYLINDRICAL, &[0, 1])),
        (9, 1, spans(draft::MULTI_SPAN)),
        (9, 2, spans(draft::DRIFT_ROOF)),
        (10, 2, figures(draft::CYLINDRICAL, &[1_001, 2_000])),
        (14, 0, on_map([9, 1, 80, 1, 100, 0, 0])),
        (14, 0, on_map([4, 6, 80, 1, 100, 0, 0])),
        (15, 0, on_map([4, 1, 80, 1, 100, 0, 0])),
        (16, 1, under(2)),
        (16, 2, under(0)),
        (16, 2, under(3)),
        (17, 2, under(2)),
        (19, 0, draft::dated(site, FIRST_DAY - 1)),
    ]
}

impl Fuzz {
    /// Gaps of every size, layouts of few and many items, other items, lent bytes of every length,
    /// and what is refused. The store has one set.
    pub fn sweep_layouts(&mut self) {
        let set = stores::set(&mut self.random, FIRST_DAY);
        let store = stores::of_sets(&mut self.random, &[set]);
        self.checker.lend(&store);
        self.every_gap();
        for (place, count) in COUNTS.into_iter().enumerate() {
            for _ in 0..ROUNDS {
                self.layouts(place, count);
            }
        }
        for count in LENGTH_COUNTS {
            self.every_length(count);
        }
        for _ in 0..ROUNDS {
            self.refused_sheets();
        }
        self.refused_stores(&store);
    }

    /// A site and two roofs with a gap of every size before the first of them, between two, and
    /// behind the last.
    fn every_gap(&mut self) {
        let filling = self.filling(2 * MAX_SHEET);
        for items in self.trios() {
            let known = draft::without_gaps(&items);
            for place in 0..PLACES {
                for gap in 0..=MAX_SHEET - known.len() {
                    let mut gaps = [0; PLACES];
                    gaps[place] = gap;
                    let from = self.random.below(MAX_SHEET);
                    let sheet = draft::with_gaps(&items, &gaps, &filling[from..]);
                    let is_known = self.checker.written_as(&sheet, &known);
                    self.checker.tally.layouts.every_gap += u64::from(is_known);
                }
            }
        }
    }

    fn trios(&mut self) -> [[Vec<u8>; 3]; 2] {
        let random = &mut self.random;
        let given = [draft::SITE, draft::MONOPITCH, draft::PITCHED];
        let site = draft::sound_site(random, draft::MAP_SITE);
        [
            given.map(|kind| draft::item(random, kind)),
            [
                draft::dated(&site, FIRST_DAY),
                draft::item(random, draft::PITCHED),
                draft::under(random, 1),
            ],
        ]
    }

    /// So many bytes of any value.
    fn filling(&mut self, bytes: usize) -> Vec<u8> {
        let mut filling = Vec::new();
        draft::noise(&mut self.random, &mut filling, bytes);
        filling
    }

    /// So many sound items, every second site dated.
    fn sound_items(&mut self, count: usize) -> Vec<Vec<u8>> {
        let mut items = draft::some_items(&mut self.random, count);
        let kind = self.random.pick(&SITES);
        items[0] = draft::sound_site(&mut self.random, kind);
        if self.random.once_in(2) {
            let day = self.random.pick(&[FIRST_DAY, LAST_DAY]);
            items[0] = draft::dated(&items[0], day);
        }
        items
    }

    /// So many items in several layouts, all of which have the same result, and others.
    fn layouts(&mut self, place: usize, count: usize) {
        let items = self.sound_items(count);
        let known = draft::without_gaps(&items);
        self.checker.tally.layouts.items(&items);
        for gaps in self.gaps(count, MAX_SHEET - known.len()) {
            let filling = self.filling(MAX_SHEET);
            let sheet = draft::with_gaps(&items, &gaps, &filling);
            let is_known = self.checker.written_as(&sheet, &known);
            self.checker.tally.layouts.layouts[place] += u64::from(is_known);
            if self.random.once_in(4) {
                self.same_job(&sheet);
            }
        }
        self.changed(&items, &known);
        self.exchanged(&items, &known);
    }

    /// Gaps before each item and behind the last: none, small ones, all bytes that are left before
    /// the first, before the last and behind it, and any that leave some bytes or none.
    fn gaps(&mut self, count: usize, left: usize) -> [Vec<usize>; WAYS] {
        let none = vec![0; count + 1];
        let mut ways = [(); WAYS].map(|()| none.clone());
        let places = left / (count + 1) + 1;
        ways[1].fill_with(|| self.random.below(places.min(6)));
        for (way, place) in [(2, 0), (3, count - 1), (4, count)] {
            ways[way][place] = left;
        }
        let some = self.random.below(left + 1);
        for (way, all) in [(5, some), (6, left)] {
            let mut ends: Vec<_> = (0..count).map(|_| self.random.below(all + 1)).collect();
            ends.sort_unstable();
            ends.push(all);
            let mut from = 0;
            for (gap, end) in ways[way].iter_mut().zip(ends) {
                *gap = end - from;
                from = end;
            }
        }
        ways
    }

    /// Every call of the library answers about its result as about the sheet.
    pub fn same_job(&mut self, sheet: &[u8]) {
        let asked = self.checker.verdict(sheet);
        if asked.count == 0 {
            return;
        }
        let (_, result) = self.checker.canonical(asked, MAX_SHEET_ROOM);
        let store = self.checker.store();
        let [first, second] = [sheet, &result].map(|sheet| Answers::of(store, sheet, asked.count));
        let is_same = first.are_those_of(&second);
        self.checker.tally.layouts.same_jobs += u64::from(is_same);
        if !is_same {
            let describe = || "other answers about the sheet in the one way".to_string();
            self.checker.disagree(sheet, describe);
        }
    }

    /// Whether other items, in any layout, are accepted and the library writes them otherwise.
    fn is_other(&mut self, items: &[Vec<u8>], known: &[u8]) -> bool {
        let sheet = draft::packed(&mut self.random, items);
        if self.checker.verdict(&sheet).count == 0 {
            return false;
        }
        let other = draft::without_gaps(items);
        other != known && self.checker.written_as(&sheet, &other)
    }

    /// One byte of one item changed, half of the time one bit of it, and roofs of kinds 7 and 11 with
    /// the same fields as the other kind.
    fn changed(&mut self, items: &[Vec<u8>], known: &[u8]) {
        for _ in 0..CHANGES {
            let mut items = items.to_vec();
            let place = self.random.below(items.len());
            let at = self.random.below(items[place].len());
            let bit = 1 << self.random.below(8);
            let any = self.random.between(1, 255) as u8;
            items[place][at] ^= if self.random.once_in(2) { bit } else { any };
            let is_other = self.is_other(&items, known);
            self.checker.tally.layouts.changed += u64::from(is_other);
        }
        for place in 1..items.len() {
            let mut items = items.to_vec();
            items[place][0] = match items[place][0] {
                draft::PROJECTION => draft::PARAPET,
                draft::PARAPET => draft::PROJECTION,
                _ => continue,
            };
            let is_other = self.is_other(&items, known);
            self.checker.tally.layouts.kinds_changed += u64::from(is_other);
        }
    }

    /// Two items exchanged, and the last one left out.
    fn exchanged(&mut self, items: &[Vec<u8>], known: &[u8]) {
        for _ in 0..EXCHANGES {
            let mut items = items.to_vec();
            let places = [(); 2].map(|()| self.random.below(items.len()));
            items.swap(places[0], places[1]);
            let is_other = self.is_other(&items, known);
            self.checker.tally.layouts.exchanged += u64::from(is_other);
        }
        let [fewer @ .., _] = items else {
            return;
        };
        if !fewer.is_empty() {
            let is_other = self.is_other(fewer, known);
            self.checker.tally.layouts.fewer += u64::from(is_other);
        }
    }

    /// Lent bytes of every length up to more than the result needs. 11 names item 0.
    fn every_length(&mut self, count: usize) {
        let items = self.sound_items(count);
        let known = draft::without_gaps(&items);
        let sheet = draft::sheet(&mut self.random, &items);
        let asked = self.checker.verdict(&sheet);
        for room in 0..=known.len() + ABOVE {
            let is_enough = room >= known.len();
            let answer = if is_enough {
                known.len() as u32
            } else {
                TOO_FEW
            };
            let is_known = self.checker.answers_as(asked, room, answer);
            self.checker.tally.layouts.lengths[usize::from(is_enough)] += u64::from(is_known);
        }
    }

    /// A site of kind 1, a pitched roof and an arch, refused in every way.
    fn refused_sheets(&mut self) {
        let site = draft::item(&mut self.random, draft::SITE);
        let arch = draft::item(&mut self.random, draft::CYLINDRICAL);
        let sound = [site, draft::item(&mut self.random, draft::PITCHED), arch];
        for known in self.known_refusals(&sound) {
            self.refused_first(&known);
        }
    }

    /// Three sound items in sheets that are refused by 1, by 2, and for an item in place of one.
    pub fn known_refusals(&mut self, sound: &[Vec<u8>; 3]) -> Vec<Known> {
        let filling = self.filling(MAX_SHEET);
        let mut sheets = frames(&draft::without_gaps(sound), &filling);
        sheets.extend(bad_pairs(&draft::without_gaps(sound)));
        for (number, place, item) in wrong_items(&sound[0]) {
            let mut items = sound.clone();
            items[place] = item;
            let sheet = draft::sheet(&mut self.random, &items);
            sheets.push((number, place, sheet));
        }
        sheets
    }

    /// A broken store comes before any sheet.
    fn refused_stores(&mut self, store: &[u32]) {
        for broken in stores::broken(store) {
            self.checker.lend(&broken);
            let items = self.sound_items(3);
            let sheet = draft::sheet(&mut self.random, &items);
            self.refused_first(&(18, 0, sheet));
            self.refused_first(&(18, 0, vec![33, 0]));
        }
    }

    /// The refusal comes before 11, whatever is lent.
    fn refused_first(&mut self, known: &Known) {
        let (number, item, sheet) = known;
        self.checker.refused(sheet, *number, *item);
        let asked = Asked { sheet, count: 0 };
        let answer = REFUSED + 65_536 * number + *item as u32;
        let most = sheet.len().min(SHORT) + 1;
        for room in (0..=most).chain([MAX_SHEET_ROOM]) {
            let is_known = self.checker.answers_as(asked, room, answer);
            self.checker.tally.layouts.refused(*number, room, is_known);
        }
    }
}

/// Sheets of no bytes, of one, with the counts 0 and 33, cut inside the pairs, and too long.
fn frames(sheet: &[u8], filling: &[u8]) -> Vec<Known> {
    let with_count = |count: u8| [&[count, 0], &filling[2..SHORT]].concat();
    let frames = [
        vec![],
        sheet[..1].to_vec(),
        with_count(0),
        with_count(33),
        sheet[..13].to_vec(),
        [&sheet[..2], &filling[1..]].concat(),
    ];
    frames.map(|sheet| (1, 0, sheet)).to_vec()
}

/// A sheet of three items without gaps, with each offset and the last length off by one, and the
/// other lengths so that the next item begins too early.
fn bad_pairs(sheet: &[u8]) -> Vec<Known> {
    let with = |at, item, difference: i32| {
        let mut sheet = sheet.to_vec();
        let number = u16::from_le_bytes([sheet[at], sheet[at + 1]]);
        put_number(&mut sheet, at, (i32::from(number) + difference) as u16);
        (2, item, sheet)
    };
    let offsets = (0..3).map(|item| with(2 + 4 * item, item, -1));
    let lengths = (0..3).map(|item| with(4 + 4 * item, 2.min(item + 1), 1));
    offsets.chain(lengths).collect()
}

#[cfg(test)]
mod tests {
    use super::*;

    #[test]
    fn rooms() {
        let rooms = [0, 1, 18, 19, 20, 21, 22, 23, 90];
        let ways = rooms.map(|room| room_of(room, 20));
        assert_eq!(ways, [0, 1, 1, 2, 3, 4, 5, 5, 5]);
    }

    #[test]
    fn gaps_by_their_place() {
        let items = [vec![1; 14], vec![2; 8], vec![3; 15]];
        for gaps in [[0; 4], [1, 2, 4, 8]] {
            let sheet = draft::with_gaps(&items, &gaps, &[0; 15]);
            let layout = Layout::of(&sheet, 3);
            assert_eq!(layout.gaps, [gaps[0], gaps[1] + gaps[2], gaps[3]]);
            assert_eq!(layout.bytes, 51);
            assert_eq!(sheet.len(), 51 + gaps.iter().sum::<usize>());
        }
    }

    /// The library is the second calculation itself here.
    #[test]
    fn every_case_is_met() {
        let mut fuzz = Fuzz::new(1);
        fuzz.sweep_layouts();
        let tally = &fuzz.checker.tally;
        assert!(tally.agrees());
        assert!(tally.layouts.is_good());
    }
}
