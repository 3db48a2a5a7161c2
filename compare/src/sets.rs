//! Questions about request A8: stores that are refused, stores that are not, and sets that are added.

use second::calls::{LIST_ROOM, REFUSED};

use crate::answers::Answers;
use crate::check::Asked;
use crate::draft;
use crate::fuzz::Fuzz;
use crate::jobs::{FIRST, ITEMS, SITES};
use crate::stores::{self, Set, LAST_DAY};

/// The number that refuses a store or an added set, and the answer with it.
const STORE: u32 = 18;
const STORE_REFUSED: u32 = REFUSED + 65_536 * STORE;
/// Stores that are filled set by set.
const ROUNDS: usize = 3;
/// Days before an added set on which jobs are asked about, for each kind of site.
const EARLIER: usize = 4;

impl Fuzz {
    /// Every way to break a store, numbers at the ends of their ranges, numbers behind the last set,
    /// and sets added one by one.
    pub fn sweep_sets(&mut self) {
        for count in stores::COUNTS {
            let store = stores::store(&mut self.random, count);
            for broken in stores::broken(&store) {
                self.broken_store(&broken);
            }
            for sound in stores::at_ends(&store) {
                self.sound_store(&sound);
            }
            for other in stores::broken_behind(&store) {
                self.behind(&store, &other);
            }
        }
        for _ in 0..ROUNDS {
            self.adding();
        }
    }

    /// Jobs without a day and on the last day on both kinds of sites, and sheets that rules 1, 2 and
    /// 3 refuse.
    fn some_jobs(&mut self, set: &Set) -> Vec<Vec<u8>> {
        let mut jobs = vec![Vec::new(), vec![33, 0]];
        for kind in SITES {
            let mut items = self.job_items(kind, set);
            let undated = draft::sheet(&mut self.random, &items);
            jobs.push(undated[..30].to_vec());
            jobs.push(undated);
            items[0] = draft::dated(&items[0], LAST_DAY);
            jobs.push(draft::sheet(&mut self.random, &items));
            items[FIRST][0] = 0;
            jobs.push(draft::sheet(&mut self.random, &items));
        }
        jobs
    }

    /// Every call on a sheet, and adding, refuse a broken store by 18, whatever the sheet is.
    fn broken_store(&mut self, store: &[u32]) {
        self.checker.lend(store);
        let set = stores::set(&mut self.random, LAST_DAY);
        let mut is_refused = self.not_added(store, &set);
        for sheet in self.some_jobs(&set) {
            is_refused &= self.checker.refused(&sheet, STORE, 0);
            self.checker.list(&sheet, LIST_ROOM);
            let asked = Asked {
                sheet: &sheet,
                count: 0,
            };
            self.index_questions(asked);
            is_refused &= self.refused_by_every_call(store, &sheet);
        }
        self.checker.tally.sets.broken += u64::from(is_refused);
    }

    fn refused_by_every_call(&mut self, store: &[u32], sheet: &[u8]) -> bool {
        let is_refused = Answers::of(store, sheet, ITEMS).are_refused(STORE);
        if !is_refused {
            let describe = || "a call takes a broken store".to_string();
            self.checker.disagree(sheet, describe);
        }
        is_refused
    }

    /// A store that is known to be sound, with a job without a day and one with a day.
    fn sound_store(&mut self, store: &[u32]) {
        self.checker.lend(store);
        let day = stores::day(&mut self.random, store);
        let set = stores::in_use(store, day).unwrap_or(stores::recommended(0));
        let mut items = self.job_items(draft::SITE, &set);
        let undated = draft::packed(&mut self.random, &items);
        let is_accepted = self.checker.known(&undated, ITEMS as u32);
        items[0] = draft::dated(&items[0], day);
        let dated = draft::packed(&mut self.random, &items);
        self.drift_questions(&dated);
        self.checker.list(&dated, LIST_ROOM);
        self.checker.tally.sets.at_ends += u64::from(is_accepted);
    }

    /// Numbers behind the last set change no answer.
    fn behind(&mut self, store: &[u32], other: &[u32]) {
        let set = stores::set(&mut self.random, 0);
        let mut is_same = true;
        for sheet in self.some_jobs(&set) {
            is_same &= self.same_answers([store, other], &sheet);
        }
        self.checker.tally.sets.behind += u64::from(is_same);
    }

    /// Whether every call of the library answers the same about a sheet with either store.
    fn same_answers(&mut self, stores: [&[u32]; 2], sheet: &[u8]) -> bool {
        let [first, second] = stores.map(|store| Answers::of(store, sheet, ITEMS));
        let is_same = first == second;
        if !is_same {
            self.checker.lend(stores[1]);
            let describe = || format!("other answers than with the store {:?}", stores[0]);
            self.checker.disagree(sheet, describe);
        }
        is_same
    }

    /// Sets added one by one up to 32, each after others that are refused, and no 33rd.
    fn adding(&mut self) {
        let mut store = stores::store(&mut self.random, 0);
        for first_day in stores::first_days(&mut self.random, stores::MAX_SETS + 1) {
            let set = stores::set(&mut self.random, first_day);
            for bad in stores::bad_sets(&store, &set) {
                self.not_added(&store, &bad);
            }
            if store[0] as usize == stores::MAX_SETS {
                self.not_added(&store, &set);
                return;
            }
            let after = self.added(&store, &set);
            self.jobs_before(&store, &after, first_day);
            self.jobs_since(&store, &after, first_day);
            store = after;
        }
    }

    /// Whether a set is refused and the store stays as it was.
    fn not_added(&mut self, store: &[u32], set: &[u32]) -> bool {
        let (answer, after) = self.checker.add_set(store, set);
        let is_refused = answer == STORE_REFUSED && after == store;
        if !is_refused {
            self.checker.lend(store);
            let describe = || format!("the set {set:?} is added");
            self.checker.disagree(&[], describe);
        }
        is_refused
    }

    /// The store with a set more, which is behind the last one, the count, and nothing else.
    fn added(&mut self, store: &[u32], set: &Set) -> Vec<u32> {
        let (answer, after) = self.checker.add_set(store, set);
        let known = stores::with_set(store, set);
        if answer != known[0] || after != known {
            self.checker.lend(store);
            let describe = || format!("the set {set:?} gives {answer} and {after:?}");
            self.checker.disagree(&[], describe);
        }
        after
    }

    /// Every call answers as before about jobs without a day and jobs before an added set.
    fn jobs_before(&mut self, store: &[u32], after: &[u32], first_day: u32) {
        let mut days = stores::days(store);
        days.push(first_day.saturating_sub(1));
        days.retain(|&day| day < first_day);
        self.random.shuffle(&mut days);
        days.truncate(EARLIER);
        for kind in SITES {
            let set = stores::sets(after)[store[0] as usize];
            let items = self.job_items(kind, &set);
            let sites = days.iter().map(|&day| draft::dated(&items[0], day));
            for site in sites.chain([items[0].clone()]) {
                let items = [&[site], &items[1..]].concat();
                let sheet = draft::sheet(&mut self.random, &items);
                let is_kept = self.same_answers([store, after], &sheet);
                self.checker.tally.sets.kept += u64::from(is_kept);
            }
        }
    }

    /// Jobs from an added set's first day on use it.
    fn jobs_since(&mut self, store: &[u32], after: &[u32], first_day: u32) {
        self.checker.lend(after);
        for kind in SITES {
            for day in [first_day, (first_day + 1).min(LAST_DAY), LAST_DAY] {
                let set = stores::sets(after)[store[0] as usize];
                let mut items = self.job_items(kind, &set);
                items[0] = draft::dated(&items[0], day);
                let sheet = draft::sheet(&mut self.random, &items);
                self.drift_questions(&sheet);
                self.checker.list(&sheet, LIST_ROOM);
                let answers = [store, after].map(|store| Answers::of(store, &sheet, ITEMS));
                self.checker.tally.sets.moved += u64::from(answers[0] != answers[1]);
            }
        }
    }
}
