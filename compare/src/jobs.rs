//! Questions about request A8: dated jobs, the set that each uses, and the loads under it.

use second::calls::REFUSED;
use second::ground;

use crate::check::{Asked, Lent};
use crate::draft;
use crate::fuzz::Fuzz;
use crate::stores::{self, Set, FIGURES, LAST_DAY};
use crate::tally::Rising;

/// The two kinds of sites.
pub const SITES: [u8; 2] = [draft::SITE, draft::MAP_SITE];
/// The kinds of roofs that stand behind the hall of a job.
pub const KINDS: [u8; 4] = [
    draft::CYLINDRICAL,
    draft::LOWER,
    draft::PROJECTION,
    draft::STEPPED,
];
/// The item of the first of them. The site is item 0 and the hall item 1.
pub const FIRST: usize = 2;
pub const ITEMS: usize = FIRST + KINDS.len();
/// Codes of the hall and these roofs, and those of them that a set changes.
const CODES: [u8; 6] = [1, 2, 3, 11, 12, 13];
const DRIFTED: [u8; 2] = [2, 12];
/// Stores of each count with jobs on every day worth meeting.
const ROUNDS: usize = 4;
/// Rounds of heavier and heavier snow, and how many ground loads are drawn for each.
const RISING_ROUNDS: usize = 200;
const WEIGHTS: usize = 14;
/// Counts of sets in the stores of which every day is asked for, on both kinds of sites.
const DAY_COUNTS: [usize; 2] = [2, 32];
pub const EVERY_DAY: u64 = 2 * 2 * 65_536;
/// Every value of the three coefficients and the two lengths.
pub const EVERY_FIGURE: u64 = 3 * 800 + 2 * 29_001;

/// A job as the tally counts it.
pub struct Job {
    pub on_map: bool,
    /// Sets in the store.
    pub count: usize,
    /// Of a dated one: whether it is before every first day, on the day before one, on one, and on
    /// the day after one.
    pub days: Option<[bool; 4]>,
}

impl Job {
    /// A job that is accepted, or refused by 19.
    pub fn of(lent: Lent) -> Self {
        let site = draft::item_of(lent.sheet, 0);
        let sets = stores::sets(lent.store);
        let begins = |day: u32| sets.iter().any(|set| set[0] == day);
        let days = draft::day_of(site).map(|day| {
            let is_begun = sets.iter().any(|set| set[0] <= day);
            let is_after = day.checked_sub(1).is_some_and(begins);
            [!is_begun, begins(day + 1), begins(day), is_after]
        });
        Self {
            on_map: site[0] == draft::MAP_SITE,
            count: sets.len(),
            days,
        }
    }
}

/// The ground load of a sound site.
fn ground_load(site: &[u8]) -> u32 {
    let figure = |field| draft::get(site, field);
    if site[0] == draft::SITE {
        return figure(draft::GROUND_LOAD);
    }
    let [region, zone] = [draft::REGION, draft::ZONE].map(|field| figure(field) as u8);
    let altitude = figure(draft::altitude(site)) as u16;
    ground::load(region, zone, altitude).expect("the load of a sound site is in range")
}

impl Fuzz {
    /// Jobs by day, under heavier and heavier snow, on every day, under every figure, and the rules
    /// on a dated site.
    pub fn sweep_jobs(&mut self) {
        for _ in 0..ROUNDS {
            for count in stores::COUNTS {
                self.every_job(count);
            }
        }
        for _ in 0..RISING_ROUNDS {
            self.rising();
        }
        self.every_day();
        self.every_figure();
        self.site_rules();
    }

    /// A site of a kind, a hall and the roofs, close to where the limits of a set decide.
    pub fn job_items(&mut self, kind: u8, set: &Set) -> Vec<Vec<u8>> {
        let site = draft::sound_site(&mut self.random, kind);
        let roofs = draft::limited(&mut self.random, set, ground_load(&site));
        [&[site][..], &roofs].concat()
    }

    /// Jobs on and beside every first day of a store, on both kinds of sites.
    fn every_job(&mut self, count: usize) {
        let store = stores::store(&mut self.random, count);
        self.checker.lend(&store);
        for kind in SITES {
            for day in stores::days(&store) {
                self.job(kind, day, stores::in_use(&store, day));
            }
        }
    }

    /// Every call on a job with its day and without.
    fn job(&mut self, kind: u8, day: u32, set: Option<Set>) {
        let near = set.unwrap_or(stores::recommended(0));
        let mut items = self.job_items(kind, &near);
        let undated = draft::sheet(&mut self.random, &items);
        items[0] = draft::dated(&items[0], day);
        let dated = draft::sheet(&mut self.random, &items);
        for sheet in [&dated, &undated] {
            self.ask_anywhere(sheet);
            let asked = self.checker.verdict(sheet);
            self.roof_questions(asked);
        }
        if let Some(set) = set {
            self.beside_undated([&dated, &undated], set);
        }
    }

    fn roof_questions(&mut self, asked: Asked) {
        for item in 1..ITEMS {
            for code in CODES {
                self.arrangement_questions(asked, item, code);
            }
            self.force_questions(asked, item);
        }
    }

    /// What the library makes of a job with its day and without. A set changes kinds 5, 6 and 10,
    /// their drifted codes alone, and the recommended figures change nothing.
    fn beside_undated(&mut self, sheets: [&[u8]; 2], set: Set) {
        let is_recommended = set == stores::recommended(set[0]);
        for (place, kind) in KINDS.into_iter().enumerate() {
            let item = FIRST + place;
            let may_change = kind != draft::PROJECTION && !is_recommended;
            for code in CODES {
                if !(may_change && DRIFTED.contains(&code)) {
                    let what = "without its day";
                    self.checker.alike_segments(sheets, item, code, what);
                }
            }
            let same = self.checker.same_segments(sheets, item, DRIFTED[0]);
            self.checker.tally.sets.segments[place][usize::from(!same)] += 1;
        }
        if is_recommended {
            let alike = self.checker.alike(sheets[0], sheets[1], "without its day");
            self.checker.tally.sets.recommended += u64::from(alike);
        }
    }

    /// Jobs under heavier and heavier snow that use equal sets: on days of one set or of another with
    /// the same figures, and without a day where these are the recommended ones. No load falls.
    fn rising(&mut self) {
        let [first, other] = [100, 200].map(|day| stores::set(&mut self.random, day));
        let mut again = first;
        again[0] = 300;
        let store = stores::of_sets(&mut self.random, &[first, other, again]);
        self.checker.lend(&store);
        let mut days = [100, 101, 199, 300, LAST_DAY].map(Some).to_vec();
        days.extend((first == stores::recommended(100)).then_some(None));
        for kind in SITES {
            let mut items = self.job_items(kind, &first);
            let mut lighter = Vec::new();
            for site in self.heavier_sites(&items[0]) {
                let day = self.random.pick(&days);
                items[0] = day.map_or(site.clone(), |day| draft::dated(&site, day));
                let sheet = draft::sheet(&mut self.random, &items);
                let asked = self.checker.verdict(&sheet);
                let loads = self.loads(asked, &CODES);
                let rising = self.no_load_falls(&sheet, &lighter, &loads);
                self.checker.tally.sets.rising += rising;
                lighter = loads;
            }
        }
    }

    /// The site under heavier and heavier snow: with other ground loads, or on the map at other
    /// altitudes. The roofs are drawn for the site's own, so those beside it are among them.
    fn heavier_sites(&mut self, site: &[u8]) -> Vec<Vec<u8>> {
        let field = match site[0] {
            draft::SITE => draft::GROUND_LOAD,
            _ => draft::altitude(site),
        };
        let own = draft::get(site, field);
        let mut values = vec![own.saturating_sub(1).max(field.low), own];
        values.push((own + 1).min(field.high));
        values.extend((0..WEIGHTS).map(|_| draft::draw(&mut self.random, field)));
        values.sort_unstable();
        let with = |value| {
            let mut site = site.to_vec();
            draft::put(&mut site, field, value);
            site
        };
        values.into_iter().map(with).collect()
    }

    /// The loads at the breaks of a sheet's arrangements of some codes, beside them and between them.
    /// Where the breaks are doesn't depend on the snow.
    pub fn loads(&mut self, asked: Asked, codes: &[u8]) -> Vec<u32> {
        let mut loads = Vec::new();
        for item in 1..asked.count {
            for &code in codes {
                let numbers = self.checker.make(asked, item, code, 128);
                for segment in numbers.chunks_exact(4) {
                    let (start, end) = (segment[0], segment[1]);
                    for station in [start, start + 1, (start + end) / 2, end - 1, end] {
                        loads.push(self.checker.load(asked, item, code, station));
                    }
                }
            }
        }
        loads
    }

    /// Holds the loads of a sheet to those under the snow before, of which the first has none.
    pub fn no_load_falls(&mut self, sheet: &[u8], lighter: &[u32], heavier: &[u32]) -> Rising {
        let mut rising = Rising::default();
        for (place, (light, heavy)) in lighter.iter().zip(heavier).enumerate() {
            rising.count(light == heavy);
            if light > heavy || *heavy >= REFUSED {
                let describe = || format!("load {place} under heavier snow: {light}, then {heavy}");
                self.checker.disagree(sheet, describe);
            }
        }
        rising
    }

    /// Every number of 16 bits for the job day. A half circle shows the upper value of each set.
    fn every_day(&mut self) {
        for count in DAY_COUNTS {
            let mut sets = stores::sets(&stores::store(&mut self.random, count));
            for (number, set) in (0..).zip(&mut sets) {
                stores::put(set, 1, 300 + 5 * number);
            }
            let store = stores::of_sets(&mut self.random, &sets);
            self.checker.lend(&store);
            for kind in SITES {
                let site = draft::sound_site(&mut self.random, kind);
                let arch = draft::of_figures(draft::CYLINDRICAL, &[5_000, 10_000]);
                for day in 0..=LAST_DAY {
                    let items = [draft::dated(&site, day), arch.clone()];
                    let sheet = draft::packed(&mut self.random, &items);
                    let asked = self.checker.verdict(&sheet);
                    self.checker.make(asked, 1, DRIFTED[0], 128);
                    self.checker.tally.sets.every_day += 1;
                }
            }
        }
    }

    /// Every value of each figure of a set, with roofs close to its limits.
    fn every_figure(&mut self) {
        for (place, figure) in FIGURES.iter().enumerate().skip(1) {
            for value in figure.low..=figure.high {
                let mut set = stores::set(&mut self.random, 1_000);
                stores::put(&mut set, place, value);
                let store = stores::of_sets(&mut self.random, &[set]);
                self.checker.lend(&store);
                let kind = self.random.pick(&SITES);
                let mut items = self.job_items(kind, &set);
                items[0] = draft::dated(&items[0], 1_000);
                let sheet = draft::packed(&mut self.random, &items);
                self.drift_questions(&sheet);
                self.checker.tally.sets.every_figure += 1;
            }
        }
    }

    /// The drifted arrangement of each roof of a job, and a load on it.
    pub fn drift_questions(&mut self, sheet: &[u8]) {
        let asked = self.checker.verdict(sheet);
        for item in FIRST..ITEMS {
            let numbers = self.checker.make(asked, item, DRIFTED[0], 128);
            if let Some(&end) = numbers.get(1) {
                let station = self.random.between(0, end);
                self.checker.load(asked, item, DRIFTED[0], station);
            }
        }
    }

    /// A dated site, where a set has begun and where none has, with every field at the ends of its
    /// range and beside them, with every length, and with a wrong item behind it.
    fn site_rules(&mut self) {
        let set = stores::set(&mut self.random, 1_000);
        for sets in [&[][..], &[set]] {
            let store = stores::of_sets(&mut self.random, sets);
            self.checker.lend(&store);
            for kind in SITES {
                for day in [0, 999, 1_000, LAST_DAY] {
                    let mut items = self.job_items(kind, &set);
                    items[0] = draft::dated(&items[0], day);
                    self.field_ends(&items, 0);
                    self.site_lengths(&items);
                    self.wrong_items(&items);
                }
            }
        }
    }

    fn site_lengths(&mut self, items: &[Vec<u8>]) {
        for length in 0..=20 {
            let mut items = items.to_vec();
            items[0].resize(length, 0);
            self.verdict_and_list(&items);
        }
    }

    /// A last item that is empty, of an unknown kind, not of its length, a site, has a field outside
    /// its range, or is a stepped roof without an upper item.
    fn wrong_items(&mut self, items: &[Vec<u8>]) {
        let (site, arch) = (items[0].clone(), &items[FIRST]);
        let short = arch[..8].to_vec();
        let flat = draft::of_figures(draft::CYLINDRICAL, &[0, 0]);
        let alone = draft::under(&mut self.random, 31);
        for last in [vec![], vec![0], short, site, flat, alone] {
            self.verdict_and_list(&[items, &[last]].concat());
        }
    }
}
