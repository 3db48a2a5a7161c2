//! National figures by date (request A8): the lent store, its sets, and the set that a job uses.

use std::ops::RangeInclusive;

use crate::sheet::{number, Refusal};

/// The most sets that a store holds.
pub const MAX_SETS: usize = 32;
/// Numbers of a set: first day, upper value of μ3, low and high of μw, low and high of the drift
/// length.
pub const FIELDS: usize = 6;
/// Numbers of a store: the count, then those of the sets.
pub const NUMBERS: usize = 1 + FIELDS * MAX_SETS;
/// A store without sets.
pub static EMPTY: [u32; NUMBERS] = [0; NUMBERS];

/// Values of μ, in hundredths.
const COEFFICIENTS: RangeInclusive<u32> = 1..=800;
/// Drift lengths in mm.
const DRIFT_LENGTHS: RangeInclusive<u32> = 1_000..=30_000;
/// The store is refused, or a set that is to be added.
const REFUSAL: Refusal = Refusal {
    number: number::STORE,
    item: 0,
};

/// A range with both ends, the low one not above the high one.
#[derive(Clone, Copy, Debug, PartialEq, Eq)]
pub struct Limits {
    pub low: u32,
    pub high: u32,
}

impl Limits {
    pub const fn new(low: u32, high: u32) -> Self {
        Self { low, high }
    }

    /// Two numbers of a set, where they make a range within another.
    fn within(ends: [u32; 2], range: RangeInclusive<u32>) -> Option<Self> {
        let [low, high] = ends;
        let is_sound = range.contains(&low) && range.contains(&high) && low <= high;
        is_sound.then_some(Self { low, high })
    }
}

/// The national figures of a job. μ is in hundredths, lengths are in mm.
#[derive(Clone, Copy, Debug, PartialEq, Eq)]
pub struct National {
    /// The upper value of μ3, for kind 5.
    pub arch: u32,
    /// The range of μw, for kinds 6 and 10.
    pub wind: Limits,
    /// The range of drift lengths, for kinds 6 and 10.
    pub drift: Limits,
}

/// The figures of a job without a day.
pub const RECOMMENDED: National = National {
    arch: 200,
    wind: Limits::new(80, 400),
    drift: Limits::new(5_000, 15_000),
};

/// A set whose numbers lie within their ranges.
#[derive(Clone, Copy)]
struct Set {
    first_day: u16,
    national: National,
}

impl Set {
    fn of(numbers: &[u32]) -> Option<Self> {
        let &[first_day, arch, wind_low, wind_high, drift_low, drift_high] = numbers else {
            return None;
        };
        let national = National {
            arch: COEFFICIENTS.contains(&arch).then_some(arch)?,
            wind: Limits::within([wind_low, wind_high], COEFFICIENTS)?,
            drift: Limits::within([drift_low, drift_high], DRIFT_LENGTHS)?,
        };
        Some(Self {
            first_day: u16::try_from(first_day).ok()?,
            national,
        })
    }
}

/// A store that is not refused.
pub struct Store {
    /// By first day, each strictly later than the one before.
    sets: Vec<Set>,
}

impl Store {
    /// 18 unless there are 193 numbers, at most 32 sets, and each set is sound and later than the
    /// one before. Numbers behind the last set are free.
    pub fn of(numbers: &[u32]) -> Result<Self, Refusal> {
        if numbers.len() != NUMBERS || numbers[0] > MAX_SETS as u32 {
            return Err(REFUSAL);
        }
        let used = FIELDS * numbers[0] as usize;
        let sets: Option<Vec<_>> = numbers[1..=used]
            .chunks_exact(FIELDS)
            .map(Set::of)
            .collect();
        let store = Self {
            sets: sets.ok_or(REFUSAL)?,
        };
        let is_later = |pair: &[Set]| pair[0].first_day < pair[1].first_day;
        if !store.sets.windows(2).all(is_later) {
            return Err(REFUSAL);
        }
        Ok(store)
    }

    /// The figures of the last set that has begun on a day.
    fn begun(&self, day: u16) -> Option<National> {
        let set = self.sets.iter().rfind(|set| set.first_day <= day)?;
        Some(set.national)
    }

    /// The figures that a job uses, dated or not; 19 where no set has begun.
    pub fn in_use(&self, day: Option<u16>) -> Result<National, u8> {
        match day {
            Some(day) => self.begun(day).ok_or(number::NOT_BEGUN),
            None => Ok(RECOMMENDED),
        }
    }
}

/// Puts a set behind the last one of a store; the new count.
pub fn add(store: &mut [u32], set: &[u32]) -> Result<u32, Refusal> {
    let sets = Store::of(store)?.sets;
    let added = Set::of(set).ok_or(REFUSAL)?;
    let is_later = sets
        .last()
        .is_none_or(|last| last.first_day < added.first_day);
    if sets.len() == MAX_SETS || !is_later {
        return Err(REFUSAL);
    }
    store[1 + FIELDS * sets.len()..][..FIELDS].copy_from_slice(set);
    store[0] += 1;
    Ok(store[0])
}

#[cfg(test)]
mod tests {
    use super::*;
    use crate::calls;
    use crate::sheets::{dated, sheet, store, with_site, words, MAP_SITE, SITE};

    const STORE_REFUSED: u32 = 0x8012_0000;
    const NOT_BEGUN: u32 = 0x8013_0000;

    /// A set with figures that are not the recommended ones.
    fn set(first_day: u32) -> [u32; FIELDS] {
        [first_day, 150, 50, 600, 2_000, 20_000]
    }

    /// So many sets that begin on days 10, 20, 30 and so on.
    fn sets(count: u32) -> Vec<[u32; FIELDS]> {
        (1..=count).map(|number| set(10 * number)).collect()
    }

    fn is_sound(sets: &[[u32; FIELDS]]) -> bool {
        Store::of(&store(sets)).is_ok()
    }

    fn changed(field: usize, number: u32) -> [u32; FIELDS] {
        let mut changed = set(10);
        changed[field] = number;
        changed
    }

    #[test]
    fn a_store_has_193_numbers() {
        for length in [0, 1, 7, 192, 194, 386] {
            let mut numbers = store(&sets(1));
            numbers.resize(length, 0);
            assert_eq!(Store::of(&numbers).err(), Some(REFUSAL));
        }
        assert_eq!(NUMBERS, 193);
        assert!(Store::of(&EMPTY).is_ok());
    }

    #[test]
    fn a_store_holds_up_to_32_sets() {
        for count in 0..=32 {
            assert!(is_sound(&sets(count)));
        }
        for count in [33, 34, 64, 256, 65_536, 1 << 31, u32::MAX] {
            let mut numbers = store(&sets(32));
            numbers[0] = count;
            assert_eq!(Store::of(&numbers).err(), Some(REFUSAL));
        }
    }

    /// The ends of each range, one behind the other, and the numbers beside them.
    #[test]
    fn numbers_of_a_set_have_ranges() {
        assert!(is_sound(&[[0, 1, 1, 1, 1_000, 1_000]]));
        assert!(is_sound(&[[65_535, 800, 800, 800, 30_000, 30_000]]));
        let outside = [
            &[65_536, 65_536 + 10, u32::MAX][..],
            &[0, 801, 65_536 + 150, u32::MAX],
            &[0, 801, u32::MAX],
            &[0, 801, 65_536 + 600, u32::MAX],
            &[0, 999, 30_001, u32::MAX],
            &[0, 999, 30_001, 65_536 + 20_000, u32::MAX],
        ];
        for (field, numbers) in outside.into_iter().enumerate() {
            for &number in numbers {
                let bad = changed(field, number);
                assert!(!is_sound(&[bad]), "{bad:?}");
                assert!(!is_sound(&[set(1), bad, set(20)]), "{bad:?}");
            }
        }
    }

    #[test]
    fn a_low_end_is_not_above_its_high_end() {
        assert!(is_sound(&[changed(2, 600)]));
        assert!(!is_sound(&[changed(2, 601)]));
        assert!(is_sound(&[changed(4, 20_000)]));
        assert!(!is_sound(&[changed(4, 20_001)]));
    }

    #[test]
    fn each_set_begins_later() {
        assert!(is_sound(&[set(0), set(1), set(65_535)]));
        assert!(!is_sound(&[set(1), set(1)]));
        assert!(!is_sound(&[set(2), set(1)]));
        assert!(!is_sound(&[set(1), set(5), set(5)]));
        assert!(!is_sound(&[set(1), set(5), set(4), set(6)]));
    }

    /// A set behind the count may be anything.
    #[test]
    fn numbers_behind_the_last_set_are_free() {
        let mut numbers = store(&[set(10), set(20), [0; FIELDS]]);
        assert!(Store::of(&numbers).is_err());
        numbers[0] = 2;
        assert!(Store::of(&numbers).is_ok());
    }

    /// The upper value of μ3 tells the sets apart.
    #[test]
    fn the_last_set_begun_is_in_use() {
        let mut three = [set(100), set(101), set(200)];
        for (number, set) in (1..).zip(&mut three) {
            set[1] = number;
        }
        let found = Store::of(&store(&three)).ok().unwrap();
        let arch = |day| found.in_use(Some(day)).map(|national| national.arch);
        assert_eq!([0, 98, 99].map(arch), [Err(19); 3]);
        assert_eq!(
            [100, 101, 102, 199, 200, 201, 65_535].map(arch),
            [1, 2, 2, 2, 3, 3, 3].map(Ok)
        );
        assert_eq!(found.in_use(None), Ok(RECOMMENDED));
        let empty = Store::of(&EMPTY).ok().unwrap();
        assert_eq!(empty.in_use(Some(65_535)), Err(19));
        assert_eq!(empty.in_use(None), Ok(RECOMMENDED));
    }

    #[test]
    fn figures_in_their_order() {
        let found = Store::of(&store(&[[9, 1, 2, 3, 1_004, 1_005]]))
            .ok()
            .unwrap();
        let national = National {
            arch: 1,
            wind: Limits::new(2, 3),
            drift: Limits::new(1_004, 1_005),
        };
        assert_eq!(found.in_use(Some(9)), Ok(national));
    }

    /// 32 sets one after the other, the numbers behind them as they were, and no 33rd.
    #[test]
    fn sets_are_added_behind_the_last() {
        let mut numbers = store(&[]);
        for count in 1..=32 {
            let mut expected = numbers.clone();
            expected[0] = count;
            let place = 1 + FIELDS * (count as usize - 1);
            expected[place..place + FIELDS].copy_from_slice(&set(10 * count));
            assert_eq!(calls::add_set(&mut numbers, &set(10 * count)), count);
            assert_eq!(numbers, expected);
        }
        assert_eq!(numbers, store(&sets(32)));
        let full = numbers.clone();
        assert_eq!(calls::add_set(&mut numbers, &set(1_000)), STORE_REFUSED);
        assert_eq!(numbers, full);
    }

    fn is_refused(mut numbers: Vec<u32>, set: &[u32]) -> bool {
        let before = numbers.clone();
        calls::add_set(&mut numbers, set) == STORE_REFUSED && numbers == before
    }

    #[test]
    fn a_set_that_is_not_sound_is_not_added() {
        let two = || store(&sets(2));
        for day in [0, 10, 19, 20, 65_536] {
            assert!(is_refused(two(), &set(day)));
        }
        for (field, number) in [(1, 0), (1, 801), (2, 601), (3, 801), (4, 999), (5, 30_001)] {
            assert!(is_refused(two(), &changed(field, number)));
        }
        for fields in [0, 1, 5, 7, 12] {
            let mut wrong = set(30).to_vec();
            wrong.resize(fields, 40);
            assert!(is_refused(two(), &wrong));
        }
        assert_eq!(calls::add_set(&mut two(), &set(21)), 3);
    }

    #[test]
    fn nothing_is_added_to_a_refused_store() {
        let bad = store(&[changed(1, 0)]);
        assert!(is_refused(bad, &set(30)));
        for length in [0, 1, 192, 194] {
            let mut numbers = store(&[]);
            numbers.resize(length, 0);
            assert!(is_refused(numbers, &set(30)));
        }
        let mut many = store(&sets(32));
        many[0] = 33;
        assert!(is_refused(many, &set(1_000)));
    }

    /// Every call on a sheet, on one that number 1 refuses too.
    #[test]
    fn a_refused_store_comes_before_the_sheet() {
        let bad = store(&[set(5), set(5)]);
        let sound = with_site(&[words(5, &[1_000, 4_000])]);
        for sheet in [&sound[..], &[], &[0; 3], &[9; 16_385]] {
            assert_eq!(calls::verdict(&bad, sheet), STORE_REFUSED);
            assert_eq!(calls::desk_verdict(&bad, sheet), STORE_REFUSED);
            let mut out = [7; 128];
            assert_eq!(calls::make(&bad, sheet, 40, 99, &mut out), STORE_REFUSED);
            assert_eq!(out, [7; 128]);
            assert_eq!(calls::load(&bad, sheet, 1, 2, u32::MAX), STORE_REFUSED);
            assert_eq!(calls::overhang(&bad, sheet, 1, 1), STORE_REFUSED);
            assert_eq!(calls::guard_force(&bad, sheet, 1, 1), STORE_REFUSED);
            let mut text = vec![0; calls::LIST_ROOM];
            let bytes = calls::list(&bad, sheet, &mut text);
            assert_eq!(&text[..bytes], b"REFUSED 18 0\n");
        }
    }

    /// Two bytes more, and no other number of bytes.
    #[test]
    fn a_site_may_carry_a_day() {
        let begun = store(&[set(0)]);
        for (site, lengths) in [(&SITE[..], [14, 16]), (&MAP_SITE, [12, 14])] {
            for length in 1..=20 {
                let mut item = site.to_vec();
                item.resize(length, 0);
                let accepted = lengths.contains(&length);
                let answer = if accepted { 1 } else { 0x8004_0000 };
                assert_eq!(calls::verdict(&begun, &sheet(&[item])), answer);
            }
        }
    }

    /// The day's low byte comes first: 0x0203 is 515.
    #[test]
    fn a_dated_job_needs_a_set_that_has_begun() {
        for site in [&SITE[..], &MAP_SITE] {
            let job = sheet(&[dated(site, 0x0203)]);
            let verdict = |first_day| calls::verdict(&store(&[set(first_day)]), &job);
            assert_eq!([0, 514, 515].map(verdict), [1; 3]);
            assert_eq!([516, 0x0302, 65_535].map(verdict), [NOT_BEGUN; 3]);
            assert_eq!(calls::verdict(&EMPTY, &job), NOT_BEGUN);
            assert_eq!(calls::verdict(&EMPTY, &sheet(&[site.to_vec()])), 1);
        }
    }

    /// Ce, then the altitude, then on the map the zone and the load are put right.
    #[test]
    fn a_day_is_the_last_rule_on_a_site() {
        let verdict = |site: &[u8]| calls::verdict(&EMPTY, &sheet(&[site.to_vec()]));
        let mut site = dated(&SITE, 5);
        (site[5], site[13]) = (0, 255);
        assert_eq!(verdict(&site), 0x8006_0000);
        site[5] = 100;
        assert_eq!(verdict(&site), 0x8007_0000);
        site[13] = 0;
        assert_eq!(verdict(&site), NOT_BEGUN);
        let mut site = dated(&MAP_SITE, 5);
        (site[2], site[3], site[11]) = (0, 0, 255);
        assert_eq!(verdict(&site), 0x8006_0000);
        site[3] = 100;
        assert_eq!(verdict(&site), 0x8007_0000);
        (site[1], site[10], site[11]) = (8, 0, 0);
        assert_eq!(verdict(&site), 0x800E_0000);
        site[2] = 1;
        assert_eq!(verdict(&site), 0x800F_0000);
        site[2] = 2;
        assert_eq!(verdict(&site), NOT_BEGUN);
    }

    /// A later item that is wrong, and a later site.
    #[test]
    fn a_day_comes_before_later_items() {
        let site = dated(&SITE, 5);
        for later in [vec![], vec![0], vec![5], words(5, &[0, 1]), SITE.to_vec()] {
            let job = sheet(&[site.clone(), later]);
            assert_eq!(calls::verdict(&EMPTY, &job), NOT_BEGUN);
        }
        let behind = sheet(&[SITE.to_vec(), site]);
        assert_eq!(calls::verdict(&EMPTY, &behind), 0x8005_0001);
    }
}
