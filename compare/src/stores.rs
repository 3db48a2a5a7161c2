//! Stores of national figures: sound ones, those at the ends of a range, and each way to break one.

use std::collections::BTreeSet;
use std::ops::Deref;

use crate::draft::{self, field, Field};
use crate::random::Random;

pub const MAX_SETS: usize = 32;
const FIELDS: usize = 6;
const NUMBERS: usize = 193;
pub const LAST_DAY: u32 = 65_535;
/// Counts of sets that every run meets.
pub const COUNTS: [usize; 5] = [0, 1, 2, 31, 32];

/// A store behind so many other numbers in memory.
pub struct Placed {
    memory: Vec<u32>,
    place: usize,
}

impl Placed {
    pub fn new(store: &[u32], place: usize) -> Self {
        let memory = [&vec![0; place], store].concat();
        Self { memory, place }
    }
}

impl Deref for Placed {
    type Target = [u32];

    fn deref(&self) -> &[u32] {
        &self.memory[self.place..]
    }
}

/// First day, upper value of μ3, low and high of μw, low and high of the drift length.
pub type Set = [u32; FIELDS];

/// The figures of a job without a day.
const RECOMMENDED: [u32; FIELDS - 1] = [200, 80, 400, 5_000, 15_000];
/// The numbers of a set. The edges are the recommended figures and those beside them.
pub const FIGURES: [Field; FIELDS] = [
    field(0, 4, 0, LAST_DAY, &[255, 256, 32_767, 32_768]),
    field(1, 4, 1, 800, &[199, 200, 201, 520]),
    field(2, 4, 1, 800, &[79, 80, 81]),
    field(3, 4, 1, 800, &[399, 400, 401]),
    field(4, 4, 1_000, 30_000, &[4_999, 5_000, 5_001]),
    field(5, 4, 1_000, 30_000, &[14_999, 15_000, 15_001]),
];
/// The low ends of ranges; each high end stands behind its low end.
const LOW_ENDS: [usize; 2] = [2, 4];

/// A sound set that begins on a day.
pub fn set(random: &mut Random, first_day: u32) -> Set {
    if random.once_in(8) {
        return recommended(first_day);
    }
    let mut set = FIGURES.map(|figure| draft::draw(random, figure));
    set[0] = first_day;
    for low in LOW_ENDS {
        if random.once_in(8) {
            set[low] = set[low + 1];
        }
        set[low..low + 2].sort_unstable();
    }
    set
}

/// The recommended figures from a day on.
pub fn recommended(first_day: u32) -> Set {
    let mut set = [first_day; FIELDS];
    set[1..].copy_from_slice(&RECOMMENDED);
    set
}

/// So many first days, once in three times one day after the other.
pub fn first_days(random: &mut Random, count: usize) -> Vec<u32> {
    if random.once_in(3) {
        let first = random.between(0, LAST_DAY + 1 - count as u32);
        return (first..).take(count).collect();
    }
    let mut days = BTreeSet::new();
    while days.len() < count {
        days.insert(draft::draw(random, FIGURES[0]));
    }
    days.into_iter().collect()
}

/// A sound store of so many sets.
pub fn store(random: &mut Random, count: usize) -> Vec<u32> {
    let days = first_days(random, count);
    let sets: Vec<_> = days.into_iter().map(|day| set(random, day)).collect();
    of_sets(random, &sets)
}

/// Sets in a store, with any numbers behind the last.
pub fn of_sets(random: &mut Random, sets: &[Set]) -> Vec<u32> {
    let mut store = vec![sets.len() as u32];
    store.extend(sets.as_flattened());
    let is_clear = random.once_in(4);
    store.resize_with(NUMBERS, || match is_clear {
        true => 0,
        false => random.next() as u32,
    });
    store
}

/// A sound store with any count of sets.
pub fn any_store(random: &mut Random) -> Vec<u32> {
    let any = random.below(MAX_SETS + 1);
    let count = random.pick(&COUNTS);
    let count = if random.once_in(2) { count } else { any };
    store(random, count)
}

/// The sets of a sound store.
pub fn sets(store: &[u32]) -> Vec<Set> {
    let (sets, _) = store[1..].as_chunks();
    sets[..store[0] as usize].to_vec()
}

/// The set that a job of a day uses, in a sound store.
pub fn in_use(store: &[u32], day: u32) -> Option<Set> {
    let sets = sets(store);
    sets.into_iter().rfind(|set| set[0] <= day)
}

/// Days beside a first day, on it, or at the ends.
pub fn days(store: &[u32]) -> Vec<u32> {
    let mut days = BTreeSet::from([0, LAST_DAY]);
    for [first_day, ..] in sets(store) {
        days.extend([first_day.saturating_sub(1), first_day]);
        days.insert((first_day + 1).min(LAST_DAY));
    }
    days.into_iter().collect()
}

/// A day for a job: one of these, or any.
pub fn day(random: &mut Random, store: &[u32]) -> u32 {
    let near = random.pick(&days(store));
    let any = random.between(0, LAST_DAY);
    if random.once_in(8) {
        any
    } else {
        near
    }
}

/// Puts a number into a set, and the other end of its range there too where it has to be.
pub fn put(set: &mut Set, field: usize, number: u32) {
    set[field] = number;
    match field {
        2 | 4 => set[field + 1] = set[field + 1].max(number),
        3 | 5 => set[field - 1] = set[field - 1].min(number),
        _ => {}
    }
}

/// A sound store with a set behind its last one.
pub fn with_set(store: &[u32], set: &Set) -> Vec<u32> {
    let mut after = store.to_vec();
    let count = store[0] as usize;
    after[place(count, 0)..][..FIELDS].copy_from_slice(set);
    after[0] += 1;
    after
}

/// Sets that may not be added to a sound store where another one may: with one bad number, not later
/// than the last one, or not of six numbers.
pub fn bad_sets(store: &[u32], set: &Set) -> Vec<Vec<u32>> {
    let with = |field: usize, number| {
        let mut bad = set.to_vec();
        bad[field] = number;
        bad
    };
    let numbers = bad_numbers(set).into_iter();
    let mut bad: Vec<_> = numbers.map(|(field, number)| with(field, number)).collect();
    if let Some(&[last, ..]) = sets(store).last() {
        bad.extend([0, last.saturating_sub(1), last].map(|day| with(0, day)));
    }
    for fields in [0, 1, 5, 7, 12] {
        let mut other = set.to_vec();
        other.resize(fields, 1_000);
        bad.push(other);
    }
    bad
}

/// The place of a number of a set in the store.
fn place(set: usize, field: usize) -> usize {
    1 + FIELDS * set + field
}

/// The store with one number of a set changed.
fn changed(store: &[u32], set: usize, field: usize, number: u32) -> Vec<u32> {
    let mut changed = store.to_vec();
    changed[place(set, field)] = number;
    changed
}

/// Every way to break a sound store: its length, its count, and each number of each set.
pub fn broken(store: &[u32]) -> Vec<Vec<u32>> {
    let mut broken = Vec::new();
    for length in [0, 1, 7, NUMBERS - 1, NUMBERS + 1, 2 * NUMBERS] {
        let mut other = store.to_vec();
        other.resize(length, 0);
        broken.push(other);
    }
    for count in [33, 34, 256, 1 << 16, 1 << 31, u32::MAX] {
        let mut other = store.to_vec();
        other[0] = count;
        broken.push(other);
    }
    let sets = sets(store);
    for (number, set) in sets.iter().enumerate() {
        for (field, value) in bad_numbers(set) {
            broken.push(changed(store, number, field, value));
        }
        for day in bad_days(&sets, number) {
            broken.push(changed(store, number, 0, day));
        }
    }
    broken
}

/// Places in a sound set with numbers that break it: outside their ranges, also by bits above 16,
/// and a low end above its high end.
fn bad_numbers(set: &Set) -> Vec<(usize, u32)> {
    let mut bad = Vec::new();
    for (field, figure) in FIGURES.iter().enumerate() {
        let wrapped = set[field] + (1 << 16);
        for value in [figure.high + 1, wrapped, 1 << 31, u32::MAX] {
            bad.push((field, value));
        }
        if let Some(below) = figure.low.checked_sub(1) {
            bad.extend([(field, below), (field, 0)]);
        }
    }
    for low in LOW_ENDS {
        bad.push((low, set[low + 1] + 1));
        bad.push((low + 1, set[low] - 1));
    }
    bad
}

/// First days of a set that are not strictly between those of its neighbours.
fn bad_days(sets: &[Set], number: usize) -> Vec<u32> {
    let mut bad = Vec::new();
    if let Some(before) = number.checked_sub(1) {
        let [day, ..] = sets[before];
        bad.extend([day, day.saturating_sub(1), 0]);
    }
    if let Some(&[day, ..]) = sets.get(number + 1) {
        bad.extend([day, day + 1, LAST_DAY]);
    }
    bad
}

/// A sound store with each number of each set at the ends of its range, and with each low end equal
/// to its high end.
pub fn at_ends(store: &[u32]) -> Vec<Vec<u32>> {
    let mut ends = Vec::new();
    let sets = sets(store);
    for (number, set) in sets.iter().enumerate() {
        let mut with = |field, value| {
            let mut set = *set;
            put(&mut set, field, value);
            let mut other = store.to_vec();
            other[place(number, 0)..][..FIELDS].copy_from_slice(&set);
            ends.push(other);
        };
        for (field, figure) in FIGURES.iter().enumerate().skip(1) {
            with(field, figure.low);
            with(field, figure.high);
        }
        for low in LOW_ENDS {
            with(low, set[low + 1]);
            with(low + 1, set[low]);
        }
        for day in end_days(&sets, number) {
            with(0, day);
        }
    }
    ends
}

/// The earliest and the latest first day that a set may have between its neighbours.
fn end_days(sets: &[Set], number: usize) -> [u32; 2] {
    let before = number.checked_sub(1).map(|before| sets[before][0]);
    let after = sets.get(number + 1).map(|set| set[0]);
    [
        before.map_or(0, |day| day + 1),
        after.map_or(LAST_DAY, |day| day - 1),
    ]
}

/// A sound store with numbers behind its last set that would break it: of any kind, and a set that
/// isn't later. There are none where it is full.
pub fn broken_behind(store: &[u32]) -> Vec<Vec<u32>> {
    let count = store[0] as usize;
    if count == MAX_SETS {
        return Vec::new();
    }
    let mut behind = Vec::new();
    for number in [0, 1, 33, 801, 30_001, 65_536, 1 << 31, u32::MAX] {
        let mut other = store.to_vec();
        other[place(count, 0)..].fill(number);
        behind.push(other);
    }
    if let Some(last) = sets(store).last() {
        let mut other = store.to_vec();
        other[place(count, 0)..][..FIELDS].copy_from_slice(last);
        behind.push(other);
    }
    behind
}
