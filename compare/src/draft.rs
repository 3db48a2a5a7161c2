//! Sound sheets: items with figures drawn evenly and at the edges of their ranges.
//!
//! Some map sites are too light or too heavy for their place; they are refused by 15.

use std::ops::Range;

use crate::random::Random;
use crate::stores::Set;

pub const SITE: u8 = 1;
pub const MONOPITCH: u8 = 2;
pub const PITCHED: u8 = 3;
pub const MULTI_SPAN: u8 = 4;
pub const CYLINDRICAL: u8 = 5;
pub const LOWER: u8 = 6;
pub const PROJECTION: u8 = 7;
pub const MAP_SITE: u8 = 8;
pub const DRIFT_ROOF: u8 = 9;
pub const STEPPED: u8 = 10;
pub const PARAPET: u8 = 11;
pub const SMALL_PROJECTION: u8 = 12;
/// The kinds of roofs that need no other item, in their order.
pub const ROOFS: [u8; 9] = [
    MONOPITCH,
    PITCHED,
    MULTI_SPAN,
    CYLINDRICAL,
    LOWER,
    PROJECTION,
    DRIFT_ROOF,
    PARAPET,
    SMALL_PROJECTION,
];
/// The kinds of items that a stepped roof may stand under.
pub const UPPERS: [u8; 3] = [MONOPITCH, PITCHED, STEPPED];
/// The two kinds of multi-span roofs.
pub const SPANNED: [u8; 2] = [MULTI_SPAN, DRIFT_ROOF];
pub const MAX_SPANS: usize = 16;
pub const MAX_SHEET: usize = 16_384;
pub const MAX_ITEMS: usize = 32;
pub const MAX_PITCH: u32 = 800;
/// The least pitch above a lower roof from which snow slides down.
const SLIDES_FROM: u32 = 151;
pub const MAX_ALTITUDE: u32 = 1_500;
pub const MAX_SITUATION: u32 = 3;
/// The ground load of a site that has it given.
pub const GROUND_LOAD: Field = SITE_FIELDS[0];
/// Region, zone and altitude of a map site.
pub const REGION: Field = MAP_SITE_FIELDS[0];
pub const ZONE: Field = MAP_SITE_FIELDS[1];
const MAP_ALTITUDE: Field = MAP_SITE_FIELDS[6];
/// The guards of a pitched roof.
pub const GUARDS: [Field; 2] = [PITCHED_FIELDS[2], PITCHED_FIELDS[3]];
/// The index of a stepped roof's upper item, and the side of that item.
pub const UPPER: Field = STEPPED_FIELDS[2];
pub const SIDE: Field = STEPPED_FIELDS[3];

/// A field of an item: its place, its bytes, its range and values worth meeting.
#[derive(Clone, Copy)]
pub struct Field {
    pub at: usize,
    pub bytes: usize,
    pub low: u32,
    pub high: u32,
    pub edges: &'static [u32],
}

pub const fn field(at: usize, bytes: usize, low: u32, high: u32, edges: &'static [u32]) -> Field {
    Field {
        at,
        bytes,
        low,
        high,
        edges,
    }
}

const fn pitch(at: usize) -> Field {
    field(
        at,
        2,
        0,
        MAX_PITCH,
        &[1, 150, 151, 299, 300, 301, 599, 600, 601],
    )
}

const fn guard(at: usize) -> Field {
    field(at, 1, 0, 1, &[])
}

const fn width(at: usize) -> Field {
    field(at, 4, 1, 100_000, &[2, 3, 4_999, 5_000, 5_001, 15_000])
}

const fn step(at: usize) -> Field {
    field(at, 4, 1, 30_000, &[300, 2_499, 2_500, 2_501, 7_500, 7_501])
}

/// The depth of a valley. The edges are 5 × sk/2 for usual ground loads, and beside it.
const fn depth(at: usize) -> Field {
    field(at, 4, 1, 30_000, &[250, 1_875, 2_499, 2_500, 2_501])
}

/// The height of a parapet. The edges are where 5h is 15,000, and 4 × sk for usual ground loads.
const fn parapet_height(at: usize) -> Field {
    field(at, 4, 1, 30_000, &[400, 2_999, 3_000, 3_001, 4_000, 6_000])
}

/// The height of a small projection. The edges are 5 × sk/2 for light ground loads.
const fn small_height(at: usize) -> Field {
    field(at, 4, 1, 1_000, &[249, 250, 251, 500])
}

const SITE_FIELDS: [Field; 6] = [
    field(1, 4, 100, 25_000, &[1_000, 1_001, 1_500, 750]),
    field(5, 2, 80, 120, &[100]),
    field(7, 2, 1, 100, &[100, 99]),
    field(9, 2, 100, 300, &[200]),
    field(11, 1, 0, MAX_SITUATION, &[]),
    field(12, 2, 0, MAX_ALTITUDE, &[800, 801]),
];
/// The altitudes worth meeting are also the divisors of Table C.1.
const MAP_SITE_FIELDS: [Field; 7] = [
    field(1, 1, 1, 8, &[]),
    field(2, 1, 1, 5, &[]),
    field(3, 2, 80, 120, &[100]),
    field(5, 2, 1, 100, &[100, 99]),
    field(7, 2, 100, 300, &[200]),
    field(9, 1, 0, MAX_SITUATION, &[]),
    field(
        10,
        2,
        0,
        MAX_ALTITUDE,
        &[256, 336, 452, 501, 524, 728, 800, 801, 917, 966],
    ),
];
const MONOPITCH_FIELDS: [Field; 3] = [pitch(1), guard(3), width(4)];
const PITCHED_FIELDS: [Field; 6] = [pitch(1), pitch(3), guard(5), guard(6), width(7), width(11)];
const ARCH_FIELDS: [Field; 2] = [
    field(1, 4, 1, 15_000, &[1_000]),
    field(5, 4, 2, 30_000, &[2_000]),
];
const LOWER_FIELDS: [Field; 6] = [width(1), width(5), step(9), width(13), pitch(17), guard(19)];
const PROJECTION_FIELDS: [Field; 3] = [step(1), width(5), width(9)];
/// The index has no range of its own: this is that of the roofs. A side is 0 or 1, as a guard is.
const STEPPED_FIELDS: [Field; 4] = [
    width(1),
    step(5),
    field(9, 1, 1, MAX_ITEMS as u32 - 1, &[]),
    guard(10),
];

pub const PARAPET_FIELDS: [Field; 3] = [parapet_height(1), width(5), width(9)];
pub const SMALL_PROJECTION_FIELDS: [Field; 4] =
    [small_height(1), small_height(5), width(9), width(13)];

/// The fields of an item, for a multi-span roof those of its spans.
pub fn fields(item: &[u8]) -> Vec<Field> {
    match item.first() {
        Some(&SITE) => SITE_FIELDS.to_vec(),
        Some(&MONOPITCH) => MONOPITCH_FIELDS.to_vec(),
        Some(&PITCHED) => PITCHED_FIELDS.to_vec(),
        Some(&MULTI_SPAN) => span_fields(item.len().saturating_sub(2) / 12),
        Some(&DRIFT_ROOF) => drift_roof_fields((item.len() + 6) / 20),
        Some(&CYLINDRICAL) => ARCH_FIELDS.to_vec(),
        Some(&LOWER) => LOWER_FIELDS.to_vec(),
        Some(&PROJECTION) => PROJECTION_FIELDS.to_vec(),
        Some(&MAP_SITE) => MAP_SITE_FIELDS.to_vec(),
        Some(&STEPPED) => STEPPED_FIELDS.to_vec(),
        Some(&PARAPET) => PARAPET_FIELDS.to_vec(),
        Some(&SMALL_PROJECTION) => SMALL_PROJECTION_FIELDS.to_vec(),
        _ => Vec::new(),
    }
}

fn span_fields(spans: usize) -> Vec<Field> {
    let span = |number| {
        let at = 2 + 12 * number;
        [pitch(at), pitch(at + 2), width(at + 4), width(at + 8)]
    };
    (0..spans).flat_map(span).collect()
}

/// The fields of the spans, then those of the valleys.
fn drift_roof_fields(spans: usize) -> Vec<Field> {
    let mut fields = span_fields(spans);
    fields.extend((1..spans).flat_map(|valley| drift_fields(spans, valley)));
    fields
}

/// Depth and length of a valley, numbered from 1.
pub fn drift_fields(spans: usize, valley: usize) -> [Field; 2] {
    let at = 2 + 12 * spans + 8 * (valley - 1);
    [depth(at), width(at + 4)]
}

/// Writes a field where the item has it.
pub fn put(item: &mut [u8], field: Field, value: u32) {
    if let Some(place) = item.get_mut(field.at..field.at + field.bytes) {
        place.copy_from_slice(&value.to_le_bytes()[..field.bytes]);
    }
}

pub fn get(item: &[u8], field: Field) -> u32 {
    let mut value = [0; 4];
    value[..field.bytes].copy_from_slice(&item[field.at..field.at + field.bytes]);
    u32::from_le_bytes(value)
}

/// A value within the range: an edge, an even draw, or one that is often small.
pub fn draw(random: &mut Random, field: Field) -> u32 {
    match random.below(8) {
        0 => random.pick(&[field.low, field.high, field.low + 1, field.high - 1]),
        1 | 2 if !field.edges.is_empty() => random.pick(field.edges),
        3 | 4 => {
            let high = random.between(field.low, field.high);
            random.between(field.low, high)
        }
        _ => random.between(field.low, field.high),
    }
}

/// A sound item of a kind.
pub fn item(random: &mut Random, kind: u8) -> Vec<u8> {
    match kind {
        MULTI_SPAN | DRIFT_ROOF => {
            let count = match random.below(4) {
                0 => 2,
                1 => MAX_SPANS,
                _ => 2 + random.below(MAX_SPANS - 1),
            };
            spans(random, kind, count)
        }
        CYLINDRICAL => cylindrical(random),
        LOWER | PROJECTION | STEPPED | PARAPET | SMALL_PROJECTION => at_step(random, kind),
        _ => filled(random, blank(kind)),
    }
}

fn blank(kind: u8) -> Vec<u8> {
    let length = match kind {
        SITE => 14,
        MONOPITCH => 8,
        PITCHED => 15,
        CYLINDRICAL => 9,
        LOWER => 20,
        MAP_SITE => 12,
        STEPPED => 11,
        SMALL_PROJECTION => 17,
        _ => 13,
    };
    let mut item = vec![0; length];
    item[0] = kind;
    item
}

/// An item of a kind, not multi-span, with its fields given in their order.
pub fn of_figures(kind: u8, figures: &[u32]) -> Vec<u8> {
    with_figures(blank(kind), figures)
}

fn with_figures(mut item: Vec<u8>, figures: &[u32]) -> Vec<u8> {
    for (field, figure) in fields(&item).into_iter().zip(figures) {
        put(&mut item, field, *figure);
    }
    item
}

fn filled(random: &mut Random, mut item: Vec<u8>) -> Vec<u8> {
    for field in fields(&item) {
        let value = draw(random, field);
        put(&mut item, field, value);
    }
    item
}

/// A site of either kind, once in three times one on the map.
pub fn site(random: &mut Random) -> Vec<u8> {
    let kind = if random.once_in(3) { MAP_SITE } else { SITE };
    item(random, kind)
}

/// A site of a kind whose ground load is in range wherever it stands.
pub fn sound_site(random: &mut Random, kind: u8) -> Vec<u8> {
    let mut item = item(random, kind);
    if kind == MAP_SITE {
        let region = random.pick(&[1, 3, 7]);
        put(&mut item, REGION, region);
    }
    item
}

/// A site with its job day behind it.
pub fn dated(site: &[u8], day: u32) -> Vec<u8> {
    [site, &(day as u16).to_le_bytes()].concat()
}

/// The job day of a site, where it has one.
pub fn day_of(site: &[u8]) -> Option<u32> {
    let (rest, day) = site.split_last_chunk()?;
    (rest.len() == blank(site[0]).len()).then_some(u16::from_le_bytes(*day).into())
}

/// Moves a map site to a region, a zone and an altitude.
pub fn place(item: &mut [u8], region: u32, zone: u32, altitude: u32) {
    put(item, REGION, region);
    put(item, ZONE, zone);
    put(item, MAP_ALTITUDE, altitude);
}

/// The site with a ground load given and all else as on the map site.
pub fn given_site(map_site: &[u8], ground_load: u32) -> Vec<u8> {
    let mut item = blank(SITE);
    put(&mut item, SITE_FIELDS[0], ground_load);
    for (to, from) in SITE_FIELDS[1..].iter().zip(&MAP_SITE_FIELDS[2..]) {
        put(&mut item, *to, get(map_site, *from));
    }
    item
}

/// The altitude of a site of either kind.
pub fn altitude(item: &[u8]) -> Field {
    match item.first() {
        Some(&MAP_SITE) => MAP_ALTITUDE,
        _ => SITE_FIELDS[5],
    }
}

/// The situation of a site of either kind.
pub fn situation(item: &[u8]) -> Field {
    match item.first() {
        Some(&MAP_SITE) => MAP_SITE_FIELDS[5],
        _ => SITE_FIELDS[4],
    }
}

/// A site with a ground load given, in a situation.
pub fn site_in(random: &mut Random, number: u32) -> Vec<u8> {
    let mut item = item(random, SITE);
    let field = situation(&item);
    put(&mut item, field, number);
    item
}

/// A site with a ground load given, at an altitude or above it.
pub fn site_above(random: &mut Random, altitude: u32) -> Vec<u8> {
    let mut item = item(random, SITE);
    put(
        &mut item,
        SITE_FIELDS[5],
        random.between(altitude, MAX_ALTITUDE),
    );
    item
}

/// The site with Ce, Ct, Cesl and the altitude drawn anew, none of them as before.
pub fn other_factors(random: &mut Random, site: &[u8]) -> Vec<u8> {
    let mut item = site.to_vec();
    for place in [1, 2, 3, 5] {
        let field = SITE_FIELDS[place];
        while get(&item, field) == get(site, field) {
            let value = draw(random, field);
            put(&mut item, field, value);
        }
    }
    item
}

/// The bytes of a multi-span roof of either kind. No length fits kind 9 with a count of 0, which
/// has two bytes here.
pub fn spanned_length(kind: u8, count: usize) -> usize {
    match kind {
        MULTI_SPAN => 2 + 12 * count,
        _ => (20 * count).saturating_sub(6).max(2),
    }
}

fn blank_spans(kind: u8, count: usize) -> Vec<u8> {
    let mut item = vec![0; spanned_length(kind, count)];
    item[0] = kind;
    item[1] = count as u8;
    item
}

/// A multi-span roof of either kind with any count, its fields within their ranges.
pub fn any_spans(random: &mut Random, kind: u8, count: usize) -> Vec<u8> {
    filled(random, blank_spans(kind, count))
}

/// A multi-span roof of either kind whose valleys keep the rule.
pub fn spans(random: &mut Random, kind: u8, count: usize) -> Vec<u8> {
    let mut item = any_spans(random, kind, count);
    for valley in 1..count {
        let (left, right) = valley_fields(valley);
        let pitches = [get(&item, left).min(600), get(&item, right).min(600)];
        put(&mut item, left, pitches[0].min(1_199 - pitches[1]));
        put(&mut item, right, pitches[1]);
    }
    item
}

/// A roof of two spans of either kind with the fields of its spans given. The valley of kind 9 is
/// 1,000 deep and 7,001 long.
pub fn two_spans(kind: u8, figures: &[u32; 8]) -> Vec<u8> {
    let valley = [1_000, 7_001];
    with_figures(blank_spans(kind, 2), &[&figures[..], &valley].concat())
}

/// The two pitches at a valley, numbered from 1.
pub fn valley_fields(valley: usize) -> (Field, Field) {
    (pitch(2 + 12 * valley - 10), pitch(2 + 12 * valley))
}

/// The widths of the two slopes at a valley together.
fn widths_at(item: &[u8], valley: usize) -> u32 {
    let at = 2 + 12 * valley;
    get(item, width(at - 4)) + get(item, width(at + 4))
}

/// A roof with drifts, half of its valleys close to where two of the three limits are equal.
pub fn drift_roof(random: &mut Random, count: usize, ground_load: u32) -> Vec<u8> {
    let mut item = spans(random, DRIFT_ROOF, count);
    for valley in 1..count {
        if random.once_in(2) {
            let figures = near_tie(random, widths_at(&item, valley), ground_load);
            for (field, figure) in drift_fields(count, valley).into_iter().zip(figures) {
                let figure = figure.clamp(field.low.into(), field.high.into());
                put(&mut item, field, figure as u32);
            }
        }
    }
    item
}

/// Depth and length where 2h, 2 × b3 × sk/(ls1 + ls2) and 5 × sk meet, two of them, or beside it.
fn near_tie(random: &mut Random, widths: u32, ground_load: u32) -> [i64; 2] {
    let (widths, ground_load) = (i64::from(widths), i64::from(ground_load));
    let beside = i64::from(random.between(0, 2)) - 1;
    match random.below(3) {
        0 => [5 * ground_load / 2 + beside, 100_000],
        1 => [30_000, 5 * widths / 2 + beside],
        _ => {
            let length = i64::from(draw(random, width(0)));
            [length * ground_load / widths + beside, length]
        }
    }
}

/// The roof of kind 4 with the spans of one with drifts.
pub fn without_drifts(roof: &[u8]) -> Vec<u8> {
    let mut item = roof.to_vec();
    item.truncate(spanned_length(MULTI_SPAN, usize::from(roof[1])));
    item[0] = MULTI_SPAN;
    item
}

/// Roofs with one pitch in every place that has one, and stepped roofs under them, on the site with
/// the heaviest snow and exceptional falls.
pub fn pitch_items(pitch: u32) -> Vec<Vec<u8>> {
    let kinds = [SITE, MONOPITCH, MONOPITCH, PITCHED, LOWER];
    let mut items = kinds.map(|kind| highest(blank(kind))).to_vec();
    let field = situation(&items[0]);
    put(&mut items[0], field, 1);
    put(&mut items[1], MONOPITCH_FIELDS[0], pitch);
    put(&mut items[2], MONOPITCH_FIELDS[0], pitch);
    put(&mut items[2], MONOPITCH_FIELDS[1], 0);
    put(&mut items[3], PITCHED_FIELDS[0], pitch);
    put(&mut items[3], PITCHED_FIELDS[1], MAX_PITCH - pitch);
    put(&mut items[4], LOWER_FIELDS[4], pitch);
    put(&mut items[4], LOWER_FIELDS[5], pitch % 2);
    let (left, right) = valley_fields(1);
    for kind in SPANNED {
        // A valley takes 60.0° at most, beside a slope below that.
        let mut spans = highest(blank_spans(kind, 2));
        put(&mut spans, left, pitch.min(600));
        put(&mut spans, right, pitch.saturating_sub(600));
        items.push(spans);
    }
    for [upper, side] in [[1, 0], [2, 1], [3, 0], [3, 1]] {
        let mut stepped = highest(blank(STEPPED));
        put(&mut stepped, UPPER, upper);
        put(&mut stepped, SIDE, side);
        items.push(stepped);
    }
    items
}

fn highest(mut item: Vec<u8>) -> Vec<u8> {
    for field in fields(&item) {
        put(&mut item, field, field.high);
    }
    item
}

/// Arches of every form, many at 2 × rise = span, 12 × rise² = span² and μ3 = 2.0.
fn cylindrical(random: &mut Random) -> Vec<u8> {
    let rise = draw(random, ARCH_FIELDS[0]);
    let near = random.between(0, 2);
    let span = match random.below(5) {
        0 => 2 * rise + near,
        1 => (12 * u64::from(rise).pow(2)).isqrt() as u32 + near,
        2 => (10 * rise).div_ceil(2) + near,
        3 => (100 * rise / 18 + near).saturating_sub(1),
        _ => draw(random, ARCH_FIELDS[1]),
    };
    let span = span.clamp(2, 30_000);
    let mut item = blank(CYLINDRICAL);
    put(&mut item, ARCH_FIELDS[0], rise.min(span / 2));
    put(&mut item, ARCH_FIELDS[1], span);
    item
}

/// The length of the drift at a step of a kind of roof, where the roof is long enough.
pub fn drift_length(kind: u8, step: u32) -> u32 {
    match kind {
        PARAPET => (5 * step).min(15_000),
        SMALL_PROJECTION => 5 * step,
        _ => (2 * step).clamp(5_000, 15_000),
    }
}

/// A width close to that length.
fn near_drift(random: &mut Random, kind: u8, step: u32) -> u32 {
    drift_length(kind, step) + random.between(0, 2) - 1
}

/// The widths of a roof of kind 6, 7, 10, 11 or 12 with a drift, each behind the step that it is at.
pub fn steps_and_widths(kind: u8) -> &'static [[Field; 2]] {
    match kind {
        LOWER => &[[LOWER_FIELDS[2], LOWER_FIELDS[1]]],
        STEPPED => &[[STEPPED_FIELDS[1], STEPPED_FIELDS[0]]],
        PARAPET => &[[PARAPET_FIELDS[0], PARAPET_FIELDS[1]]],
        SMALL_PROJECTION => &[
            [SMALL_PROJECTION_FIELDS[0], SMALL_PROJECTION_FIELDS[2]],
            [SMALL_PROJECTION_FIELDS[1], SMALL_PROJECTION_FIELDS[3]],
        ],
        _ => &[
            [PROJECTION_FIELDS[0], PROJECTION_FIELDS[1]],
            [PROJECTION_FIELDS[0], PROJECTION_FIELDS[2]],
        ],
    }
}

/// A roof of such a kind, a third of these widths close to the drift's length.
fn at_step(random: &mut Random, kind: u8) -> Vec<u8> {
    let mut item = filled(random, blank(kind));
    for [step, width] in steps_and_widths(kind) {
        if random.once_in(3) {
            let near = near_drift(random, kind, get(&item, *step));
            put(&mut item, *width, near);
        }
    }
    item
}

/// A stepped roof under an item, at either of its sides.
pub fn under(random: &mut Random, upper: usize) -> Vec<u8> {
    let mut item = item(random, STEPPED);
    put(&mut item, UPPER, upper as u32);
    item
}

/// The items with each stepped roof as one of kind 6, unless a b1 is too wide for that.
pub fn given(items: &[Vec<u8>]) -> Option<Vec<Vec<u8>>> {
    let given = |(place, item): (usize, &Vec<u8>)| match item[0] {
        STEPPED => as_lower(items, place),
        _ => Some(item.clone()),
    };
    items.iter().enumerate().map(given).collect()
}

/// The roof of kind 6 with the figures of a stepped one among items, unless its b1 is too wide.
fn as_lower(items: &[Vec<u8>], place: usize) -> Option<Vec<u8>> {
    let [width, step, upper, side] = STEPPED_FIELDS.map(|field| get(&items[place], field));
    let [upper_width, slope, pitch, guard] = above(&items[upper as usize], side as usize);
    let figures = [upper_width, width, step, slope, pitch, guard];
    (upper_width <= LOWER_FIELDS[0].high).then(|| of_figures(LOWER, &figures))
}

/// The whole width of an upper item, then width, pitch and guard of one of its sides.
fn above(upper: &[u8], side: usize) -> [u32; 4] {
    let fields = fields(upper);
    let figure = |place: usize| get(upper, fields[place]);
    match upper[0] {
        MONOPITCH => [figure(2), figure(2), figure(0), figure(1)],
        PITCHED => {
            let whole = figure(4) + figure(5);
            [whole, figure(4 + side), figure(side), figure(2 + side)]
        }
        _ => [figure(0), figure(0), 0, 0],
    }
}

/// Whether an upper item is wider than b1 of kind 6 may be.
pub fn is_wide(upper: &[u8]) -> bool {
    above(upper, 0)[0] > LOWER_FIELDS[0].high
}

/// A site, a pitched roof wider than 100,000 and a stepped one under it. Half of the time 2h/sk is
/// close to 4, and half of the time (b1 + b2)/2h is.
pub fn wide_hall(random: &mut Random) -> [Vec<u8>; 3] {
    let mut site = site_in(random, 1);
    let (mut hall, mut low) = (item(random, PITCHED), under(random, 1));
    let step = random.between(12_600, 30_000);
    if random.once_in(2) {
        put(&mut site, GROUND_LOAD, step / 2 + random.between(0, 2) - 1);
    }
    let mut widths = random.between(100_001, 200_000);
    if random.once_in(2) {
        let both = 8 * step + random.between(0, 2) - 1;
        let least = both.saturating_sub(200_000).max(1);
        let width = random.between(least, (both - 100_001).min(100_000));
        widths = both - width;
        put(&mut low, STEPPED_FIELDS[0], width);
    }
    let left = random.between(widths - 100_000, 100_000);
    put(&mut hall, PITCHED_FIELDS[4], left);
    put(&mut hall, PITCHED_FIELDS[5], widths - left);
    put(&mut low, STEPPED_FIELDS[1], step);
    [site, hall, low]
}

/// A roof of kind 6 or 7 that ends inside a drift, the lower roof with snow that slides down.
pub fn cut(random: &mut Random, kind: u8) -> Vec<u8> {
    let mut item = item(random, kind);
    if kind == LOWER {
        let field = LOWER_FIELDS[4];
        put(&mut item, field, random.between(SLIDES_FROM, 599));
    }
    for [step, width] in steps_and_widths(kind) {
        let longest = near_drift(random, kind, get(&item, *step));
        let high = random.between(1, longest);
        put(&mut item, *width, random.between(1, high));
    }
    item
}

/// A hall, and roofs of kinds 5, 6, 7 and 10, the last one under the hall, close to where the limits
/// of a set decide.
pub fn limited(random: &mut Random, set: &Set, ground_load: u32) -> Vec<Vec<u8>> {
    let hall = item(random, PITCHED);
    let arch = limited_arch(random, set[1]);
    let mut lower = item(random, LOWER);
    let upper_width = get(&lower, LOWER_FIELDS[0]);
    limit_drift(random, &mut lower, upper_width, set, ground_load);
    let mut stepped = under(random, 1);
    limit_drift(random, &mut stepped, above(&hall, 0)[0], set, ground_load);
    vec![hall, arch, lower, item(random, PROJECTION), stepped]
}

/// An arch with 0.2 + 10 × rise/span close to an upper value of μ3, where one has that.
fn limited_arch(random: &mut Random, upper: u32) -> Vec<u8> {
    let rise = draw(random, ARCH_FIELDS[0]);
    let span = 1_000 * rise / upper.saturating_sub(20).max(1) + random.between(0, 2);
    let span = span.saturating_sub(1).clamp(2, 30_000);
    of_figures(CYLINDRICAL, &[rise.min(span / 2), span])
}

/// Gives a lower roof a step whose double is close to a limit of the drift length, or 2h/sk to one of
/// μw, and a width close to the drift length, or (b1 + b2)/2h to a limit of μw.
fn limit_drift(
    random: &mut Random,
    item: &mut [u8],
    upper_width: u32,
    set: &Set,
    ground_load: u32,
) {
    let [_, _, low, high, short, long] = *set;
    let [step, width] = steps_and_widths(item[0])[0];
    let by_snow = [low, high].map(|limit| limit * ground_load / 200);
    let steps = [short / 2, long / 2, by_snow[0], by_snow[1], get(item, step)];
    let height = beside(random, &steps).clamp(step.low, step.high);
    put(item, step, height);
    let by_width = [low, high].map(|limit| (2 * height * limit / 100).saturating_sub(upper_width));
    let drift = (2 * height).clamp(short, long);
    let choices = [drift, by_width[0], by_width[1], get(item, width)];
    let near = beside(random, &choices).clamp(width.low, width.high);
    put(item, width, near);
}

/// One of some values, or the one before or behind it.
fn beside(random: &mut Random, values: &[u32]) -> u32 {
    (random.pick(values) + random.between(0, 2)).saturating_sub(1)
}

/// A roof of any kind, twice as often one of kind 9.
pub fn roof(random: &mut Random) -> Vec<u8> {
    let kind = *ROOFS.get(random.below(10)).unwrap_or(&DRIFT_ROOF);
    item(random, kind)
}

/// A site and a chain of 31 roofs, each before its upper item. None ends inside its drift, and there
/// are no local forces.
pub fn long_chain(random: &mut Random) -> Vec<Vec<u8>> {
    let mut items = vec![of_figures(SITE, &[1_000, 100, 100, 200, 1, 300]); MAX_ITEMS];
    let places: Vec<_> = (1..MAX_ITEMS).rev().collect();
    items[places[0]] = of_figures(PITCHED, &[200, 300, 0, 0, 9_000, 6_000]);
    chain(random, &mut items, &places);
    for &place in &places[1..] {
        let width = random.between(15_001, 100_000);
        put(&mut items[place], STEPPED_FIELDS[0], width);
    }
    items
}

/// A site in a situation and a roof of each kind, a stepped one under each kind of upper item.
pub fn each_kind(random: &mut Random, situation: u32) -> Vec<Vec<u8>> {
    let mut items = vec![site_in(random, situation)];
    items.extend(ROOFS.map(|kind| item(random, kind)));
    for kind in UPPERS {
        let upper = items.iter().position(|item| item[0] == kind);
        items.push(under(random, upper.unwrap_or(0)));
    }
    items
}

/// The items of a sound sheet, the site first.
pub fn items(random: &mut Random) -> Vec<Vec<u8>> {
    let roofs = match random.below(16) {
        0 => 0,
        1 => MAX_ITEMS - 1,
        2 | 3 => random.below(MAX_ITEMS),
        _ => 1 + random.below(4),
    };
    some_items(random, 1 + roofs)
}

/// So many items of a sound sheet, the site first. Some roofs are stepped, each under one that was
/// drawn before it.
pub fn some_items(random: &mut Random, count: usize) -> Vec<Vec<u8>> {
    let mut items = vec![site(random); count];
    let mut uppers = Vec::new();
    for place in places(random, count) {
        let is_stepped = !uppers.is_empty() && random.once_in(3);
        items[place] = if is_stepped {
            let upper = random.pick(&uppers);
            under(random, upper)
        } else {
            roof(random)
        };
        if UPPERS.contains(&items[place][0]) {
            uppers.push(place);
        }
    }
    items
}

/// The places of the roofs among so many items, half of the time in any order.
fn places(random: &mut Random, count: usize) -> Vec<usize> {
    let mut places: Vec<_> = (1..count).collect();
    if random.once_in(2) {
        random.shuffle(&mut places);
    }
    places
}

/// Puts a stepped roof at every place but the first, under the place before it.
pub fn chain(random: &mut Random, items: &mut [Vec<u8>], places: &[usize]) {
    for step in places.windows(2) {
        items[step[1]] = under(random, step[0]);
    }
}

/// Puts items into a sheet, with gaps before, between and behind them.
pub fn sheet(random: &mut Random, items: &[Vec<u8>]) -> Vec<u8> {
    let mut sheet = packed(random, items);
    fill_up(random, &mut sheet);
    sheet
}

/// Puts items into a sheet that ends with the last one.
pub fn packed(random: &mut Random, items: &[Vec<u8>]) -> Vec<u8> {
    let gaps = random.once_in(2);
    laid(items, |_, body| {
        if gaps {
            let gap = random.below(6);
            noise(random, body, gap);
        }
    })
}

/// Puts items into a sheet with gaps of these sizes, one before each item and one behind the last,
/// out of the front of a filling.
pub fn with_gaps(items: &[Vec<u8>], gaps: &[usize], mut filling: &[u8]) -> Vec<u8> {
    let mut fill = |place: usize, body: &mut Vec<u8>| {
        let (gap, rest) = filling.split_at(gaps[place]);
        body.extend_from_slice(gap);
        filling = rest;
    };
    let mut sheet = laid(items, &mut fill);
    fill(items.len(), &mut sheet);
    sheet
}

/// Puts items into a sheet without gaps.
pub fn without_gaps(items: &[Vec<u8>]) -> Vec<u8> {
    laid(items, |_, _| ())
}

/// Puts items into a sheet, each behind what fills the gap before it.
fn laid(items: &[Vec<u8>], mut fill: impl FnMut(usize, &mut Vec<u8>)) -> Vec<u8> {
    let mut body = Vec::new();
    let mut pairs = Vec::new();
    for (place, item) in items.iter().enumerate() {
        fill(place, &mut body);
        pairs.push((2 + 4 * items.len() + body.len(), item.len()));
        body.extend_from_slice(item);
    }
    let mut sheet = (items.len() as u16).to_le_bytes().to_vec();
    for (offset, length) in pairs {
        sheet.extend((offset as u16).to_le_bytes());
        sheet.extend((length as u16).to_le_bytes());
    }
    sheet.extend(body);
    sheet
}

/// Sometimes bytes behind the last item, now and then up to the longest sheet.
fn fill_up(random: &mut Random, sheet: &mut Vec<u8>) {
    let left = MAX_SHEET.saturating_sub(sheet.len());
    let more = match random.below(64) {
        0 => left,
        1 => random.below(left + 1),
        2..=9 => random.below(8),
        _ => 0,
    };
    noise(random, sheet, more);
}

/// Where an item of an accepted sheet lies.
pub fn place_of(sheet: &[u8], index: usize) -> Range<usize> {
    let [offset, length] = [2, 4].map(|at| {
        let at = at + 4 * index;
        usize::from(u16::from_le_bytes([sheet[at], sheet[at + 1]]))
    });
    offset..offset + length
}

/// An item of an accepted sheet.
pub fn item_of(sheet: &[u8], index: usize) -> &[u8] {
    &sheet[place_of(sheet, index)]
}

pub fn noise(random: &mut Random, bytes: &mut Vec<u8>, count: usize) {
    bytes.extend((0..count).map(|_| random.byte()));
}
