//! The sheet: its verdict and its items.

use std::ops::RangeInclusive;

use crate::ground;
use crate::store::{National, Store, RECOMMENDED};

/// The most items and bytes that a sheet may have, by who reads it.
#[derive(Clone, Copy, Debug)]
pub struct Ceiling {
    pub items: usize,
    pub bytes: usize,
}

pub const TERMINALS: Ceiling = Ceiling {
    items: 32,
    bytes: 16_384,
};
/// The quote desk, which wants no long jobs.
pub const DESK: Ceiling = Ceiling {
    items: 8,
    bytes: 2_048,
};

/// Spans of the longest multi-span roof.
pub const MAX_SPANS: usize = 16;
/// Slopes of the longest multi-span roof.
pub const MAX_SLOPES: usize = 2 * MAX_SPANS;
/// Valleys of the longest multi-span roof, one between each span and the next.
pub const MAX_VALLEYS: usize = MAX_SPANS - 1;
/// 60.0 degrees, where snow no longer stays on a slope.
pub const SLIDING_PITCH: u16 = 600;

/// Ground loads in N/m², given or from the map.
pub const GROUND_LOADS: RangeInclusive<u32> = 100..=25_000;
/// Altitudes of a site in m.
pub const ALTITUDES: RangeInclusive<u16> = 0..=1_500;

/// Bytes of the job day at the end of a dated site.
const DAY: usize = 2;

const PITCHES: RangeInclusive<u16> = 0..=800;
const WIDTHS: RangeInclusive<u32> = 1..=100_000;
const STEPS: RangeInclusive<u32> = 1..=30_000;
/// Heights of a small projection in mm, up to 1 m.
const SMALL_HEIGHTS: RangeInclusive<u32> = 1..=1_000;

/// Numbers of the refusals.
pub mod number {
    pub const FRAME: u8 = 1;
    pub const PAIR: u8 = 2;
    pub const KIND: u8 = 3;
    pub const LENGTH: u8 = 4;
    pub const SITE_PLACE: u8 = 5;
    pub const SITE_FIELD: u8 = 6;
    pub const ALTITUDE: u8 = 7;
    pub const ROOF_FIELD: u8 = 8;
    pub const VALLEY: u8 = 9;
    pub const RISE: u8 = 10;
    pub const ROOM: u8 = 11;
    pub const PAST_END: u8 = 12;
    pub const NOT_MADE: u8 = 13;
    pub const REGION: u8 = 14;
    pub const MAP_LOAD: u8 = 15;
    pub const UPPER: u8 = 16;
    pub const CIRCLE: u8 = 17;
    pub const STORE: u8 = 18;
    pub const NOT_BEGUN: u8 = 19;
}

/// Why there is no answer, and at which item.
#[derive(Clone, Copy, Debug, PartialEq, Eq)]
pub struct Refusal {
    pub number: u8,
    pub item: usize,
}

impl Refusal {
    pub fn new(number: u8, item: usize) -> Self {
        Self { number, item }
    }
}

/// A case of Annex A. Each is the number of the situation.
#[derive(Clone, Copy, Debug, PartialEq, Eq)]
pub enum Situation {
    /// Case A: nothing exceptional.
    Normal = 0,
    /// Case B1: exceptional falls.
    Falls = 1,
    /// Case B2: exceptional drifts.
    Drifts = 2,
    /// Case B3: exceptional falls and exceptional drifts.
    FallsAndDrifts = 3,
}

impl Situation {
    fn of(number: u8) -> Option<Self> {
        let cases = [
            Self::Normal,
            Self::Falls,
            Self::Drifts,
            Self::FallsAndDrifts,
        ];
        cases.get(usize::from(number)).copied()
    }

    pub fn has_drifts(self) -> bool {
        matches!(self, Self::Drifts | Self::FallsAndDrifts)
    }
}

/// The ground load and its coefficients, in N/m² and hundredths.
#[derive(Clone, Copy, Debug)]
pub struct Site {
    pub ground_load: u32,
    pub exposure: u16,
    pub thermal: u16,
    pub exceptional: u16,
    pub situation: Situation,
    pub altitude: u16,
    /// Of the set in use, or the recommended ones.
    pub national: National,
}

/// A plane roof slope: tenths of a degree and a plan width in mm.
#[derive(Clone, Copy, Debug, Default, PartialEq, Eq)]
pub struct Slope {
    pub pitch: u16,
    pub guard: bool,
    pub width: u32,
}

/// The slopes of a multi-span roof from left to right.
#[derive(Clone, Copy, Debug)]
pub struct MultiSpan {
    slopes: [Slope; MAX_SLOPES],
    count: usize,
}

impl MultiSpan {
    pub fn slopes(&self) -> &[Slope] {
        &self.slopes[..self.count]
    }

    fn valley_count(&self) -> usize {
        self.count / 2 - 1
    }

    /// The two slopes at each valley.
    fn valley_slopes(&self) -> impl Iterator<Item = &[Slope]> {
        self.slopes[1..self.count - 1].chunks_exact(2)
    }
}

/// A valley as Annex B sees it, in mm.
#[derive(Clone, Copy, Debug, Default)]
pub struct Valley {
    /// h
    pub depth: u32,
    /// b3
    pub length: u32,
}

/// A multi-span roof whose valleys are designed by Annex B.
#[derive(Clone, Copy, Debug)]
pub struct DriftRoof {
    spans: MultiSpan,
    valleys: [Valley; MAX_VALLEYS],
}

impl DriftRoof {
    pub fn slopes(&self) -> &[Slope] {
        self.spans.slopes()
    }

    /// The valleys from left to right.
    pub fn valleys(&self) -> &[Valley] {
        &self.valleys[..self.spans.valley_count()]
    }
}

/// A lower flat roof with the wall of a taller one at its left end.
#[derive(Clone, Copy, Debug, PartialEq, Eq)]
pub struct LowerRoof {
    /// Up to 200,000 under a pitched roof of the sheet.
    pub upper_width: u32,
    pub lower_width: u32,
    pub step: u32,
    pub upper_slope: Slope,
}

/// A lower flat roof whose upper figures are those of another item.
#[derive(Clone, Copy, Debug)]
pub struct SteppedRoof {
    pub lower_width: u32,
    pub step: u32,
    /// The index of the upper item.
    pub upper: usize,
    /// The upper item's adjacent side, 0 left or 1 right.
    pub side: usize,
}

/// A parapet at the left end of a flat roof, as Annex B sees it, in mm.
#[derive(Clone, Copy, Debug)]
pub struct Parapet {
    pub height: u32,
    /// b1, the roof behind the parapet.
    pub width: u32,
    /// b2
    pub other_width: u32,
}

/// One side of a small projection on a flat roof, in mm.
#[derive(Clone, Copy, Debug)]
pub struct Side {
    pub height: u32,
    pub width: u32,
}

/// A roof whose figures lie within their ranges.
#[derive(Clone, Copy, Debug)]
#[allow(clippy::large_enum_variant)] // a sheet holds at most 31 of them
pub enum Roof {
    Monopitch(Slope),
    Pitched([Slope; 2]),
    MultiSpan(MultiSpan),
    Drift(DriftRoof),
    Cylindrical {
        rise: u32,
        span: u32,
    },
    Lower(LowerRoof),
    Projection {
        height: u32,
        left: u32,
        right: u32,
    },
    Parapet(Parapet),
    /// Up to 1 m high, its sides left and right.
    SmallProjection([Side; 2]),
}

/// An item that its own rules accept.
#[derive(Clone, Copy, Debug)]
#[allow(clippy::large_enum_variant)]
pub enum Item {
    Site(Site),
    Roof(Roof),
    Stepped(SteppedRoof),
}

/// The items of a sheet whose frame and pairs are sound, decoded one after the other.
pub struct Items<'a> {
    store: &'a Store,
    sheet: &'a [u8],
    count: usize,
    next: usize,
}

impl<'a> Items<'a> {
    /// Checks the frame (1) and all pairs in turn (2).
    pub fn of(store: &'a Store, sheet: &'a [u8], ceiling: Ceiling) -> Result<Self, Refusal> {
        let count = frame(sheet, ceiling).ok_or(Refusal::new(number::FRAME, 0))?;
        let mut free = 2 + 4 * count;
        for item in 0..count {
            let (offset, length) = pair(sheet, item);
            if offset < free || offset + length > sheet.len() {
                return Err(Refusal::new(number::PAIR, item));
            }
            free = offset + length;
        }
        Ok(Self {
            store,
            sheet,
            count,
            next: 0,
        })
    }
}

/// The length is the count of items that are still to come.
impl ExactSizeIterator for Items<'_> {}

impl Iterator for Items<'_> {
    type Item = Result<Item, Refusal>;

    fn next(&mut self) -> Option<Self::Item> {
        let index = self.next;
        if index == self.count {
            return None;
        }
        self.next += 1;
        let item = decode(part(self.sheet, index), index == 0, self.store);
        Some(item.map_err(|number| Refusal::new(number, index)))
    }

    fn size_hint(&self) -> (usize, Option<usize>) {
        let left = self.count - self.next;
        (left, Some(left))
    }
}

/// The count of items, where the length, the count and the room for the pairs are right.
fn frame(sheet: &[u8], ceiling: Ceiling) -> Option<usize> {
    if sheet.len() > ceiling.bytes {
        return None;
    }
    let (head, pairs) = sheet.split_first_chunk()?;
    let count = usize::from(u16::from_le_bytes(*head));
    ((1..=ceiling.items).contains(&count) && pairs.len() >= 4 * count).then_some(count)
}

/// Offset and length of an item. The pairs are known to fit.
fn pair(sheet: &[u8], item: usize) -> (usize, usize) {
    let mut fields = Fields(&sheet[2 + 4 * item..]);
    (usize::from(fields.u16()), usize::from(fields.u16()))
}

/// The bytes of an item. The pairs are known to be sound.
pub fn part(sheet: &[u8], item: usize) -> &[u8] {
    let (offset, length) = pair(sheet, item);
    &sheet[offset..offset + length]
}

/// An item's bytes taken apart, or the number of the first rule that they break.
fn decode(bytes: &[u8], is_first: bool, store: &Store) -> Result<Item, u8> {
    let (&kind, rest) = bytes.split_first().ok_or(number::LENGTH)?;
    let length = length_of(kind, rest)?;
    let is_dated = is_site(kind) && bytes.len() == length + DAY;
    if bytes.len() != length && !is_dated {
        return Err(number::LENGTH);
    }
    if is_site(kind) != is_first {
        return Err(number::SITE_PLACE);
    }
    let fields = Fields(rest);
    match kind {
        1 => site(fields, store).map(Item::Site),
        2 => monopitch(fields).map(Item::Roof),
        3 => pitched(fields).map(Item::Roof),
        4 => multi_span(fields).map(Item::Roof),
        5 => cylindrical(fields).map(Item::Roof),
        6 => lower(fields).map(Item::Roof),
        7 => projection(fields).map(Item::Roof),
        8 => map_site(fields, store).map(Item::Site),
        9 => drift_roof(fields).map(Item::Roof),
        10 => stepped(fields).map(Item::Stepped),
        11 => parapet(fields).map(Item::Roof),
        _ => small_projection(fields).map(Item::Roof),
    }
}

/// A site has its ground load given or takes it from the map.
fn is_site(kind: u8) -> bool {
    matches!(kind, 1 | 8)
}

/// The length that an item of this kind has, a site without a day. A multi-span roof says so in its
/// count byte.
pub fn length_of(kind: u8, rest: &[u8]) -> Result<usize, u8> {
    let spans = || rest.first().copied().map(usize::from).ok_or(number::LENGTH);
    Ok(match kind {
        1 => 14,
        2 => 8,
        3 => 15,
        4 => 2 + 12 * spans()?,
        5 => 9,
        6 => 20,
        7 => 13,
        8 => 12,
        // No length fits a count of 0.
        9 => (20 * spans()?).checked_sub(6).ok_or(number::LENGTH)?,
        10 => 11,
        11 => 13,
        12 => 17,
        _ => return Err(number::KIND),
    })
}

/// Little-endian numbers read off the front of an item. The item's length is checked before.
struct Fields<'a>(&'a [u8]);

impl Fields<'_> {
    fn take<const N: usize>(&mut self) -> [u8; N] {
        let (head, rest) = self.0.split_first_chunk().expect("the length is checked");
        self.0 = rest;
        *head
    }

    fn u8(&mut self) -> u8 {
        self.take::<1>()[0]
    }

    fn u16(&mut self) -> u16 {
        u16::from_le_bytes(self.take())
    }

    fn u32(&mut self) -> u32 {
        u32::from_le_bytes(self.take())
    }

    /// The job day, where there are bytes for one.
    fn day(&mut self) -> Option<u16> {
        (!self.0.is_empty()).then(|| self.u16())
    }

    fn pitch(&mut self) -> Result<u16, u8> {
        within(self.u16(), PITCHES, number::ROOF_FIELD)
    }

    fn width(&mut self) -> Result<u32, u8> {
        within(self.u32(), WIDTHS, number::ROOF_FIELD)
    }

    fn step(&mut self) -> Result<u32, u8> {
        within(self.u32(), STEPS, number::ROOF_FIELD)
    }

    fn small_height(&mut self) -> Result<u32, u8> {
        within(self.u32(), SMALL_HEIGHTS, number::ROOF_FIELD)
    }

    fn guard(&mut self) -> Result<bool, u8> {
        Ok(within(self.u8(), 0..=1, number::ROOF_FIELD)? == 1)
    }
}

/// The value, or the refusal where it lies outside its range.
pub fn within<T: PartialOrd>(value: T, range: RangeInclusive<T>, refusal: u8) -> Result<T, u8> {
    if range.contains(&value) {
        Ok(value)
    } else {
        Err(refusal)
    }
}

fn site(mut fields: Fields, store: &Store) -> Result<Site, u8> {
    let ground_load = within(fields.u32(), GROUND_LOADS, number::SITE_FIELD)?;
    let site = site_with(ground_load, &mut fields)?;
    with_national(site, fields, store)
}

/// The map is asked (14, 15) when every field is known to be right.
fn map_site(mut fields: Fields, store: &Store) -> Result<Site, u8> {
    let (region, zone) = (fields.u8(), fields.u8());
    let rest = site_with(0, &mut fields)?;
    let ground_load = ground::load(region, zone, rest.altitude)?;
    let site = Site {
        ground_load,
        ..rest
    };
    with_national(site, fields, store)
}

/// The fields from Ce on. The altitude comes last, as its rule (7) stands behind the others (6).
fn site_with(ground_load: u32, fields: &mut Fields) -> Result<Site, u8> {
    Ok(Site {
        ground_load,
        exposure: within(fields.u16(), 80..=120, number::SITE_FIELD)?,
        thermal: within(fields.u16(), 1..=100, number::SITE_FIELD)?,
        exceptional: within(fields.u16(), 100..=300, number::SITE_FIELD)?,
        situation: Situation::of(fields.u8()).ok_or(number::SITE_FIELD)?,
        altitude: within(fields.u16(), ALTITUDES, number::ALTITUDE)?,
        national: RECOMMENDED,
    })
}

/// The store is asked (19) behind every other rule on a site.
fn with_national(site: Site, mut fields: Fields, store: &Store) -> Result<Site, u8> {
    let national = store.in_use(fields.day())?;
    Ok(Site { national, ..site })
}

fn monopitch(mut fields: Fields) -> Result<Roof, u8> {
    Ok(Roof::Monopitch(Slope {
        pitch: fields.pitch()?,
        guard: fields.guard()?,
        width: fields.width()?,
    }))
}

fn pitched(mut fields: Fields) -> Result<Roof, u8> {
    let pitches = [fields.pitch()?, fields.pitch()?];
    let guards = [fields.guard()?, fields.guard()?];
    let widths = [fields.width()?, fields.width()?];
    Ok(Roof::Pitched([0, 1].map(|side| Slope {
        pitch: pitches[side],
        guard: guards[side],
        width: widths[side],
    })))
}

/// Every field comes first (8), then the pitches at the valleys (9).
fn multi_span(mut fields: Fields) -> Result<Roof, u8> {
    let spans = spans(&mut fields)?;
    check_pitches(&spans)?;
    Ok(Roof::MultiSpan(spans))
}

/// The same, with a depth and a length for each valley behind the spans.
fn drift_roof(mut fields: Fields) -> Result<Roof, u8> {
    let spans = spans(&mut fields)?;
    let mut valleys = [Valley::default(); MAX_VALLEYS];
    for valley in &mut valleys[..spans.valley_count()] {
        valley.depth = fields.step()?;
        valley.length = fields.width()?;
    }
    check_pitches(&spans)?;
    Ok(Roof::Drift(DriftRoof { spans, valleys }))
}

fn spans(fields: &mut Fields) -> Result<MultiSpan, u8> {
    let spans = usize::from(within(fields.u8(), 2..=16, number::ROOF_FIELD)?);
    let mut slopes = [Slope::default(); MAX_SLOPES];
    for span in slopes[..2 * spans].chunks_exact_mut(2) {
        span[0].pitch = fields.pitch()?;
        span[1].pitch = fields.pitch()?;
        span[0].width = fields.width()?;
        span[1].width = fields.width()?;
    }
    let count = 2 * spans;
    Ok(MultiSpan { slopes, count })
}

fn check_pitches(spans: &MultiSpan) -> Result<(), u8> {
    if spans.valley_slopes().any(sheds_into_valley) {
        return Err(number::VALLEY);
    }
    Ok(())
}

/// A valley between such slopes has no mean pitch in Table 5.2 (5.3.4).
fn sheds_into_valley(valley: &[Slope]) -> bool {
    let (left, right) = (valley[0].pitch, valley[1].pitch);
    left.max(right) > SLIDING_PITCH || left.min(right) == SLIDING_PITCH
}

fn cylindrical(mut fields: Fields) -> Result<Roof, u8> {
    let rise = within(fields.u32(), 1..=15_000, number::ROOF_FIELD)?;
    let span = within(fields.u32(), 2..=30_000, number::ROOF_FIELD)?;
    if 2 * rise > span {
        return Err(number::RISE);
    }
    Ok(Roof::Cylindrical { rise, span })
}

fn lower(mut fields: Fields) -> Result<Roof, u8> {
    Ok(Roof::Lower(LowerRoof {
        upper_width: fields.width()?,
        lower_width: fields.width()?,
        step: fields.step()?,
        upper_slope: Slope {
            width: fields.width()?,
            pitch: fields.pitch()?,
            guard: fields.guard()?,
        },
    }))
}

/// The index of the upper item has no rule of its own; it is held against all items later.
fn stepped(mut fields: Fields) -> Result<SteppedRoof, u8> {
    Ok(SteppedRoof {
        lower_width: fields.width()?,
        step: fields.step()?,
        upper: usize::from(fields.u8()),
        side: usize::from(within(fields.u8(), 0..=1, number::ROOF_FIELD)?),
    })
}

fn projection(mut fields: Fields) -> Result<Roof, u8> {
    Ok(Roof::Projection {
        height: fields.step()?,
        left: fields.width()?,
        right: fields.width()?,
    })
}

fn parapet(mut fields: Fields) -> Result<Roof, u8> {
    Ok(Roof::Parapet(Parapet {
        height: fields.step()?,
        width: fields.width()?,
        other_width: fields.width()?,
    }))
}

/// Both heights come first, then both widths.
fn small_projection(mut fields: Fields) -> Result<Roof, u8> {
    let heights = [fields.small_height()?, fields.small_height()?];
    let widths = [fields.width()?, fields.width()?];
    Ok(Roof::SmallProjection([0, 1].map(|side| Side {
        height: heights[side],
        width: widths[side],
    })))
}
