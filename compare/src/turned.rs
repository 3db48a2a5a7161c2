//! A roof drawn from its other end (request A12): left and right are exchanged, and spans and valleys
//! come in reverse order.
//!
//! Of the kinds that the request leaves out, 9 and 12 can be turned likewise. All others stay.

use crate::sheet::length_of;

/// Bytes of a span, and of the depth and the length of a valley.
const SPAN: usize = 12;
const VALLEY: usize = 8;
/// The code of an exceptional drift is this plus the number of its valley.
const DRIFT: u8 = 30;

/// The item of a roof as it is drawn from the other end. None where its kind isn't turned, or where
/// it hasn't its kind's length.
pub fn item(item: &[u8]) -> Option<Vec<u8>> {
    let (&kind, fields) = item.split_first()?;
    if length_of(kind, fields) != Ok(item.len()) {
        return None;
    }
    let mut turned = item.to_vec();
    let fields = &mut turned[1..];
    match kind {
        // Pitches, guards and widths.
        3 => exchange_sides(fields, &[2, 1, 4]),
        4 | 9 => turn_spans(fields),
        // The height stays.
        7 => exchange_sides(&mut fields[4..], &[4]),
        // Heights and widths.
        12 => exchange_sides(fields, &[4, 4]),
        _ => return None,
    }
    Some(turned)
}

/// The code of the turned roof that a code of an item becomes.
pub fn code(item: &[u8], code: u8) -> u8 {
    match (item, code) {
        ([3, ..], 2 | 12) => code + 1,
        ([3, ..], 3 | 13) => code - 1,
        ([9, spans @ 2..=16, ..], 31..=45) if code < DRIFT + spans => 2 * DRIFT + spans - code,
        _ => code,
    }
}

/// The position of a station from the other end. None past the roof's end.
pub fn station(end: u32, station: u32) -> Option<u32> {
    end.checked_sub(station)
}

/// The segments of a roof as they lie from its other end.
pub fn segments(segments: &[[u32; 4]]) -> Vec<[u32; 4]> {
    let end = segments.last().map_or(0, |segment| segment[1]);
    let turned = |&[from, to, left, right]: &[u32; 4]| [end - to, end - from, right, left];
    segments.iter().rev().map(turned).collect()
}

/// The count of spans, the spans with pitches and widths, and the valleys where there are any.
fn turn_spans(fields: &mut [u8]) {
    let (spans, fields) = fields.split_at_mut(1);
    let (spans, valleys) = fields.split_at_mut(SPAN * usize::from(spans[0]));
    reverse(spans, SPAN);
    for span in spans.chunks_exact_mut(SPAN) {
        exchange_sides(span, &[2, 4]);
    }
    reverse(valleys, VALLEY);
}

/// Exchanges a left field and the right one behind it, for each number of bytes in turn.
fn exchange_sides(mut fields: &mut [u8], sizes: &[usize]) {
    for &size in sizes {
        let (sides, rest) = fields.split_at_mut(2 * size);
        sides.rotate_left(size);
        fields = rest;
    }
}

/// Puts parts of so many bytes in reverse order.
fn reverse(parts: &mut [u8], size: usize) {
    let reversed: Vec<u8> = parts.rchunks_exact(size).flatten().copied().collect();
    parts.copy_from_slice(&reversed);
}

#[cfg(test)]
mod tests {
    use super::*;
    use crate::calls::{self, REFUSED};
    use crate::sheets::{sheet, words, SITE};
    use crate::store::EMPTY;

    /// The pitches and widths of three spans, and of the same drawn from the right.
    const THREE_SPANS: [([u16; 2], [u32; 2]); 3] = [
        ([0, 50], [1_000, 2_000]),
        ([150, 250], [3_000, 4_000]),
        ([50, 600], [5_000, 6_000]),
    ];
    const FROM_THE_RIGHT: [([u16; 2], [u32; 2]); 3] = [
        ([600, 50], [6_000, 5_000]),
        ([250, 150], [4_000, 3_000]),
        ([50, 0], [2_000, 1_000]),
    ];

    fn pitched(pitches: [u16; 2], guards: [u8; 2], widths: [u32; 2]) -> Vec<u8> {
        let pitches = pitches.into_iter().flat_map(u16::to_le_bytes);
        let widths = widths.into_iter().flat_map(u32::to_le_bytes);
        let fields = pitches.chain(guards).chain(widths);
        [3].into_iter().chain(fields).collect()
    }

    /// Spans by their pitches and widths, and depth and length of each valley for kind 9.
    fn spans(kind: u8, spans: &[([u16; 2], [u32; 2])], valleys: &[[u32; 2]]) -> Vec<u8> {
        let mut item = vec![kind, spans.len() as u8];
        for (pitches, widths) in spans {
            item.extend(pitches.iter().flat_map(|pitch| pitch.to_le_bytes()));
            item.extend(widths.iter().flat_map(|width| width.to_le_bytes()));
        }
        let figures = valleys.iter().flatten();
        item.extend(figures.flat_map(|figure| figure.to_le_bytes()));
        item
    }

    /// A sheet with the roof behind a site with sk 1,500 in a situation.
    fn in_situation(situation: u8, roof: &[u8]) -> Vec<u8> {
        let mut site = SITE.to_vec();
        site[1..3].copy_from_slice(&1_500_u16.to_le_bytes());
        site[11] = situation;
        sheet(&[site, roof.to_vec()])
    }

    fn made(situation: u8, roof: &[u8], code: u8) -> Vec<[u32; 4]> {
        let mut out = [0; 128];
        let count = calls::make(&EMPTY, &in_situation(situation, roof), 1, code, &mut out);
        assert!(count < REFUSED);
        out.as_chunks().0[..count as usize].to_vec()
    }

    /// Whether a roof turned is the other one, and the other one turned is the roof.
    fn is_pair(roof: &[u8], other: &[u8]) -> bool {
        item(roof).as_deref() == Some(other) && item(other).as_deref() == Some(roof)
    }

    /// Codes and what they become.
    fn assert_codes(item: &[u8], codes: &[(u8, u8)]) {
        for code in 0..=255 {
            let known = codes.iter().find(|(from, _)| *from == code);
            let known = known.map_or(code, |(_, to)| *to);
            assert_eq!(super::code(item, code), known, "code {code}");
        }
    }

    /// 20.0° without a guard beside 60.0° with one, 3,000 and 5,000 wide. Under 1,500 N/m² each slope
    /// has 1,200, and half of it is 600.
    #[test]
    fn a_pitched_roof() {
        let bytes = [3, 200, 0, 88, 2, 0, 1, 0xB8, 0x0B, 0, 0, 0x88, 0x13, 0, 0];
        let other = [3, 88, 2, 200, 0, 1, 0, 0x88, 0x13, 0, 0, 0xB8, 0x0B, 0, 0];
        let roof = pitched([200, 600], [0, 1], [3_000, 5_000]);
        assert_eq!(roof, bytes);
        assert!(is_pair(&roof, &other));
        let both = |code| {
            [
                made(1, &roof, code),
                made(1, &other, super::code(&roof, code)),
            ]
        };
        let from_either_end = |left, right| {
            [
                vec![[0, 12_000, left, left], [12_000, 32_000, right, right]],
                vec![[0, 20_000, right, right], [20_000, 32_000, left, left]],
            ]
        };
        assert_eq!(both(1), from_either_end(1_200, 1_200));
        assert_eq!(both(2), from_either_end(600, 1_200));
        assert_eq!(both(3), from_either_end(1_200, 600));
        assert_eq!(both(11), from_either_end(2_400, 2_400));
        assert_eq!(both(12), from_either_end(1_200, 2_400));
        assert_eq!(both(13), from_either_end(2_400, 1_200));
        // Without its guard the steep slope has no snow, on either side.
        let bare = pitched([200, 600], [0, 0], [3_000, 5_000]);
        let turned = item(&bare).unwrap();
        assert_eq!(turned[5..7], [0, 0]);
        assert_eq!(made(0, &bare, 1), from_either_end(1_200, 0)[0]);
        assert_eq!(made(0, &turned, 1), from_either_end(1_200, 0)[1]);
        assert_eq!(
            item(&pitched([0; 2], [1, 1], [1; 2])).unwrap()[5..7],
            [1, 1]
        );
    }

    #[test]
    fn codes_of_a_pitched_roof_change_places() {
        let roof = pitched([200, 400], [0; 2], [1; 2]);
        assert_codes(&roof, &[(2, 3), (3, 2), (12, 13), (13, 12)]);
    }

    /// Spans of 1,000 + 2,000 and 3,000 + 4,000. Under 1,500 N/m² the slopes have 1,200, 800, 1,120
    /// and 600. The mean of 40.0° and 32.0° is above 30.0°, and the load in the valley 2,400.
    #[test]
    fn two_spans() {
        let roof = [([100, 400], [1_000, 2_000]), ([320, 450], [3_000, 4_000])];
        let other = [([450, 320], [4_000, 3_000]), ([400, 100], [2_000, 1_000])];
        let [roof, other] = [roof, other].map(|figures| spans(4, &figures, &[]));
        assert!(is_pair(&roof, &other));
        let even = [
            [0, 4_000, 1_200, 1_200],
            [4_000, 12_000, 800, 800],
            [12_000, 24_000, 1_120, 1_120],
            [24_000, 40_000, 600, 600],
        ];
        assert_eq!(made(0, &roof, 1), even);
        let even = [
            [0, 16_000, 600, 600],
            [16_000, 28_000, 1_120, 1_120],
            [28_000, 36_000, 800, 800],
            [36_000, 40_000, 1_200, 1_200],
        ];
        assert_eq!(made(0, &other, 1), even);
        let drifted = [
            [0, 4_000, 1_200, 1_200],
            [4_000, 12_000, 800, 2_400],
            [12_000, 24_000, 2_400, 1_120],
            [24_000, 40_000, 600, 600],
        ];
        assert_eq!(made(0, &roof, 2), drifted);
        let drifted = [
            [0, 16_000, 600, 600],
            [16_000, 28_000, 1_120, 2_400],
            [28_000, 36_000, 2_400, 800],
            [36_000, 40_000, 1_200, 1_200],
        ];
        assert_eq!(made(0, &other, 2), drifted);
        assert_codes(&roof, &[]);
    }

    /// The middle one of three spans stays in its place. Valleys at the means 10.0° and 15.0° have
    /// 1,600 and 1,800.
    #[test]
    fn three_spans() {
        let [roof, other] = [THREE_SPANS, FROM_THE_RIGHT].map(|figures| spans(4, &figures, &[]));
        assert!(is_pair(&roof, &other));
        let first = [
            [0, 4_000, 1_200, 1_200],
            [4_000, 12_000, 1_200, 1_600],
            [12_000, 24_000, 1_600, 1_200],
            [24_000, 40_000, 1_200, 1_800],
            [40_000, 60_000, 1_800, 1_200],
            [60_000, 84_000, 0, 0],
        ];
        let second = [
            [0, 24_000, 0, 0],
            [24_000, 44_000, 1_200, 1_800],
            [44_000, 60_000, 1_800, 1_200],
            [60_000, 72_000, 1_200, 1_600],
            [72_000, 80_000, 1_600, 1_200],
            [80_000, 84_000, 1_200, 1_200],
        ];
        assert_eq!(made(0, &roof, 2), first);
        assert_eq!(made(0, &other, 2), second);
        assert_eq!(segments(&first), second);
        assert_eq!(segments(&second), first);
    }

    /// Three spans with two valleys. Under 1,500 N/m² the depths give 1,000 and 2,000.
    #[test]
    fn valleys() {
        let roof = spans(9, &THREE_SPANS, &[[500, 70_000], [1_000, 80_000]]);
        let other = spans(9, &FROM_THE_RIGHT, &[[1_000, 80_000], [500, 70_000]]);
        assert!(is_pair(&roof, &other));
        let first = [
            [0, 4_000, 0, 0],
            [4_000, 12_000, 0, 1_000],
            [12_000, 24_000, 1_000, 0],
            [24_000, 84_000, 0, 0],
        ];
        assert_eq!(made(2, &roof, 31), first);
        let last = [
            [0, 60_000, 0, 0],
            [60_000, 72_000, 0, 1_000],
            [72_000, 80_000, 1_000, 0],
            [80_000, 84_000, 0, 0],
        ];
        assert_eq!(made(2, &other, 32), last);
        assert_eq!(made(3, &roof, 32)[1], [24_000, 40_000, 0, 2_000]);
        assert_eq!(made(3, &other, 31)[1], [24_000, 44_000, 0, 2_000]);
        assert_codes(&roof, &[(31, 32), (32, 31)]);
    }

    /// The only valley of two spans is the first from either end, and the middle one of four spans
    /// the second.
    #[test]
    fn codes_of_valleys() {
        let with_spans = |count| [9, count];
        assert_codes(&with_spans(2), &[]);
        assert_codes(&with_spans(4), &[(31, 33), (33, 31)]);
        let last: Vec<_> = (31..=45).map(|code| (code, 76 - code)).collect();
        assert_codes(&with_spans(16), &last);
        for count in [0, 1, 17, 255] {
            assert_codes(&with_spans(count), &[]);
        }
        for kind in [0, 1, 2, 4, 5, 6, 7, 8, 10, 11, 12, 13] {
            assert_codes(&[kind, 16], &[]);
        }
        assert_codes(&[], &[]);
    }

    /// At 1,500 high the load at the projection is 3,000/1,500 × 1,500, at most 2.0 × 1,500, and the
    /// drift is 5,000 long. It is cut at 2,500, where 2,100 lie, and ends before 6,000.
    #[test]
    fn a_projection() {
        let roof = words(7, &[1_500, 2_500, 6_000]);
        let other = words(7, &[1_500, 6_000, 2_500]);
        assert!(is_pair(&roof, &other));
        let first = [
            [0, 10_000, 2_100, 3_000],
            [10_000, 30_000, 3_000, 1_200],
            [30_000, 34_000, 1_200, 1_200],
        ];
        assert_eq!(made(0, &roof, 2), first);
        let second = [
            [0, 4_000, 1_200, 1_200],
            [4_000, 24_000, 1_200, 3_000],
            [24_000, 34_000, 3_000, 2_100],
        ];
        assert_eq!(made(0, &other, 2), second);
        // Ramps alone where both sides are shorter than the drift.
        let ramps = words(7, &[1_500, 2_500, 1_000]);
        let turned = item(&ramps).unwrap();
        assert_eq!(turned, words(7, &[1_500, 1_000, 2_500]));
        let first = [[0, 10_000, 2_100, 3_000], [10_000, 14_000, 3_000, 2_640]];
        assert_eq!(made(0, &ramps, 2), first);
        let second = [[0, 4_000, 2_640, 3_000], [4_000, 14_000, 3_000, 2_100]];
        assert_eq!(made(0, &turned, 2), second);
        assert_codes(&roof, &[]);
    }

    /// 800 over 2,000 on one side, 1,600 over 2,500 on the other, where 5h is 4,000.
    #[test]
    fn a_small_projection() {
        let roof = words(12, &[400, 800, 3_000, 2_500]);
        let other = words(12, &[800, 400, 2_500, 3_000]);
        assert!(is_pair(&roof, &other));
        let first = [
            [0, 4_000, 0, 0],
            [4_000, 12_000, 0, 800],
            [12_000, 22_000, 1_600, 0],
        ];
        assert_eq!(made(2, &roof, 31), first);
        let second = [
            [0, 10_000, 0, 1_600],
            [10_000, 18_000, 800, 0],
            [18_000, 22_000, 0, 0],
        ];
        assert_eq!(made(3, &other, 31), second);
        assert_codes(&roof, &[]);
    }

    #[test]
    fn a_station() {
        assert_eq!(station(84_000, 0), Some(84_000));
        assert_eq!(station(84_000, 1), Some(83_999));
        assert_eq!(station(84_000, 84_000), Some(0));
        assert_eq!(station(84_000, 84_001), None);
    }

    /// Loads at stations of three spans, and from the other end. The ramp between 1,200 and 1,600 is
    /// 8,000 long, that to 1,800 is 16,000 long.
    #[test]
    fn loads_from_either_end() {
        let roof = spans(4, &THREE_SPANS, &[]);
        let loads = [
            (0, 1_200),
            (4_001, 1_201),
            (6_000, 1_300),
            (12_000, 1_600),
            (32_000, 1_500),
            (60_000, 1_200),
            (60_001, 0),
            (84_000, 0),
        ];
        let sheets = [roof.clone(), item(&roof).unwrap()].map(|roof| in_situation(0, &roof));
        for (position, load) in loads {
            for (sheet, station) in sheets.iter().zip([position, 84_000 - position]) {
                assert_eq!(calls::load(&EMPTY, sheet, 1, 2, station), load);
            }
        }
        for sheet in sheets {
            let past = calls::load(&EMPTY, &sheet, 1, 2, 84_001);
            assert_eq!(past, REFUSED + 65_536 * 12 + 1);
        }
    }

    /// Fields outside their ranges, and counts that no roof has, where the length fits.
    #[test]
    fn refused_roofs_are_turned() {
        let roof = pitched([801, 0], [2, 255], [0, u32::MAX]);
        let other = pitched([0, 801], [255, 2], [u32::MAX, 0]);
        assert!(is_pair(&roof, &other));
        assert!(is_pair(&[4, 0], &[4, 0]));
        let one = ([801, 7], [0, 9]);
        let turned = ([7, 801], [9, 0]);
        for kind in [4, 9] {
            assert!(is_pair(
                &spans(kind, &[one], &[]),
                &spans(kind, &[turned], &[])
            ));
        }
        let mut figures = vec![one; 17];
        let mut valleys = vec![[1, 2]; 16];
        figures[0] = ([1, 2], [3, 4]);
        valleys[0] = [5, 6];
        let roof = spans(9, &figures, &valleys);
        let turned = item(&roof).unwrap();
        assert_eq!(turned[194..206], [2, 0, 1, 0, 4, 0, 0, 0, 3, 0, 0, 0]);
        assert_eq!(turned[326..], [5, 0, 0, 0, 6, 0, 0, 0]);
        assert_eq!(item(&turned), Some(roof));
    }

    /// Other kinds, no item, and kinds that are turned without their length.
    #[test]
    fn what_is_not_turned() {
        for length in 0..40 {
            for kind in [0, 1, 2, 5, 6, 8, 10, 11, 13, 255] {
                let mut roof = vec![2; length];
                roof.iter_mut().take(1).for_each(|byte| *byte = kind);
                assert_eq!(item(&roof), None);
            }
        }
        for (kind, length) in [(3, 15), (4, 26), (7, 13), (9, 34), (12, 17)] {
            for other in (1..60).filter(|&other| other != length) {
                let mut roof = vec![2; other];
                roof[0] = kind;
                assert_eq!(item(&roof), None, "kind {kind} length {other}");
            }
        }
        assert_eq!(item(&[9, 0]), None);
    }
}
