//! The figures that the calculation is held against.

use crate::arrangement::{codes, loaded_width, Arrangement};
use crate::calls;
use crate::forces;
use crate::ground;
use crate::listing;
use crate::loads::{Exact, Tenths, Whole};
use crate::sheet::{Roof, Site, Situation, Slope};
use crate::sheets::{
    dated, sheet, store, with_site, words, MAP_SITE as MAP_ITEM, SITE as SITE_ITEM,
};
use crate::store::{Limits, National, EMPTY, RECOMMENDED};

const SITE: Site = Site {
    ground_load: 1_000,
    exposure: 100,
    thermal: 100,
    exceptional: 200,
    situation: Situation::Normal,
    altitude: 500,
    national: RECOMMENDED,
};

fn snow(ground_load: u32) -> Site {
    Site {
        ground_load,
        ..SITE
    }
}

/// The lowest site with overhangs.
fn mountain(ground_load: u32) -> Site {
    Site {
        altitude: 801,
        ..snow(ground_load)
    }
}

fn segments(site: &Site, roof: &Roof, code: u8) -> Vec<[u32; 4]> {
    let made = Arrangement::<Tenths>::of(site, roof, code).expect("the code exists");
    made.stretches().iter().map(|part| part.segment()).collect()
}

/// A roof from its bytes, by way of a sheet.
fn roof(bytes: &[u8]) -> Result<Roof, u8> {
    let (_, roof) =
        calls::ask(&EMPTY, &with_site(&[bytes.to_vec()]), 1).map_err(|refusal| refusal.number)?;
    Ok(roof.expect("the second item is a roof"))
}

fn lower(widths: [u32; 4], pitch: u16) -> Roof {
    let mut bytes = words(6, &widths);
    bytes.extend(pitch.to_le_bytes());
    bytes.push(0);
    roof(&bytes).unwrap()
}

fn two_spans(left: u16, right: u16) -> Result<Roof, u8> {
    let mut bytes = vec![4, 2];
    for pitches in [[0, left], [right, 0]] {
        bytes.extend(pitches.into_iter().flat_map(u16::to_le_bytes));
        bytes.extend([4_000_u32, 4_000].into_iter().flat_map(u32::to_le_bytes));
    }
    roof(&bytes)
}

/// A roof of kind 9: widths of the slopes, all flat, then depth and length of each valley.
fn drift_bytes(widths: &[[u32; 2]], valleys: &[[u32; 2]]) -> Vec<u8> {
    let mut bytes = vec![9, widths.len() as u8];
    for span in widths {
        bytes.extend([0; 4]);
        bytes.extend(span.iter().flat_map(|width| width.to_le_bytes()));
    }
    let figures = valleys.iter().flatten();
    bytes.extend(figures.flat_map(|figure| figure.to_le_bytes()));
    bytes
}

fn drift_roof(widths: &[[u32; 2]], valleys: &[[u32; 2]]) -> Roof {
    roof(&drift_bytes(widths, valleys)).unwrap()
}

/// h, b1 and b2.
fn parapet(figures: [u32; 3]) -> Roof {
    roof(&words(11, &figures)).unwrap()
}

/// h1 and h2, b1 and b2.
fn small_projection(figures: [u32; 4]) -> Roof {
    roof(&words(12, &figures)).unwrap()
}

/// The loads read at stations of a roof that ends at a position, and none behind it.
fn assert_readings<const N: usize>(
    made: &Arrangement<Tenths>,
    stations: [u32; N],
    loads: [u32; N],
    end: u32,
) {
    assert_eq!(
        stations.map(|station| made.reading(station)),
        loads.map(Some)
    );
    assert_eq!(made.reading(end + 1), None);
}

fn in_situation(situation: Situation) -> Site {
    Site { situation, ..SITE }
}

#[test]
fn monopitch() {
    let load = |site: &Site, pitch, guard| {
        let width = 5_000;
        let slope = Slope {
            pitch,
            guard,
            width,
        };
        segments(site, &Roof::Monopitch(slope), 1)[0][2]
    };
    assert_eq!(
        [300, 301, 599, 600].map(|p| load(&SITE, p, false)),
        [800, 798, 3, 0]
    );
    assert_eq!(load(&SITE, 600, true), 800);
    assert_eq!(load(&snow(1_001), 300, false), 801);
}

#[test]
fn pitched() {
    let slope = |pitch| Slope {
        pitch,
        guard: false,
        width: 4_000,
    };
    let roof = Roof::Pitched([slope(200), slope(400)]);
    let loads = |code| {
        let made = segments(&snow(1_500), &roof, code);
        (made[0][2], made[1][2])
    };
    assert_eq!([1, 2, 3].map(loads), [(1200, 800), (600, 800), (1200, 400)]);
}

#[test]
fn valleys() {
    let valley = |left, right| Ok(segments(&SITE, &two_spans(left, right)?, 2)[1][3]);
    assert_eq!(valley(200, 100), Ok(1_200));
    assert_eq!(valley(300, 300), Ok(1_600));
    assert_eq!(valley(600, 599), Ok(1_600));
    assert_eq!(valley(600, 600), Err(9));
    assert_eq!(valley(0, 601), Err(9));
}

/// Two spans with slopes of 4,000. With a ground load of 1,000 the length gives b3/4.
#[test]
fn drift_loads() {
    let site = in_situation(Situation::Drifts);
    let peak = |depth, length| {
        let roof = drift_roof(&[[4_000; 2]; 2], &[[depth, length]]);
        let made = segments(&site, &roof, 31);
        let load = made[1][3];
        let slopes = [[16_000, 32_000, 0, load], [32_000, 48_000, load, 0]];
        assert_eq!(made[1..3], slopes);
        assert_eq!(
            [made[0], made[3]],
            [[0, 16_000, 0, 0], [48_000, 64_000, 0, 0]]
        );
        load
    };
    assert_eq!(peak(1, 100_000), 2);
    assert_eq!(peak(1_000, 40_000), 2_000);
    assert_eq!([10_000, 10_001].map(|b3| peak(30_000, b3)), [2_500, 2_501]);
    assert_eq!([1_250, 1_251].map(|h| peak(h, 10_001)), [2_500, 2_501]);
    assert_eq!(
        [2_499, 2_500, 2_501].map(|h| peak(h, 40_000)),
        [4_998, 5_000, 5_000]
    );
    assert_eq!(
        [19_999, 20_000, 20_001].map(|b3| peak(30_000, b3)),
        [5_000; 3]
    );
    assert_eq!(peak(30_000, 19_996), 4_999);
    assert_eq!(peak(30_000, 1), 1);
}

/// Each valley has the widths of the two slopes beside it: 2,000 + 5,000 and 1,000 + 7,000.
#[test]
fn drifts_in_their_valleys() {
    let widths = [[3_000, 2_000], [5_000, 1_000], [7_000, 4_000]];
    let roof = drift_roof(&widths, &[[9_000, 12_345], [1_500, 12_345]]);
    let site = in_situation(Situation::FallsAndDrifts);
    let first = [
        [0, 12_000, 0, 0],
        [12_000, 20_000, 0, 3_528],
        [20_000, 40_000, 3_528, 0],
        [40_000, 88_000, 0, 0],
    ];
    assert_eq!(segments(&site, &roof, 31), first);
    let second = [
        [0, 40_000, 0, 0],
        [40_000, 44_000, 0, 3_000],
        [44_000, 72_000, 3_000, 0],
        [72_000, 88_000, 0, 0],
    ];
    assert_eq!(segments(&site, &roof, 32), second);
    let made = Arrangement::<Tenths>::of(&site, &roof, 31).unwrap();
    // The peak is 3,527.2 underneath.
    let stations = [
        0, 12_000, 12_001, 14_001, 19_999, 20_000, 20_001, 39_999, 40_000, 88_000,
    ];
    let loads = [0, 0, 1, 883, 3_527, 3_528, 3_528, 1, 0, 0];
    assert_readings(&made, stations, loads, 88_001);
}

/// Ce, Ct, Cesl and the altitude leave a drift as it is.
#[test]
fn drifts_have_the_ground_load_alone() {
    let roof = drift_roof(&[[4_000; 2]; 2], &[[30_000, 10_001]]);
    let site = in_situation(Situation::Drifts);
    let other = Site {
        exposure: 80,
        thermal: 50,
        exceptional: 300,
        altitude: 1_500,
        ..site
    };
    assert_eq!(segments(&other, &roof, 31), segments(&site, &roof, 31));
    assert_ne!(segments(&other, &roof, 1), segments(&site, &roof, 1));
}

/// With a ground load of 1,000 the limits are 2h, 2,000 × b/ls and 8,000.
#[test]
fn parapet_loads() {
    let site = in_situation(Situation::Drifts);
    let peak = |figures| segments(&site, &parapet(figures), 31)[0][2];
    // ls is 2,500 and the widths give 16,000; ls is 15,000 and they give 8,000.
    assert_eq!(peak([500, 20_000, 1]), 1_000);
    assert_eq!(
        [3_999, 4_000, 4_001, 30_000].map(|h| peak([h, 20_000, 60_000])),
        [7_998, 8_000, 8_000, 8_000]
    );
    // 7,999.9, 7,998.9 and 8,000.1 by b2.
    assert_eq!(
        [59_999, 59_992, 60_001].map(|b2| peak([4_001, 20_000, b2])),
        [8_000, 7_999, 8_000]
    );
    // 2,666.7 by b1, 6,000 and 6,000.1 by b2.
    assert_eq!(
        [1, 20_000, 45_000, 45_001].map(|b2| peak([6_000, 20_000, b2])),
        [2_667, 2_667, 6_000, 6_001]
    );
    // Where the roof is all drift, b1 gives 2,000.
    assert_eq!(
        [999, 1_000, 1_001].map(|h| peak([h, 4_000, 3_000])),
        [1_998, 2_000, 2_000]
    );
    assert_eq!(peak([1, 1, 1]), 2);
    assert_eq!(peak([30_000, 100_000, 100_000]), 8_000);
    assert_eq!(peak([30_000, 1, 3]), 6_000);
}

/// Heights, b1 and the ends of the segments: the drift's, and the roof's where it goes on.
#[test]
fn parapet_lengths() {
    let site = in_situation(Situation::FallsAndDrifts);
    let ends = |height, width| {
        let made = segments(&site, &parapet([height, width, 50_000]), 31);
        assert_eq!((made[0][0], made[0][3]), (0, 0));
        if let Some(rest) = made.get(1) {
            assert_eq!((rest[0], &rest[2..]), (made[0][1], &[0, 0][..]));
        }
        made.iter().map(|part| part[1]).collect::<Vec<_>>()
    };
    assert_eq!(ends(2_000, 9_999), [39_996]);
    assert_eq!(ends(2_000, 10_000), [40_000]);
    assert_eq!(ends(2_000, 10_001), [40_000, 40_004]);
    assert_eq!(ends(2_999, 15_000), [59_980, 60_000]);
    assert_eq!(ends(3_000, 15_000), [60_000]);
    assert_eq!(ends(3_001, 15_000), [60_000]);
    assert_eq!(ends(2_999, 15_001), [59_980, 60_004]);
    assert_eq!(ends(3_000, 15_001), [60_000, 60_004]);
    assert_eq!(ends(30_000, 14_999), [59_996]);
    assert_eq!(ends(30_000, 100_000), [60_000, 400_000]);
    assert_eq!(ends(1, 100_000), [20, 400_000]);
    assert_eq!(ends(1, 1), [4]);
}

/// From 2,666.7 in tenths to 0 at 60,000. At a quarter of the way the exact load is 2,000.
#[test]
fn parapet_readings() {
    let site = in_situation(Situation::Drifts);
    let roof = parapet([6_000, 20_000, 12_000]);
    let made = Arrangement::<Tenths>::of(&site, &roof, 31).unwrap();
    let stations = [0, 1, 15_000, 20_000, 30_000, 59_999, 60_000, 60_001, 80_000];
    let loads = [2_667, 2_667, 2_001, 1_778, 1_334, 1, 0, 0, 0];
    assert_readings(&made, stations, loads, 80_001);
    let at = |roof, station| three_ways(&site, roof, 31, station);
    assert_eq!(at(&roof, 0), (2_667, 2_667, 333_333));
    assert_eq!(at(&roof, 15_000), (2_001, 2_001, 1_000_000));
    // 6,000.2 in tenths and 6,001 in whole N/m².
    let wider = parapet([6_000, 20_000, 45_001]);
    assert_eq!(at(&wider, 2), (6_000, 6_001, 66_671));
}

/// With a ground load of 300 the limits are 2h and 1,500.
#[test]
fn small_projection_loads() {
    let site = |ground_load| Site {
        situation: Situation::Drifts,
        ..snow(ground_load)
    };
    let peaks = |ground_load, left, right| {
        let roof = small_projection([left, right, 100_000, 100_000]);
        let made = segments(&site(ground_load), &roof, 31);
        (made[1][3], made[2][2])
    };
    assert_eq!(peaks(300, 749, 751), (1_498, 1_500));
    assert_eq!(peaks(300, 1_000, 750), (1_500, 1_500));
    assert_eq!(peaks(300, 1, 1_000), (2, 1_500));
    assert_eq!(peaks(101, 252, 253), (504, 505));
    assert_eq!(peaks(400, 1_000, 999), (2_000, 1_998));
    assert_eq!(peaks(399, 1_000, 998), (1_995, 1_995));
    assert_eq!(peaks(25_000, 1_000, 1), (2_000, 2));
}

/// 800 over 2,000 on one side; 1,500, less than 2h, over 2,500, less than 5h, on the other.
#[test]
fn small_projection_sides() {
    let site = Site {
        situation: Situation::FallsAndDrifts,
        ..snow(300)
    };
    let right = [
        [0, 4_000, 0, 0],
        [4_000, 12_000, 0, 800],
        [12_000, 22_000, 1_500, 0],
    ];
    let roof = small_projection([400, 900, 3_000, 2_500]);
    assert_eq!(segments(&site, &roof, 31), right);
    let made = Arrangement::<Tenths>::of(&site, &roof, 31).unwrap();
    // The greater of the two at the projection.
    let stations = [
        0, 4_000, 4_001, 8_000, 11_999, 12_000, 12_001, 17_000, 21_999, 22_000,
    ];
    let loads = [0, 0, 1, 400, 800, 1_500, 1_500, 750, 1, 0];
    assert_readings(&made, stations, loads, 22_001);
    let left = [
        [0, 10_000, 0, 1_500],
        [10_000, 18_000, 800, 0],
        [18_000, 22_000, 0, 0],
    ];
    let roof = small_projection([900, 400, 2_500, 3_000]);
    assert_eq!(segments(&site, &roof, 31), left);
    assert_eq!(three_ways(&site, &roof, 31, 10_000), (1_500, 1_500, 0));
}

/// The ends of the segments, with 5h of 1,000 on both sides, then at the ends of the ranges.
#[test]
fn small_projection_lengths() {
    let site = in_situation(Situation::Drifts);
    let ends = |figures| {
        let made = segments(&site, &small_projection(figures), 31);
        made.iter().map(|part| part[1]).collect::<Vec<_>>()
    };
    let near = |left, right| ends([200, 200, left, right]);
    assert_eq!(near(999, 1_000), [3_996, 7_996]);
    assert_eq!(near(1_000, 1_001), [4_000, 8_000, 8_004]);
    assert_eq!(near(1_001, 999), [4, 4_004, 8_000]);
    assert_eq!(near(1_001, 1_001), [4, 4_004, 8_004, 8_008]);
    assert_eq!(ends([1, 1, 1, 1]), [4, 8]);
    assert_eq!(
        ends([1_000, 1, 100_000, 100_000]),
        [380_000, 400_000, 400_020, 800_000]
    );
}

/// Ce, Ct, Cesl, the altitude and the set in use leave these drifts as they are, and there are no
/// local forces.
#[test]
fn parapets_have_the_ground_load_alone() {
    let site = in_situation(Situation::FallsAndDrifts);
    let other = Site {
        exposure: 80,
        thermal: 50,
        exceptional: 300,
        altitude: 1_500,
        situation: Situation::Drifts,
        ..with_set(1, [1, 1], [1_000, 1_000])
    };
    for roof in [
        parapet([6_000, 20_000, 12_000]),
        small_projection([400, 900, 3_000, 2_500]),
    ] {
        assert_eq!(segments(&other, &roof, 31), segments(&site, &roof, 31));
        for slope in [1, 2] {
            assert_eq!(forces::overhang(&other, &roof, slope), None);
            assert_eq!(forces::guard_force(&other, &roof, slope), None);
        }
    }
}

#[test]
fn parapet_fields() {
    let refusals = |kind, figures: &[&[u32]]| -> Vec<_> {
        let refusal = |figures: &&[u32]| roof(&words(kind, figures)).err();
        figures.iter().map(refusal).collect()
    };
    let sound: [&[u32]; 2] = [&[1, 1, 1], &[30_000, 100_000, 100_000]];
    assert_eq!(refusals(11, &sound), [None; 2]);
    let outside: [&[u32]; 6] = [
        &[0, 1, 1],
        &[30_001, 1, 1],
        &[1, 0, 1],
        &[1, 100_001, 1],
        &[1, 1, 0],
        &[1, 1, 100_001],
    ];
    assert_eq!(refusals(11, &outside), [Some(8); 6]);
    let sound: [&[u32]; 2] = [&[1, 1, 1, 1], &[1_000, 1_000, 100_000, 100_000]];
    assert_eq!(refusals(12, &sound), [None; 2]);
    let outside: [&[u32]; 9] = [
        &[0, 1, 1, 1],
        &[1_001, 1, 1, 1],
        &[1, 0, 1, 1],
        &[1, 1_001, 1, 1],
        &[1, 30_000, 1, 1],
        &[1, 1, 0, 1],
        &[1, 1, 100_001, 1],
        &[1, 1, 1, 0],
        &[1, 1, 1, 100_001],
    ];
    assert_eq!(refusals(12, &outside), [Some(8); 9]);
}

/// Every length but 13 and 17 is refused by 4, also where a field is outside its range.
#[test]
fn parapet_item_lengths() {
    for (kind, right) in [(11, 13), (12, 17)] {
        for length in (1..40).filter(|&length| length != right) {
            for byte in [0, 1, 255] {
                let mut bytes = vec![byte; length];
                bytes[0] = kind;
                assert_eq!(roof(&bytes).err(), Some(4), "kind {kind} length {length}");
            }
        }
    }
}

/// A roof of each kind and its codes in situations 0 to 3, as document 02 gives them.
fn code_table() -> [(Roof, [&'static [u8]; 4]); 9] {
    let slope = Slope::default();
    let arch = roof(&words(5, &[1_000, 4_000])).unwrap();
    let projection = roof(&words(7, &[1_000, 4_000, 4_000])).unwrap();
    let low = lower([10_000, 20_000, 3_000, 6_000], 100);
    let drifts = drift_roof(&[[4_000; 2]; 4], &[[500, 2_000]; 3]);
    let one: [&[u8]; 4] = [&[1], &[1, 11], &[1], &[1, 11]];
    let two: [&[u8]; 4] = [&[1, 2], &[1, 2, 11, 12], &[1, 2], &[1, 2, 11]];
    let three: [&[u8]; 4] = [
        &[1, 2, 3],
        &[1, 2, 3, 11, 12, 13],
        &[1, 2, 3],
        &[1, 2, 3, 11],
    ];
    let valleys: [&[u8]; 4] = [
        &[1, 2],
        &[1, 2, 11, 12],
        &[1, 31, 32, 33],
        &[1, 11, 31, 32, 33],
    ];
    let exceptional: [&[u8]; 4] = [&[], &[], &[31], &[31]];
    [
        (Roof::Monopitch(slope), one),
        (Roof::Pitched([slope; 2]), three),
        (two_spans(200, 100).unwrap(), two),
        (arch, two),
        (low, two),
        (projection, [&[2]; 4]),
        (drifts, valleys),
        (parapet([1_000, 4_000, 4_000]), exceptional),
        (small_projection([500, 500, 4_000, 4_000]), exceptional),
    ]
}

#[test]
fn codes_by_situation() {
    use Situation::{Drifts, Falls, FallsAndDrifts, Normal};
    for (roof, lists) in code_table() {
        for (situation, list) in [Normal, Falls, Drifts, FallsAndDrifts]
            .into_iter()
            .zip(lists)
        {
            let site = in_situation(situation);
            let listed: Vec<_> = codes(&site, &roof).collect();
            assert_eq!(listed, list, "{situation:?} {roof:?}");
            let made = |code: &u8| Arrangement::<Tenths>::of(&site, &roof, *code).is_some();
            assert!((0..=255).filter(made).eq(listed), "{situation:?} {roof:?}");
        }
    }
}

#[test]
fn drift_fields() {
    let refusal = |bytes: &[u8]| roof(bytes).err();
    let with = |depth, length| refusal(&drift_bytes(&[[4_000; 2]; 2], &[[depth, length]]));
    assert_eq!(
        [with(0, 1), with(30_001, 1), with(1, 0), with(1, 100_001)],
        [Some(8); 4]
    );
    assert_eq!([with(1, 1), with(30_000, 100_000)], [None; 2]);
    let long = |spans: usize| refusal(&drift_bytes(&vec![[1; 2]; spans], &vec![[1; 2]; spans - 1]));
    assert_eq!(
        [1, 2, 16, 17, 255].map(long),
        [Some(8), None, None, Some(8), Some(8)]
    );
    // A count of 0 fits no length, nor does a missing count byte.
    assert_eq!(refusal(&[9]), Some(4));
    for length in 2..40 {
        let mut bytes = vec![0; length];
        bytes[0] = 9;
        assert_eq!(refusal(&bytes), Some(4));
    }
}

/// Pitches at the only valley. A depth of 0 is refused before them.
#[test]
fn drift_valleys() {
    let with = |left: u16, right: u16, depth| {
        let mut bytes = drift_bytes(&[[4_000; 2]; 2], &[[depth, 5_000]]);
        bytes[4..6].copy_from_slice(&left.to_le_bytes());
        bytes[14..16].copy_from_slice(&right.to_le_bytes());
        roof(&bytes).err()
    };
    assert_eq!([with(600, 599, 1), with(599, 600, 1)], [None; 2]);
    assert_eq!(
        [with(600, 600, 1), with(601, 0, 1), with(0, 601, 1)],
        [Some(9); 3]
    );
    assert_eq!([with(600, 600, 0), with(801, 0, 1)], [Some(8); 2]);
}

#[test]
fn cylindrical() {
    let peaks = |rise, span| {
        let made = segments(&SITE, &Roof::Cylindrical { rise, span }, 2);
        (made[0][3], made[2][3])
    };
    assert_eq!(peaks(3_000, 20_000), (850, 1_700));
    assert_eq!(peaks(4_000, 20_000), (1_000, 2_000));
    assert_eq!(loaded_width(1_000, 2_000), 1_733);
    assert_eq!(loaded_width(1_000, 3_464), 3_464);
    assert!(matches!(roof(&words(5, &[1_001, 2_000])), Err(10)));
    let arch = roof(&words(5, &[1_000, 2_000])).unwrap();
    let ends: Vec<_> = segments(&SITE, &arch, 2)
        .iter()
        .map(|part| part[1])
        .collect();
    assert_eq!(ends, [534, 2267, 4000, 5733, 7466, 8000]);
}

/// The least whole number by its definition, for every small arch.
#[test]
fn loaded_width_is_the_least() {
    for span in 2_u64..200 {
        for rise in (1..=span / 2).filter(|rise| 12 * rise * rise > span * span) {
            let enough = |width: u64| {
                (8 * rise * width).pow(2) >= 3 * (span * span + 4 * rise * rise).pow(2)
            };
            let width = u64::from(loaded_width(rise as u32, span as u32));
            assert!(enough(width) && !enough(width - 1) && width <= span);
        }
    }
}

#[test]
fn lower_roof() {
    let wall = |roof: &Roof| segments(&SITE, roof, 2)[0][2];
    let long = lower([10_000, 20_000, 3_000, 6_000], 100);
    assert_eq!(wall(&long), 4_000);
    let made = Arrangement::<Tenths>::of(&SITE, &long, 2).unwrap();
    assert_eq!(made.reading(12_000), Some(2_400));
    assert_eq!(wall(&lower([10_000, 20_000, 3_000, 6_000], 200)), 4_800);
    assert_eq!(wall(&lower([10_000, 20_000, 3_000, 6_000], 150)), 4_000);
    let short = segments(&SITE, &lower([10_000, 3_000, 3_000, 6_000], 100), 2);
    assert_eq!(short, [[0, 12_000, 2_167, 1_484]]);
    let low = segments(&SITE, &lower([10_000, 20_000, 300, 6_000], 100), 2);
    assert!(low.iter().all(|part| part[2..] == [800, 800]));
}

/// A site whose set in use has this upper value of μ3, range of μw and range of drift lengths.
fn with_set(arch: u32, wind: [u32; 2], drift: [u32; 2]) -> Site {
    let national = National {
        arch,
        wind: Limits::new(wind[0], wind[1]),
        drift: Limits::new(drift[0], drift[1]),
    };
    Site { national, ..SITE }
}

/// μ3 is 2.2 at 4,000/20,000 and 5.2 on a half circle.
#[test]
fn an_arch_under_a_set() {
    let peaks = |rise, arch| {
        let site = with_set(arch, [1, 1], [1_000, 1_000]);
        let span = 20_000;
        let made = segments(&site, &Roof::Cylindrical { rise, span }, 2);
        let [left, right] = [made[made.len() / 2 - 2], made[made.len() / 2]];
        (left[3], right[3])
    };
    assert_eq!(peaks(4_000, 1), (5, 10));
    assert_eq!(peaks(4_000, 150), (750, 1_500));
    assert_eq!(peaks(4_000, 219), (1_095, 2_190));
    assert_eq!(
        [220, 221].map(|arch| peaks(4_000, arch)),
        [(1_100, 2_200); 2]
    );
    assert_eq!(peaks(10_000, 519), (2_595, 5_190));
    assert_eq!(peaks(10_000, 800), (2_600, 5_200));
}

/// 1.37 × 1,001 is 1,371.37, half of it 685.685.
#[test]
fn an_arch_is_rounded_up_under_a_set() {
    let site = Site {
        ground_load: 1_001,
        ..with_set(137, [1, 800], [1_000, 30_000])
    };
    let arch = Roof::Cylindrical {
        rise: 3_000,
        span: 20_000,
    };
    let made = segments(&site, &arch, 2);
    assert_eq!((made[0][3], made[2][3]), (686, 1_372));
}

/// (b1 + b2)/2h is 5 and 2h/sk is 6 in the first, 50 and 0.6 in the second.
#[test]
fn wind_under_a_set() {
    let wall = |roof: &Roof, range| {
        let site = with_set(200, range, [1_000, 30_000]);
        segments(&site, roof, 2)[0][2]
    };
    let high = lower([10_000, 20_000, 3_000, 6_000], 100);
    let ranges = [
        [80, 400],
        [80, 450],
        [80, 800],
        [550, 800],
        [400, 400],
        [1, 1],
    ];
    assert_eq!(
        ranges.map(|range| wall(&high, range)),
        [4_000, 4_500, 5_000, 5_500, 4_000, 10]
    );
    let low = lower([10_000, 20_000, 300, 6_000], 100);
    let ranges = [[50, 800], [60, 800], [61, 800], [1, 59], [800, 800]];
    assert_eq!(
        ranges.map(|range| wall(&low, range)),
        [600, 600, 610, 590, 8_000]
    );
}

/// 2h is 6,000.
#[test]
fn a_drift_length_under_a_set() {
    let ends = |drift| {
        let site = with_set(200, [80, 400], drift);
        let roof = lower([10_000, 20_000, 3_000, 6_000], 100);
        let made = segments(&site, &roof, 2);
        made.iter().map(|part| part[1]).collect::<Vec<_>>()
    };
    assert_eq!(ends([1_000, 30_000]), [24_000, 80_000]);
    assert_eq!(ends([1_000, 5_999]), [23_996, 80_000]);
    assert_eq!(ends([1_000, 1_000]), [4_000, 80_000]);
    assert_eq!(ends([6_001, 6_001]), [24_004, 80_000]);
    assert_eq!(ends([19_999, 30_000]), [79_996, 80_000]);
    assert_eq!(ends([20_000, 30_000]), [80_000]);
    assert_eq!(ends([30_000, 30_000]), [80_000]);
}

/// 0.8 × 6,000/ls slides down: 4.8, 0.8 and 0.16. A drift of 30,000 is cut at two thirds.
#[test]
fn sliding_snow_under_a_set() {
    let first = |drift| {
        let site = with_set(200, [80, 400], drift);
        segments(&site, &lower([10_000, 20_000, 3_000, 6_000], 200), 2)[0]
    };
    assert_eq!(first([1_000, 1_000]), [0, 4_000, 8_800, 800]);
    assert_eq!(first([1_000, 30_000]), [0, 24_000, 4_800, 800]);
    assert_eq!(first([30_000, 30_000]), [0, 80_000, 4_160, 1_920]);
}

#[test]
fn a_projection_keeps_its_limits() {
    let projection = roof(&words(7, &[1_000, 9_000, 20_000])).unwrap();
    let site = with_set(1, [1, 1], [1_000, 1_000]);
    assert_eq!(
        segments(&site, &projection, 2),
        segments(&SITE, &projection, 2)
    );
}

/// The listing of a hall, an arch, a lower roof, a projection and a stepped roof under the hall.
fn listing_of(store: &[u32], site: Vec<u8>) -> String {
    let mut low = words(6, &[10_000, 20_000, 3_000, 6_000]);
    low.extend([200, 0, 0]);
    let mut stepped = words(10, &[9_000, 4_000]);
    stepped.extend([1, 1]);
    let hall = [3, 200, 0, 144, 1, 0, 1, 40, 35, 0, 0, 112, 23, 0, 0].to_vec();
    let arch = words(5, &[5_000, 12_000]);
    let projection = words(7, &[1_000, 9_000, 20_000]);
    let mut text = Vec::new();
    let job = sheet(&[site, hall, arch, low, projection, stepped]);
    listing::list(store, &job, &mut text);
    String::from_utf8(text).unwrap()
}

/// The kinds whose lines differ between two listings with as many lines.
fn changed_items(first: &str, second: &str) -> Vec<String> {
    assert_eq!(first.lines().count(), second.lines().count());
    let pairs = first.lines().zip(second.lines());
    let differ = pairs.filter(|(left, right)| left != right);
    let mut items: Vec<_> = differ
        .map(|(line, _)| line.split(' ').next().unwrap().to_string())
        .collect();
    items.dedup();
    items
}

/// The first set changes items 2, 3 and 5, which are of kinds 5, 6 and 10. The second has the
/// recommended figures, and so has a job without a day.
#[test]
fn jobs_by_their_days() {
    let sets = [
        [1_000, 170, 100, 350, 6_500, 7_500],
        [2_000, 200, 80, 400, 5_000, 15_000],
    ];
    for site in [&SITE_ITEM[..], &MAP_ITEM] {
        let without = listing_of(&EMPTY, site.to_vec());
        let store = store(&sets);
        assert_eq!(listing_of(&store, site.to_vec()), without);
        let on = |day| listing_of(&store, dated(site, day));
        assert_eq!(on(999), "REFUSED 19 0\n");
        for day in [1_000, 1_999] {
            assert_eq!(changed_items(&on(day), &without), ["2", "3", "5"]);
        }
        for day in [2_000, 65_535] {
            assert_eq!(on(day), without);
        }
    }
}

/// The loads of an item in tenths, in whole N/m², and how far the first lies above the exact rule.
fn three_ways(site: &Site, roof: &Roof, code: u8, station: u32) -> (u32, u32, u64) {
    let tenths = Arrangement::<Tenths>::of(site, roof, code).unwrap();
    let whole = Arrangement::<Whole>::of(site, roof, code).unwrap();
    let exact = Arrangement::<Exact>::of(site, roof, code).unwrap();
    let load = tenths.reading(station).unwrap();
    let distance = exact.distance(station, load).unwrap();
    (load, whole.reading(station).unwrap(), distance)
}

/// The parts at the wall are 287.03 and 1,555.02, so 287.1 and 1,555.1 in tenths and 288 and 1,556
/// in whole N/m². The drift ends at 48,024 with 550.4.
#[test]
fn two_lower() {
    let site = snow(688);
    let roof = lower([7_136, 20_000, 6_003, 6_261], 200);
    let figures = [0, 8, 24_000, 48_024].map(|station| three_ways(&site, &roof, 2, station));
    assert_eq!(
        figures,
        [
            (1_843, 1_844, 952_490),
            (1_842, 1_844, 167_657),
            (1_197, 1_198, 453_494),
            (551, 551, 600_000)
        ]
    );
    // No distance where a load lies below the exact rule, 1,841.83 here.
    let exact = Arrangement::<Exact>::of(&site, &roof, 2).unwrap();
    assert_eq!(exact.distance(8, 1_841), None);
    // The same drift on a roof of 2 mm.
    let roof = lower([27_134, 2, 6_003, 6_261], 200);
    assert_eq!(segments(&site, &roof, 2), [[0, 8, 1_843, 1_842]]);
    let whole = Arrangement::<Whole>::of(&site, &roof, 2).unwrap();
    assert_eq!(whole.stretches()[0].segment(), [0, 8, 1_844, 1_844]);
}

/// 2,000/3 and 10,000/3 are 4,000 together, 666.7 and 3,333.4 a tenth more.
#[test]
fn parts_are_rounded_before_they_are_added() {
    let roof = lower([10_000, 10_000, 3_000, 5_000], 200);
    assert_eq!(three_ways(&SITE, &roof, 2, 0), (4_001, 4_001, 1_000_000));
}

/// From 800.8 at the ridge to 1,201.2 in the valley. Both are whole tenths.
#[test]
fn a_ramp_in_tenths() {
    let mut bytes = vec![4, 2];
    for (pitches, widths) in [
        ([400_u16, 200], [4_000_u32, 5_000]),
        ([100, 350], [6_000, 7_000]),
    ] {
        bytes.extend(pitches.into_iter().flat_map(u16::to_le_bytes));
        bytes.extend(widths.into_iter().flat_map(u32::to_le_bytes));
    }
    let roof = roof(&bytes).unwrap();
    let loads = |station| three_ways(&snow(1_001), &roof, 2, station);
    assert_eq!(loads(16_000), (801, 801, 200_000));
    assert_eq!(loads(16_001), (801, 802, 179_980));
    assert_eq!(loads(36_000), (1_202, 1_202, 800_000));
}

/// The loads are 800.8 and 2,000.8, S is 801 and 2,001.
#[test]
fn forces_have_whole_loads() {
    let slope = Slope {
        pitch: 300,
        guard: true,
        width: 100_000,
    };
    let roof = Roof::Monopitch(slope);
    assert_eq!(forces::guard_force(&snow(1_001), &roof, 1), Some(40_050));
    assert_eq!(forces::overhang(&mountain(2_501), &roof, 1), Some(2_671));
}

#[test]
fn overhang() {
    let force = |ground_load, altitude| {
        let site = Site {
            ground_load,
            altitude,
            ..SITE
        };
        forces::overhang(&site, &Roof::Monopitch(Slope::default()), 1)
    };
    assert_eq!(force(1_250, 801), Some(334));
    assert_eq!(force(3_750, 801), Some(9_000));
    assert_eq!(force(3_751, 801), Some(9_003));
    assert_eq!(force(1_250, 800), None);
}

/// Pitches left and right, guards, overhang and the two guard forces, worked by hand at 1,250 and
/// 3,333 N/m². 0°, or any pitch with a guard, has S 1,000 and 2,667 (2,666.4); 45.0° has 500 and
/// 1,334 (1,333.2), 60.0° has 0.
#[test]
fn overhang_of_the_worse_slope() {
    let forces = |ground_load, pitches: [u16; 2], guards: [bool; 2]| {
        let slope = |side: usize| Slope {
            pitch: pitches[side],
            guard: guards[side],
            width: 5_000,
        };
        let roof = Roof::Pitched([slope(0), slope(1)]);
        let site = mountain(ground_load);
        let force = |slope| forces::guard_force(&site, &roof, slope);
        assert_eq!(forces::overhang(&site, &roof, 0), None);
        assert_eq!(forces::overhang(&site, &roof, 3), None);
        (
            [1, 2].map(|slope| forces::overhang(&site, &roof, slope).unwrap()),
            [force(1), force(2)],
        )
    };
    let bare = [false, false];
    assert_eq!(forces(1_250, [0, 450], bare), ([334; 2], [None; 2]));
    assert_eq!(forces(1_250, [450, 0], bare), ([334; 2], [None; 2]));
    assert_eq!(forces(1_250, [450, 600], bare), ([42; 2], [None; 2]));
    assert_eq!(forces(1_250, [600, 800], bare), ([0; 2], [None; 2]));
    assert_eq!(forces(3_333, [600, 450], bare), ([792; 2], [None; 2]));
    let left = [true, false];
    let guarded = ([6_324; 2], [Some(6_668), None]);
    assert_eq!(forces(3_333, [300, 450], left), guarded);
    let right = [false, true];
    let guarded = ([6_324; 2], [None, Some(6_668)]);
    assert_eq!(forces(3_333, [450, 300], right), guarded);
}

/// At 45.0° under 3,333 N/m² S is 1,333.2, and the rule gives 789.886443; with S rounded up to
/// 1,334 the overhang is 792.
#[test]
fn overhang_lies_above_its_rule() {
    let slope = |pitch| Slope {
        pitch,
        ..Slope::default()
    };
    let distance = |ground_load, pitches: [u16; 2], force| {
        let roof = Roof::Pitched(pitches.map(slope));
        forces::overhang_distance(&mountain(ground_load), &roof, force)
    };
    assert_eq!(distance(3_333, [600, 450], 792), Some(2_113_556));
    assert_eq!(distance(3_333, [450, 600], 789), None);
    assert_eq!(distance(1_250, [0, 450], 334), Some(666_666));
    assert_eq!(distance(3_751, [600, 0], 9_003), Some(600_000));
}

/// Zone, altitude and load for each line of Table C.1, worked by hand. At half a square's divisor
/// the load is 1.25 times that at sea level, at the divisor twice and at the triple ten times.
#[test]
fn map() {
    let lines: [&[(u8, u16, u32)]; 8] = [
        &[(1, 0, 651), (1, 364, 814), (2, 728, 2_586), (5, 728, 6_438)],
        &[(1, 0, 262), (1, 128, 328), (1, 256, 524), (5, 768, 13_180)],
        &[(1, 0, 390), (1, 1, 391), (2, 917, 1_620), (5, 917, 4_140)],
        &[(1, 524, 190), (2, 0, 285), (2, 262, 357), (5, 1_048, 4_275)],
        &[(1, 0, 289), (1, 226, 362), (2, 904, 3_935), (5, 452, 4_562)],
        &[(1, 483, 582), (1, 966, 1_082), (2, 1, 248), (5, 0, 738)],
        &[
            (1, 0, 1_165),
            (1, 1, 1_168),
            (1, 168, 1_665),
            (5, 336, 5_325),
        ],
        &[(1, 501, 1_040), (2, 0, 180), (2, 1, 182), (5, 1_002, 2_600)],
    ];
    for (region, figures) in (1..).zip(lines) {
        for &(zone, altitude, load) in figures {
            let place = format!("region {region} zone {zone} altitude {altitude}");
            assert_eq!(ground::load(region, zone, altitude), Ok(load), "{place}");
        }
    }
}

/// The last altitude on one side of 100 or 25,000 and the first on the other, worked by hand.
#[test]
fn map_limits() {
    let light = [(4, 1, 108), (6, 1, 17), (8, 1, 30)];
    for (region, zone, altitude) in light {
        assert_eq!(ground::load(region, zone, altitude - 1), Err(15));
        assert_eq!(ground::load(region, zone, altitude), Ok(100));
    }
    let heavy = [
        (2, 3, 1_417, 24_994),
        (2, 4, 1_220, 24_992),
        (2, 5, 1_085, 24_994),
        (5, 5, 1_426, 24_985),
    ];
    for (region, zone, altitude, load) in heavy {
        assert_eq!(ground::load(region, zone, altitude), Ok(load));
        assert_eq!(ground::load(region, zone, altitude + 1), Err(15));
    }
}
