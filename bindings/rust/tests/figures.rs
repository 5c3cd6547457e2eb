//! The figures of document 01, "Figures on both sides of each edge", those of E3, E8 and E13 of 02,
//! and some more edges, worked out from their rules. Each test names those not printed there.

use fordcask::{align, basic_zone, cover, offset, read_card, rectangle, spacing, write_card};
use fordcask::{OnCard, Pair, Pixel, Position, Refusal, Series, Sheet, Spacing};

const REFUSED_1: Refusal = Refusal { number: 1, at: 0 };
const REFUSED_16: Refusal = Refusal { number: 16, at: 0 };
const REFUSED_24: Refusal = Refusal { number: 24, at: 0 };

/// The worked card's record in zone 1 at 1:5,000, 1:9,999 and 1:10,000; not printed.
const TOWN_CARDS: [(u64, &[u8; 98]); 3] = [
    (
        5_000,
        b"37393280080076800-0000044.88+000327.16000000000127000255000000\
          00200100012800012801008BASE0101.IMGN",
    ),
    (
        9_999,
        b"33697049640042496-0000129.74+000654.28000000000127000255000000\
          00200100012800012801008BASE0101.IMGN",
    ),
    (
        10_000,
        b"33696640040038400-0000129.75+000654.32000000000127000255000000\
          00200100012800012801008BASE0101.IMGN",
    ),
];

#[test]
fn spacing_figures() {
    assert_eq!(spacing(Series::chart(50_000, 1)).map(|s| s.a), Ok(7_393_280));
    assert_eq!(spacing(Series::chart(250_000, 5)).map(|s| s.a), Ok(653_312));
    assert_eq!(spacing(Series::chart(75_000, 1)).map(|s| s.b), Ok(5_338_624));
    assert_eq!(spacing(Series::chart(1_250_000, 1)).map(|s| s.b), Ok(320_512));
    assert_eq!(spacing(Series::chart(4_999, 1)), Err(REFUSED_1));
    assert_eq!(spacing(Series::chart(20_000_001, 1)), Err(REFUSED_1));
    // not printed in 01: 512 × 782
    let polar = Spacing { a: 400_384, b: 400_384 };
    assert_eq!(spacing(Series::chart(1_000_000, 9)), Ok(polar));
    // not printed: the ends of the town scales, whose spacing stays
    assert_eq!(spacing(Series::chart(5_000, 1)), Ok(Spacing { a: 73_932_800, b: 80_076_800 }));
    assert_eq!(spacing(Series::chart(9_999, 17)), Ok(Spacing { a: 8_244_224, b: 40_042_496 }));
}

#[test]
fn zone_figures() {
    let zones =
        [(11_519_999, 1), (11_520_000, 2), (0, 1), (-1, 10), (28_799_999, 8), (28_800_000, 9)];
    for (lat, zone) in zones {
        assert_eq!(basic_zone(lat), Ok(zone), "latitude {lat}");
    }
    let covers: [(u64, i64, &[u64]); 6] = [
        (1_000_000, 11_851_457, &[2, 1]),
        (1_000_000, 11_851_458, &[2]),
        (5_000_000, 27_360_000, &[8, 7, 6]),
        // not printed in 01
        (1_000_000, -28_800_000, &[18, 17]),
        (20_000_000, 29_519_999, &[9, 8, 7, 6, 5, 4]),
        (20_000_000, 29_520_000, &[9, 8, 7, 6, 5]),
    ];
    for (scale, lat, zones) in covers {
        let found = cover(scale, 1, lat).expect("a cover");
        assert_eq!(found.as_slice(), zones, "1:{scale} latitude {lat}");
    }
}

#[test]
fn rectangle_figures() {
    let lists: [(u64, i64, i64, &[u64]); 16] = [
        // 30 to 32 degrees north; from 32 degrees going north
        (1_000_000, 10_800_000, 11_520_000, &[1]),
        (1_000_000, 11_520_000, 11_880_000, &[1, 2]),
        // not printed in 02: the same in the south
        (1_000_000, -11_520_000, -10_800_000, &[10]),
        (1_000_000, -11_880_000, -11_520_000, &[10, 11]),
        // not printed: the Equator
        (1_000_000, -1, 0, &[10]),
        (1_000_000, 0, 1, &[1]),
        (1_000_000, -1, 1, &[1, 10]),
        // not printed: both sides of an overlap's end, inside a hundredth and on one
        (1_000_000, 11_851_457, 11_851_458, &[1, 2]),
        (1_000_000, 11_851_458, 11_851_459, &[2]),
        (20_000_000, 17_999_999, 18_000_000, &[1, 2, 3]),
        (20_000_000, 18_000_000, 18_000_001, &[2, 3]),
        (20_000_000, -18_000_000, -17_999_999, &[10, 11, 12]),
        (20_000_000, -18_000_001, -18_000_000, &[11, 12]),
        // not printed: the poles
        (1_000_000, 32_399_999, 32_400_000, &[9]),
        (20_000_000, 32_399_999, 32_400_000, &[6, 7, 8, 9]),
        (20_000_000, -32_400_000, -32_399_999, &[15, 16, 17, 18]),
    ];
    for (scale, south, north, zones) in lists {
        let found = rectangle(scale, 1, south, north).expect("a rectangle");
        assert_eq!(found.as_slice(), zones, "1:{scale} from {south} to {north}");
    }
    assert_eq!(rectangle(1_000_000, 1, 11_520_000, 11_520_000), Err(REFUSED_16));
    assert_eq!(rectangle(1_000_000, 1, 11_520_000, 11_519_999), Err(REFUSED_16));
}

#[test]
fn origin_figures() {
    // 01 prints n and m with the angles they store; the point is not printed there
    let origin = align(Series::chart(1_000_000, 1), 4_143_222, -897_506).expect("an origin");
    assert_eq!((origin.n, origin.m), (100, -20));
    assert_eq!((origin.pso, origin.lso), (4_143_223, -897_507));
    // not printed as a figure: alignment keeps +180° for m = A/256
    let east = align(Series::chart(1_000_000, 1), 0, 64_800_000).expect("an origin");
    assert_eq!((east.m, east.lso), (1444, 64_800_000));
}

/// Not printed in 01: the ends of the short way.
#[test]
fn offset_figures() {
    let at = |lon| Position { lat: 0, lon };
    let short = |lon, centre| offset(at(lon), at(centre)).map(|o| o.lon);
    assert_eq!(short(64_800_000, 0), Ok(-64_800_000.0));
    assert_eq!(short(64_800_000, -64_800_000), Ok(0.0));
    assert_eq!(short(-64_800_000, 1), Ok(64_799_999.0));
}

/// E13 prints the scales; the point, the origin and the angles are not printed.
#[test]
fn town_alignment_figures() {
    assert_eq!(align(Series::chart(4_999, 1), 41_432, -8_975), Err(REFUSED_1));
    assert_eq!(align(Series::chart(5_000, 1), 41_432, -8_975), Err(REFUSED_24));
    assert_eq!(align(Series::chart(9_999, 1), 41_432, -8_975), Err(REFUSED_24));
    let origin = align(Series::chart(10_000, 1), 41_432, -8_975).expect("an origin");
    assert_eq!((origin.n, origin.m), (100, -20));
    assert_eq!((origin.pso, origin.lso), (41_432, -8_975));
    // right after 1: before a bad zone, a polar one, a bad latitude and a bad longitude
    assert_eq!(align(Series::chart(9_999, 19), 32_400_001, 64_800_001), Err(REFUSED_24));
    assert_eq!(align(Series::chart(9_999, 9), 0, 0), Err(REFUSED_24));
    assert_eq!(align(Series::chart(4_999, 19), 32_400_001, 64_800_001), Err(REFUSED_1));
    let refused_2 = Refusal { number: 2, at: 0 };
    assert_eq!(align(Series::chart(10_000, 19), 32_400_001, 64_800_001), Err(refused_2));
}

/// The positions of pixels (0, 0), (1, 1) and (255, 127), in the corner pair and the centre pair.
const TOWN_POSITIONS: [[[(i64, i64); 3]; 2]; 3] = [
    [
        [(20_716, -4_488), (20_714, -4_486), (20_303, -4_265)],
        [(20_715, -4_487), (20_714, -4_485), (20_303, -4_264)],
    ],
    [
        [(41_428, -8_974), (41_425, -8_971), (40_603, -8_529)],
        [(41_426, -8_972), (41_423, -8_969), (40_601, -8_527)],
    ],
    [
        [(41_432, -8_975), (41_429, -8_972), (40_607, -8_530)],
        [(41_431, -8_973), (41_427, -8_970), (40_605, -8_528)],
    ],
];

/// E13 prints the scales; the cards and their positions are not printed.
#[test]
fn town_card_figures() {
    for ((scale, card), positions) in TOWN_CARDS.into_iter().zip(TOWN_POSITIONS) {
        let series = Series::chart(scale, 1);
        let read = read_card(series, card).expect("a card that opens");
        let record = read.value.record;
        assert_eq!((record.n, record.m, read.blanks), (100, -20, 0), "1:{scale}");
        let mut out = [7; 100];
        let written = write_card(series, &record, &mut out);
        if scale == 10_000 {
            assert_eq!((written, &out[..98]), (Ok(()), &card[..]), "1:{scale}");
        } else {
            assert_eq!((written, out), (Err(REFUSED_24), [7; 100]), "1:{scale}");
        }
        let sheet = Sheet { series, card };
        let pixels = [(0, 0), (1, 1), (255, 127)];
        for (pair, positions) in [Pair::Corner, Pair::Centre].into_iter().zip(positions) {
            for ((row, column), (lat, lon)) in pixels.into_iter().zip(positions) {
                let (pixel, position) = (Pixel { row, column }, Position { lat, lon });
                let there = OnCard { value: position, blanks: 0 };
                assert_eq!(sheet.position_in(pair, pixel), Ok(there), "1:{scale} {pixel:?}");
                let back = OnCard { value: pixel, blanks: 0 };
                assert_eq!(sheet.pixel_in(pair, position), Ok(back), "1:{scale} {position:?}");
            }
        }
    }
}
