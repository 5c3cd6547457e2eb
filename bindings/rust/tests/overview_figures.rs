//! Figures of E4, worked out from its sentences and 01's; 02 prints the ends of k and of S × k.

use fordcask::{align, cover, read_card, rectangle, spacing, write_card};
use fordcask::{OnCard, OverviewPixel, Pair, Pixel, Position, Refusal, Series, Sheet, Spacing};

const ONE: Refusal = Refusal { number: 1, at: 0 };
const SEVENTEEN: Refusal = Refusal { number: 17, at: 0 };
const RETIRED: Refusal = Refusal { number: 24, at: 0 };

/// The worked card of document 01, for 1:1,000,000 zone 1.
const WORKED: &[u8; 98] = b"30036966400400384-0022935.07+113032.23000000000127000255000000\
00200100012800012801008BASE0101.IMGN";

/// Its overviews of factor 2 and 3, of 2 by 1 tiles.
const TWICE: &[u8; 98] = b"30018483200200192-0022935.07+113032.23000000000127000255000000\
00200100012800012801008BASE0101.IMGN";
const THRICE: &[u8; 98] = b"30012339200133632-0023650.79+114326.90000000000127000255000000\
00200100012800012801008BASE0101.IMGN";

fn of(scale: u64, factor: u64, zone: u64) -> Series {
    Series { scale, factor, zone }
}

#[test]
fn spacings() {
    let figures = [
        // equal products: 01's figures at 1:1,000,000
        (of(1_000_000, 1, 1), 369_664, 400_384),
        (of(50_000, 20, 1), 369_664, 400_384),
        (of(500_000, 2, 1), 369_664, 400_384),
        // the ceiling at S × k, not A / k
        (of(1_000_000, 3, 1), 123_392, 133_632),
        (of(1_000_000, 7, 5), 23_552, 57_344),
        (of(1_000_000, 20, 9), 20_480, 20_480),
        (of(312_500, 64, 17), 4_608, 20_480),
        // the product below 20,000,000, as 317,461 × 63 is above it
        (of(317_460, 63, 3), 12_800, 20_480),
        // town scales
        (of(5_000, 64, 1), 1_155_584, 1_251_328),
        (of(9_999, 64, 8), 129_024, 625_664),
        (of(10_000, 64, 10), 578_048, 625_664),
    ];
    for (series, a, b) in figures {
        assert_eq!(spacing(series), Ok(Spacing { a, b }), "{series:?}");
    }
}

#[test]
fn edges() {
    assert_eq!(spacing(of(1_000_000, 0, 1)), Err(SEVENTEEN));
    assert_eq!(spacing(of(10_000, 65, 1)), Err(SEVENTEEN));
    assert_eq!(spacing(of(4_999, 0, 1)), Err(ONE));
    assert_eq!(spacing(of(20_000_001, 1, 1)), Err(ONE));
    assert_eq!(spacing(of(10_000_000, 2, 1)).map(|s| s.b), Ok(20_480));
    assert_eq!(spacing(of(10_000_001, 2, 1)), Err(ONE));
    assert_eq!(spacing(of(312_501, 64, 1)), Err(ONE));
    assert_eq!(spacing(of(317_461, 63, 1)), Err(ONE));
    // below 5,000 no factor helps, and 17 comes before the product
    assert_eq!(spacing(of(2_500, 2, 1)), Err(ONE));
    assert_eq!(spacing(of(20_000_000, 65, 1)), Err(SEVENTEEN));
    // 17 and the product before a bad zone
    assert_eq!(spacing(of(10_000, 65, 19)), Err(SEVENTEEN));
    assert_eq!(spacing(of(20_000_000, 2, 19)), Err(ONE));
    // 5,000 again in 64 bits
    assert_eq!(spacing(of(5_000, (1 << 61) + 1, 1)), Err(SEVENTEEN));
    assert_eq!(spacing(of((1 << 58) + 1_000, 64, 1)), Err(ONE));
}

#[test]
fn zones() {
    // 01's figures, the product being 1,000,000 and 5,000,000
    let found = cover(50_000, 20, 11_851_457).expect("a cover");
    assert_eq!(found.as_slice(), [2, 1]);
    let found = cover(50_000, 20, 11_851_458).expect("a cover");
    assert_eq!(found.as_slice(), [2]);
    let found = cover(78_125, 64, 27_360_000).expect("a cover");
    assert_eq!(found.as_slice(), [8, 7, 6]);
    let found = cover(78_125, 1, 27_360_000).expect("a cover");
    assert_eq!(found.as_slice(), [8, 7]);
    let found = rectangle(50_000, 20, 11_851_457, 11_851_458).expect("a rectangle");
    assert_eq!(found.as_slice(), [1, 2]);
    let found = rectangle(50_000, 20, 11_851_458, 11_851_459).expect("a rectangle");
    assert_eq!(found.as_slice(), [2]);
    assert_eq!(cover(50_000, 65, 32_400_001), Err(SEVENTEEN));
    assert_eq!(cover(312_501, 64, 32_400_001), Err(ONE));
    assert_eq!(rectangle(50_000, 0, 1, 0), Err(SEVENTEEN));
    assert_eq!(rectangle(312_501, 64, 32_400_001, 0), Err(ONE));
}

#[test]
fn alignment() {
    let origin = align(of(500_000, 2, 1), 4_143_222, -897_506).expect("an origin");
    assert_eq!((origin.n, origin.m), (100, -20));
    assert_eq!((origin.pso, origin.lso), (4_143_223, -897_507));
    // at a town scale 24, whatever the factor, also one that is refused
    for factor in [0, 1, 2, 64, 65, u64::MAX] {
        assert_eq!(align(of(9_999, factor, 19), 32_400_001, 0), Err(RETIRED), "{factor}");
        assert_eq!(align(of(4_999, factor, 19), 32_400_001, 0), Err(ONE), "{factor}");
    }
    assert_eq!(align(of(10_000, 65, 19), 32_400_001, 0), Err(SEVENTEEN));
    assert_eq!(align(of(312_501, 64, 19), 32_400_001, 0), Err(ONE));
}

#[test]
fn cards() {
    let worked = read_card(of(1_000_000, 1, 1), WORKED).expect("the worked card");
    // the worked card is one of any scale and factor of this product
    assert_eq!(read_card(of(50_000, 20, 1), WORKED), Ok(worked));
    assert_eq!(worked.blanks, 0);
    let mut out = [7; 98];
    assert_eq!(write_card(of(50_000, 20, 1), &worked.value.record, &mut out), Ok(()));
    assert_eq!(&out, WORKED);
    assert_eq!(read_card(of(1_000_000, 2, 1), WORKED).map_err(|r| r.number), Err(9));
    assert_eq!(read_card(of(1_000_000, 1, 1), TWICE).map_err(|r| r.number), Err(9));
    assert_eq!(read_card(of(1_000_000, 65, 1), WORKED), Err(SEVENTEEN));
    assert_eq!(read_card(of(1_000_000, 21, 1), WORKED), Err(ONE));
    for (factor, card, n, m) in [(2, TWICE, 50, -10), (3, THRICE, 34, -7)] {
        let read = read_card(of(1_000_000, factor, 1), card).expect("an overview's card");
        let record = read.value.record;
        assert_eq!((record.n, record.m, read.blanks), (n, m, 0), "factor {factor}");
        assert_eq!(write_card(of(1_000_000, factor, 1), &record, &mut out), Ok(()));
        assert_eq!(&out, card, "factor {factor}");
    }
}

/// The worked card's record in zone 1 at 1:9,999 with factor 64 opens, and is not written.
#[test]
fn town_card() {
    let card = b"30057804800625664-0013539.59+072153.91000000000127000255000000\
00200100012800012801008BASE0101.IMGN";
    let series = of(9_999, 64, 1);
    let sheet = Sheet { series, card };
    let read = sheet.read().expect("a card that opens");
    assert_eq!((read.value.record.n, read.value.record.m, read.blanks), (100, -20, 0));
    let mut out = [7; 98];
    assert_eq!(write_card(series, &read.value.record, &mut out), Err(RETIRED));
    assert_eq!(out, [7; 98]);
    let figures = [
        (Pair::Corner, (0, 0), (2_651_391, -573_959)),
        (Pair::Corner, (255, 127), (2_598_570, -545_485)),
        (Pair::Centre, (0, 0), (2_651_288, -573_847)),
        (Pair::Centre, (255, 127), (2_598_467, -545_373)),
    ];
    for (pair, (row, column), (lat, lon)) in figures {
        let (pixel, position) = (Pixel { row, column }, Position { lat, lon });
        assert_eq!(sheet.position_in(pair, pixel), Ok(OnCard { value: position, blanks: 0 }));
        assert_eq!(sheet.pixel_in(pair, position), Ok(OnCard { value: pixel, blanks: 0 }));
    }
}

#[test]
fn overview_pixels() {
    let chart = Sheet { series: of(1_000_000, 1, 1), card: WORKED };
    let twice = Sheet { series: of(1_000_000, 2, 1), card: TWICE };
    let thrice = Sheet { series: of(1_000_000, 3, 1), card: THRICE };
    let at = |row, column| Pixel { row, column };
    let told = |pixel| OverviewPixel { pixel, blanks: 0, overview_blanks: 0 };
    // the positions are those 01 prints for the first two
    let figures = [
        (at(0, 0), at(0, 0), at(80, 41)),
        (at(1, 1), at(0, 1), at(80, 42)),
        (at(2, 3), at(1, 2), at(81, 42)),
        (at(128, 64), at(64, 32), at(123, 63)),
        (at(255, 127), at(127, 64), at(165, 84)),
    ];
    for (pixel, in_twice, in_thrice) in figures {
        assert_eq!(chart.overview_pixel(&twice, pixel), Ok(told(in_twice)), "{pixel:?}");
        assert_eq!(chart.overview_pixel(&thrice, pixel), Ok(told(in_thrice)), "{pixel:?}");
        assert_eq!(chart.overview_pixel(&chart, pixel), Ok(told(pixel)), "{pixel:?}");
    }
    let twelve = Err(Refusal { number: 12, at: 0 });
    assert_eq!(chart.overview_pixel(&twice, at(256, 0)), twelve);
    // the overview's last column is east of the chart: the other way round there is 12
    assert_eq!(twice.overview_pixel(&chart, at(0, 127)), twelve);
    assert_eq!(twice.overview_pixel(&chart, at(0, 1)), Ok(told(at(0, 2))));
    let bad = Sheet { series: of(1_000_000, 0, 1), card: TWICE };
    assert_eq!(chart.overview_pixel(&bad, at(256, 0)), Err(SEVENTEEN));
    assert_eq!(bad.overview_pixel(&chart, at(256, 0)), Err(SEVENTEEN));
}
