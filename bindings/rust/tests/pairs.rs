//! The corner pair and the centre pair (02, E8): the worked card, ties, and where the two differ.

use crate::{rule, support};
use fordcask::{OverviewPixel, Pair, Pixel, Position, Refusal, Series, Sheet};
use support::cuts::over;
use support::make::{all_chart, card, chart, overview, pixel, record};
use support::{no_blanks, or_zero, seeded, Ask, PAIRS, WORKED, WORKED_SERIES};

const TWELVE: Refusal = Refusal { number: 12, at: 0 };

fn at(row: i64, column: i64) -> Pixel {
    Pixel { row, column }
}

/// The lines 01 prints, in the corner pair; in the centre pair figures worked out from E8.
#[test]
fn worked_card() {
    let sheet = Sheet { series: WORKED_SERIES, card: WORKED };
    let figures = [
        (at(0, 0), (4_143_223, -897_507), (4_143_061, -897_332)),
        (at(1, 1), (4_142_899, -897_156), (4_142_737, -896_981)),
        (at(255, 127), (4_060_682, -852_982), (4_060_520, -852_807)),
    ];
    for (pixel, corner, centre) in figures {
        let [corner, centre] = [corner, centre].map(|(lat, lon)| Position { lat, lon });
        assert_eq!(sheet.position_in(Pair::Corner, pixel), Ok(no_blanks(corner)));
        assert_eq!(sheet.pixel_in(Pair::Corner, corner), Ok(no_blanks(pixel)));
        assert_eq!(sheet.position_in(Pair::Centre, pixel), Ok(no_blanks(centre)));
        assert_eq!(sheet.pixel_in(Pair::Centre, centre), Ok(no_blanks(pixel)));
        assert_eq!(sheet.position(pixel), Ok(no_blanks(centre)), "no pair named");
        assert_eq!(sheet.pixel(centre), Ok(no_blanks(pixel)), "no pair named");
    }
    for pair in PAIRS {
        assert_eq!(sheet.position_in(pair, at(256, 0)), Err(TWELVE));
    }
    assert_eq!(sheet.position(at(256, 0)), Err(TWELVE));
}

/// 1:1,251,200: a row is 405 hundredths, so each centre is half a hundredth off; a tie goes up.
#[test]
fn ties_of_rows() {
    let mut ask = Ask::default();
    for (zone, n) in [(1, 625), (1, 300), (2, 5), (10, 2), (10, -300), (17, -620)] {
        let series = Series::chart(1_251_200, zone);
        assert_eq!(rule::non_polar(series).map(|(_, b)| rule::H / b), Ok(405));
        let card = card(series, &all_chart(n, 1, 5, 1, false));
        let sheet = Sheet { series, card: &card };
        for row in 0..640 {
            let up = 128 * n - row;
            let [corner, centre] = ask.position(&sheet, at(row, 3));
            assert_eq!(corner.map(|position| position.value.lat), Ok(405 * up));
            // the floor of 405 × up − 202.5 + 0.5, north and south alike
            assert_eq!(centre.map(|position| position.value.lat), Ok(405 * up - 202));
            ask.there_and_back(&sheet, at(row, 3));
        }
    }
    ask.met("position", &[0]);
}

/// 1:1,280,000 zone 3: a column is 675 hundredths, so each centre is half a hundredth off.
#[test]
fn ties_of_columns() {
    let mut ask = Ask::default();
    let series = Series::chart(1_280_000, 3);
    assert_eq!(rule::non_polar(series).map(|(a, _)| rule::H / a), Ok(675));
    for m in [-750, -749, -300, -2, 0, 300, 747, 748, 750] {
        let card = card(series, &all_chart(400, m, 1, 5, false));
        let sheet = Sheet { series, card: &card };
        for column in 0..640 {
            let east = 128 * m + column;
            let right = |lon: i64| if lon >= 64_800_000 { lon - 129_600_000 } else { lon };
            let [corner, centre] = ask.position(&sheet, at(3, column));
            assert_eq!(corner.map(|position| position.value.lon), Ok(right(675 * east)));
            // the floor of 675 × east + 337.5 + 0.5, east and west alike
            assert_eq!(centre.map(|position| position.value.lon), Ok(right(675 * east + 338)));
            ask.there_and_back(&sheet, at(3, column));
        }
    }
    ask.met("position", &[0]);
}

/// At 1:20,000,000 the pairs answer apart, and a position of one asked in the other may be lost.
#[test]
fn pairs_differ() {
    let series = Series::chart(20_000_000, 8);
    let card = card(series, &all_chart(2, -3, 1, 1, false));
    let sheet = Sheet { series, card: &card };
    let corner = Position { lat: 1_613_672, lon: -10_771_875 };
    let centre = Position { lat: 1_610_508, lon: -10_757_812 };
    assert_eq!(sheet.position_in(Pair::Corner, at(1, 1)), Ok(no_blanks(corner)));
    assert_eq!(sheet.position(at(1, 1)), Ok(no_blanks(centre)));
    // three quarters of a pixel south and east of the corner of (1, 1)
    let between = Position { lat: 1_608_926, lon: -10_750_781 };
    assert_eq!(sheet.pixel(between), Ok(no_blanks(at(1, 1))));
    assert_eq!(sheet.pixel_in(Pair::Corner, between), Ok(no_blanks(at(2, 2))));
    // the corner 01 prints for the worked card's first pixel is rounded north and west
    let sheet = Sheet { series: WORKED_SERIES, card: WORKED };
    let corner = Position { lat: 4_143_223, lon: -897_507 };
    assert_eq!(sheet.pixel_in(Pair::Corner, corner), Ok(no_blanks(at(0, 0))));
    assert_eq!(sheet.pixel(corner), Err(TWELVE));
}

/// The overview question stays in the corner pair; the centre pair would often answer otherwise.
#[test]
fn overview_stays() {
    let mut random = seeded("overview_stays");
    let mut ask = Ask::default();
    let (mut answered, mut other) = (0, 0);
    for round in 0..30_000 {
        let over_series = overview(&mut random);
        let series =
            if round % 2 == 0 { chart(&mut random) } else { Series { factor: 1, ..over_series } };
        let record = record(&mut random, series, 5);
        let chart_card = card(series, &record);
        let chart = Sheet { series, card: &chart_card };
        let asked = pixel(&mut random, &record);
        let there = or_zero(chart.position_in(Pair::Corner, asked));
        let over_card = over(&mut random, over_series, there);
        let overview = Sheet { series: over_series, card: &over_card };
        let found = ask.overview_pixel(&chart, &overview, asked);
        let [corner, centre] = PAIRS.map(|pair| {
            let there = chart.position_in(pair, asked)?;
            let found = overview.pixel_in(pair, there.value)?;
            let (pixel, overview_blanks) = (found.value, found.blanks);
            Ok(OverviewPixel { pixel, blanks: there.blanks, overview_blanks })
        });
        assert_eq!(found, corner, "{series:?} {over_series:?} {asked:?}");
        answered += u64::from(found.is_ok());
        other += u64::from(corner != centre);
    }
    println!("cases overview_stays {answered}, {other} other in the centre pair");
    assert!(answered > 6_000 && other > 3_000, "{answered} answered, {other} other");
    ask.met("overview_pixel", &[0, 12, 13]);
}
