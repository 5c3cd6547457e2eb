//! The date line and the poles in the corner pair and the centre pair (02, E8).

use crate::{rule, support};
use fordcask::{Pair, Pixel, Position, Refusal, Series, Sheet};
use support::make::{all_chart, card, scale, ZONES};
use support::{no_blanks, seeded, Ask, Random};

const DATE_LINE: i64 = 64_800_000;
const POLE: i64 = 32_400_000;
const TWELVE: Refusal = Refusal { number: 12, at: 0 };

/// A chart or an overview in this zone, its factor to 64, with tiles to the pole and the date line.
fn series_in(random: &mut Random, zone: u64) -> (Series, i64, i64) {
    let factor = random.pick(&[1, 1, 2, 7, 64]);
    let scale = scale(random).min(20_000_000 / factor);
    let series = Series { scale, factor, zone };
    let (a, b) = rule::non_polar(series).expect("a spacing");
    (series, (b / 512) as i64, (a / 256) as i64)
}

/// Cards cut across 180 degrees: its column starts on it, and either sign gives that column.
#[test]
fn date_line() {
    let mut random = seeded("date_line");
    let mut ask = Ask::default();
    for round in 0..1_600 {
        let (series, _, side) = series_in(&mut random, ZONES[round % 16]);
        let before = random.between(1, 3);
        let card = card(series, &all_chart(9, side - before, 1, 5, false));
        let sheet = Sheet { series, card: &card };
        let first = 128 * before;
        for column in [first - 2, first - 1, first, first + 1, 0, 639] {
            ask.there_and_back(&sheet, Pixel { row: 7, column });
        }
        let lat = sheet.position(Pixel { row: 7, column: 0 }).expect("a pixel").value.lat;
        let mut column_at = |pair, lon| {
            let found = ask.pixel_in(pair, &sheet, Position { lat, lon });
            found.map(|pixel| pixel.value.column)
        };
        for lon in [DATE_LINE, -DATE_LINE, 1 - DATE_LINE] {
            assert_eq!(column_at(Pair::Centre, lon), Ok(first), "{series:?} {lon}");
        }
        for lon in [DATE_LINE, -DATE_LINE] {
            assert_eq!(column_at(Pair::Corner, lon), Ok(first), "{series:?} {lon}");
        }
        assert_eq!(column_at(Pair::Centre, DATE_LINE - 1), Ok(first - 1), "{series:?}");
        for pair in [Pair::Corner, Pair::Centre] {
            for lon in [DATE_LINE + 1, -DATE_LINE - 1] {
                assert_eq!(column_at(pair, lon).map_err(|r| r.number), Err(5), "{series:?}");
            }
        }
    }
    ask.met("pixel", &[0, 5]);
}

/// Cards that end or start at 180 degrees: the date line is in the one that starts there, and the
/// last centre before it stays below it.
#[test]
fn cards_at_the_date_line() {
    let mut random = seeded("cards_at_the_date_line");
    let mut ask = Ask::default();
    for round in 0..1_600 {
        let (series, _, side) = series_in(&mut random, ZONES[round % 16]);
        let [ending, west, east] = [side - 1, -side, side].map(|m| {
            let record = all_chart(9, m, 1, 1, false);
            card(series, &record)
        });
        let [ending, west, east] =
            [&ending, &west, &east].map(|card| Sheet { series, card: &card[..] });
        let last = ask.position_in(Pair::Centre, &ending, Pixel { row: 0, column: 127 });
        let Position { lat, lon } = last.expect("a pixel").value;
        assert!(lon > 0 && lon < DATE_LINE, "{series:?} {lon}");
        for column in [0, 1, 127] {
            let pixel = Pixel { row: 0, column };
            assert_eq!(ask.position(&west, pixel), ask.position(&east, pixel), "{series:?}");
        }
        for lon in [DATE_LINE, -DATE_LINE] {
            let position = Position { lat, lon };
            assert_eq!(ask.pixel(&ending, position)[1], Err(TWELVE), "{series:?} {lon}");
            let found = [&west, &east].map(|sheet| ask.pixel(sheet, position)[1]);
            assert_eq!(found, [Ok(no_blanks(Pixel::default())); 2], "{series:?} {lon}");
        }
        let inside = Position { lat, lon: DATE_LINE - 1 };
        let found = [&west, &east].map(|sheet| ask.pixel(sheet, inside)[1]);
        assert_eq!(found, [Err(TWELVE); 2], "{series:?}");
    }
    ask.met("position", &[0]);
}

/// +90 degrees is in row 0 of a card at the pole, one hundredth less too; −90 degrees is in none.
#[test]
fn poles() {
    let mut random = seeded("poles");
    let mut ask = Ask::default();
    for round in 0..1_600 {
        let (series, pole, _) = series_in(&mut random, ZONES[round % 16]);
        let tiles = random.between(1, 3);
        let north = card(series, &all_chart(pole, 1, tiles as u64, 1, false));
        let south = card(series, &all_chart(tiles - pole, 1, tiles as u64, 1, false));
        let [north, south] = [&north, &south].map(|card| Sheet { series, card: &card[..] });
        let lon = sheet_middle(&north);
        for lat in [POLE, POLE - 1] {
            let found = ask.pixel(&north, Position { lat, lon });
            assert_eq!(found[1].map(|pixel| pixel.value.row), Ok(0), "{series:?}");
        }
        let last = 128 * tiles - 1;
        for sheet in [&north, &south] {
            assert_eq!(ask.pixel(sheet, Position { lat: -POLE, lon }), [Err(TWELVE); 2]);
        }
        let found = ask.pixel(&south, Position { lat: 1 - POLE, lon });
        assert_eq!(found[1].map(|pixel| pixel.value.row), Ok(last), "{series:?}");
        for lat in [POLE + 1, -POLE - 1] {
            let found = ask.pixel(&north, Position { lat, lon });
            assert_eq!(found.map(|answer| answer.map_err(|r| r.number)), [Err(4); 2]);
        }
        for row in [0, 1, last] {
            ask.there_and_back(&north, Pixel { row, column: 64 });
            ask.there_and_back(&south, Pixel { row, column: 64 });
        }
    }
    ask.met("pixel", &[0, 4, 12]);
}

/// The longitude of a card's column 64.
fn sheet_middle(sheet: &Sheet) -> i64 {
    sheet.position(Pixel { row: 0, column: 64 }).expect("a pixel").value.lon
}
