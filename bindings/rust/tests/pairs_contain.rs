//! The centre pair's pixel is the one that contains the position (02, E8), held to inequalities.

use crate::{rule, support};
use fordcask::{Card, Pair, Pixel, Position, Record, Series, Sheet};
use support::contain::{contains, of_chart, tried};
use support::make::{chart, overview, record, toward_ends, town_chart, town_overview, Maker};
use support::{no_blanks, seeded, Ask, Random};

const MAKERS: [Maker; 4] = [chart, town_chart, overview, town_overview];

/// The greatest latitude in hundredths that is not north of a row's north edge.
fn north_end(card: &Card, row: i64) -> i64 {
    let up = 128 * i128::from(card.record.n) - i128::from(row);
    rule::floor_div(up * rule::H, card.spacing.b.into()) as i64
}

/// The least longitude in hundredths that is not west of a column's west edge, not yet in range.
fn west_end(card: &Card, column: i64) -> i64 {
    let east = 128 * i128::from(card.record.m) + i128::from(column);
    -rule::floor_div(-east * rule::H, card.spacing.a.into()) as i64
}

/// A longitude brought into range by whole circles.
fn in_range(lon: i64) -> i64 {
    (lon + 64_800_000).rem_euclid(129_600_000) - 64_800_000
}

/// A row or column of the tiles, of their edges or just outside them.
fn near(random: &mut Random, edges: [u64; 2], tiles: u64) -> i64 {
    let [first, last] = edges.map(|edge| edge as i64);
    match random.below(4) {
        0 => random.between(-2, 128 * tiles as i64 + 1),
        1 => random.pick(&[-1, 0, 128 * tiles as i64 - 1, 128 * tiles as i64]),
        2 => random.pick(&[first - 1, last + 1]),
        _ => toward_ends(random, first, last),
    }
}

/// A position at an edge of a pixel near the chart, or a few hundredths off.
fn near_edge(random: &mut Random, card: &Card) -> Position {
    let record = &card.record;
    let row = near(random, [record.nul, record.nll], record.nfl);
    let column = near(random, [record.nls, record.nus], record.nfc);
    let lat = north_end(card, row) + random.between(-2, 2);
    let lon = in_range(west_end(card, column) + random.between(-2, 2));
    Position { lat: lat.clamp(-32_400_000, 32_400_000), lon }
}

/// Cards of few tiles, where every pixel can be tried; 12 and 13 are as no pixel or padding has it.
#[test]
fn by_trying() {
    let mut random = seeded("by_trying");
    let mut ask = Ask::default();
    let mut ends = [0, 0, 0];
    for _ in 0..4_000 {
        let series = random.pick(&MAKERS)(&mut random);
        let record = record(&mut random, series, 2);
        let bytes = support::make::card(series, &record);
        let sheet = Sheet { series, card: &bytes };
        let card = rule::read(series, &bytes).expect("an accepted card").value;
        for _ in 0..12 {
            let position = near_edge(&mut random, &card);
            let [_, found] = ask.pixel(&sheet, position);
            let right = tried(&card, position);
            let found = found.map(|told| told.value).map_err(|refusal| refusal.number);
            assert_eq!(found, right, "{series:?} {record:?} {position:?}");
            ends[right.map_or_else(|number| number as usize - 11, |_| 0)] += 1;
        }
    }
    println!("cases by_trying {ends:?}");
    assert!(ends.iter().all(|end| *end > 4_000), "{ends:?} answered, 12 and 13");
    ask.met("pixel", &[0, 12, 13]);
}

/// The pixel found contains the position and none of its eight neighbours does; of two pixels next
/// to an edge the one south and east of it has the edge.
fn at_edges(random: &mut Random, ask: &mut Ask, sheet: &Sheet, record: &Record) {
    let card = rule::read(sheet.series, sheet.card).expect("an accepted card").value;
    let row = random.between(record.nul as i64, record.nll as i64);
    let column = random.between(record.nls as i64, record.nus as i64);
    let edge = Position { lat: north_end(&card, row), lon: west_end(&card, column) };
    for (north, west) in [(0, 0), (1, 0), (0, 1), (1, 1)] {
        // round a whole parallel the column before the first is the last
        let column = (column - west).rem_euclid(card.spacing.a as i64);
        let right = Pixel { row: row - north, column };
        let position = Position { lat: edge.lat + north, lon: in_range(edge.lon - west) };
        if position.lat > 32_400_000 {
            continue;
        }
        let [_, found] = ask.pixel(sheet, position);
        assert!(contains(&card, right, position), "{right:?} {position:?}");
        let found = found.map(|told| told.value).map_err(|refusal| refusal.number);
        assert_eq!(found, of_chart(&card, right), "{:?} {position:?}", sheet.series);
        for (down, across) in [(-1, -1), (-1, 0), (-1, 1), (0, -1), (0, 1), (1, -1), (1, 0), (1, 1)]
        {
            let other = Pixel { row: right.row + down, column: right.column + across };
            assert!(!contains(&card, other, position), "{other:?} {position:?}");
        }
    }
}

/// Every scale and factor: an edge and one hundredth north and west of it.
#[test]
fn edges() {
    let mut random = seeded("edges");
    let mut ask = Ask::default();
    for round in 0..40_000 {
        let series = random.pick(&MAKERS)(&mut random);
        let record = record(&mut random, series, if round % 2 == 0 { 3 } else { 999 });
        let card = support::make::card(series, &record);
        at_edges(&mut random, &mut ask, &Sheet { series, card: &card }, &record);
    }
    ask.met("pixel", &[0, 12, 13]);
}

/// 1:1,251,200 zone 3 and 1:1,280,000 zone 3: edges on whole hundredths, each row and column.
#[test]
fn whole_edges() {
    let at = |row, column| Pixel { row, column };
    let told = |row, column| Ok(no_blanks(at(row, column)));
    for m in [-7, 3] {
        let rows = Series::chart(1_251_200, 3);
        let card = support::make::card(rows, &support::make::all_chart(2, m, 4, 1, false));
        let sheet = Sheet { series: rows, card: &card };
        let lon = sheet.position(at(0, 5)).expect("a pixel").value.lon;
        for row in 1..512 {
            let lat = 405 * (256 - row);
            let found = [1, 0, -1].map(|north| sheet.pixel(Position { lat: lat + north, lon }));
            assert_eq!(found, [told(row - 1, 5), told(row, 5), told(row, 5)]);
        }
        let columns = Series::chart(1_280_000, 3);
        let card = support::make::card(columns, &support::make::all_chart(2, m, 1, 4, false));
        let sheet = Sheet { series: columns, card: &card };
        let lat = sheet.position(at(5, 0)).expect("a pixel").value.lat;
        for column in 1..512 {
            let lon = 675 * (128 * m + column);
            let found = [-1, 0, 1].map(|east| sheet.pixel(Position { lat, lon: lon + east }));
            assert_eq!(found, [told(5, column - 1), told(5, column), told(5, column)]);
        }
    }
}

/// The answered position lies in its pixel, so asked back it gives that pixel again.
#[test]
fn answers_lie_inside() {
    let mut random = seeded("answers_lie_inside");
    for _ in 0..100_000 {
        let series = random.pick(&MAKERS)(&mut random);
        let record = record(&mut random, series, 999);
        let bytes = support::make::card(series, &record);
        let sheet = Sheet { series, card: &bytes };
        let card = rule::read(series, &bytes).expect("an accepted card").value;
        let row = toward_ends(&mut random, record.nul as i64, record.nll as i64);
        let column = toward_ends(&mut random, record.nls as i64, record.nus as i64);
        let pixel = Pixel { row, column };
        let there = sheet.position_in(Pair::Centre, pixel).expect("a pixel of the chart");
        assert!(contains(&card, pixel, there.value), "{series:?} {record:?} {pixel:?}");
        assert_eq!(there.blanks, 0, "{series:?} {record:?} {pixel:?}");
    }
}
