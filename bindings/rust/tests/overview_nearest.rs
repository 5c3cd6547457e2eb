//! The overview pixel has the nearest place of the overview's grid to the chart pixel's answered
//! position, both in the corner pair: distances are compared exactly, by trying places (02, E4 and
//! E8; 01, "Origins").

use crate::{rule, support};
use fordcask::{Card, OnCard, Pair, Pixel, Position, Series, Sheet};
use support::cuts::{over, place_at};
use support::make::{all_chart, card, chart, overview, pixel, record, ZONES};
use support::{seeded, Ask, Random};

/// The distance of a latitude from the row u places north of the Equator, times B.
fn row_distance(card: &Card, lat: i64, u: i64) -> i128 {
    (i128::from(lat) * card.spacing.b as i128 - i128::from(u) * rule::H).abs()
}

/// The distance of a longitude from the column v places east, the short way round, times A.
fn column_distance(card: &Card, lon: i64, v: i64) -> i128 {
    let a = card.spacing.a as i128;
    let mut apart = (i128::from(lon) * a - i128::from(v) * rule::H).abs();
    while apart > a * rule::H {
        apart -= a * rule::H;
    }
    apart.min(a * rule::H - apart)
}

/// The one number of these with the least distance.
fn least(numbers: impl Iterator<Item = i64>, distance: impl Fn(i64) -> i128) -> i64 {
    let mut best: Vec<(i128, i64)> = Vec::new();
    for number in numbers {
        let apart = distance(number);
        if best.is_empty() || apart < best[0].0 {
            best.clear();
        }
        if best.is_empty() || apart == best[0].0 {
            best.push((apart, number));
        }
    }
    assert_eq!(best.len(), 1, "one nearest: {best:?}");
    best[0].1
}

/// The nearest place of the whole grid, by trying every row and every column.
fn nearest_place(card: &Card, there: Position) -> (i64, i64) {
    let pole = (card.spacing.b / 4) as i64;
    let row = least(-pole..=pole, |u| row_distance(card, there.lat, u));
    let column = least(0..card.spacing.a as i64, |v| column_distance(card, there.lon, v));
    (row, column)
}

/// 12 where no pixel of the tiles has the nearest place, 13 where one of the padding has it.
fn at_place(card: &Card, (row, column): (i64, i64)) -> Result<Pixel, u32> {
    let place = fordcask::Place { row, column };
    let pixel = rule::has_place(card, place).ok_or(12_u32)?;
    let record = &card.record;
    let rows = record.nul as i64..=record.nll as i64;
    let columns = record.nls as i64..=record.nus as i64;
    let inside = rows.contains(&pixel.row) && columns.contains(&pixel.column);
    inside.then_some(pixel).ok_or(13)
}

/// Asks, and holds the answer or refusal to the nearest place of the whole grid.
fn ask_nearest(ask: &mut Ask, chart: &Sheet, overview: &Sheet, pixel: Pixel) -> Result<Pixel, u32> {
    let found = ask.overview_pixel(chart, overview, pixel);
    let found = found.map(|told| told.pixel).map_err(|refusal| refusal.number);
    let there = chart.position_in(Pair::Corner, pixel).expect("a pixel of the chart").value;
    let card = rule::read(overview.series, overview.card).expect("an accepted card").value;
    assert_eq!(found, at_place(&card, nearest_place(&card, there)), "{overview:?} {there:?}");
    found
}

/// A pixel of the chart's rectangle.
fn inside(random: &mut Random, record: &fordcask::Record) -> Pixel {
    let row = random.between(record.nul as i64, record.nll as i64);
    Pixel { row, column: random.between(record.nls as i64, record.nus as i64) }
}

/// Overviews of large products, where the whole grid can be tried.
#[test]
fn whole_grid() {
    let mut random = seeded("whole_grid");
    let mut ask = Ask::default();
    let mut answered = 0;
    for _ in 0..3_000 {
        let factor = random.between(1, 64) as u64;
        let most = 20_000_000 / factor as i64;
        let scale = random.between(5_000.max(most / 2), most) as u64;
        let over_series = Series { scale, factor, zone: random.pick(&ZONES) };
        let series = match random.below(3) {
            0 => chart(&mut random),
            _ => Series { factor: 1, ..over_series },
        };
        let record = record(&mut random, series, 5);
        let chart_card = card(series, &record);
        let chart = Sheet { series, card: &chart_card };
        let pixel = inside(&mut random, &record);
        let there = chart.position_in(Pair::Corner, pixel).expect("a pixel of the chart").value;
        let over_card = over(&mut random, over_series, there);
        let overview = Sheet { series: over_series, card: &over_card };
        answered += u64::from(ask_nearest(&mut ask, &chart, &overview, pixel).is_ok());
    }
    println!("cases whole_grid {answered}");
    assert!(answered > 1_000, "{answered} answered");
    ask.met("overview_pixel", &[0, 12, 13]);
}

/// At every scale: no place within three rows and columns is as near as the answered one.
#[test]
fn no_nearer_neighbour() {
    let mut random = seeded("no_nearer_neighbour");
    let mut ask = Ask::default();
    let mut answered = 0;
    for round in 0..80_000 {
        let over_series = overview(&mut random);
        let series =
            if round % 3 == 0 { chart(&mut random) } else { Series { factor: 1, ..over_series } };
        let record = record(&mut random, series, 20);
        let chart_card = card(series, &record);
        let chart = Sheet { series, card: &chart_card };
        let asked = pixel(&mut random, &record);
        let Ok(OnCard { value: there, .. }) = chart.position_in(Pair::Corner, asked) else {
            continue;
        };
        let over_card = over(&mut random, over_series, there);
        let overview = Sheet { series: over_series, card: &over_card };
        let Ok(found) = ask.overview_pixel(&chart, &overview, asked) else {
            continue;
        };
        answered += 1;
        let read = rule::read(over_series, &over_card).expect("an accepted card");
        let place = rule::place(&read, found.pixel).expect("a pixel of the tiles").value;
        let card = read.value;
        let row = least(place.row - 3..=place.row + 3, |u| row_distance(&card, there.lat, u));
        let columns = place.column - 3..=place.column + 3;
        let column = least(columns, |v| column_distance(&card, there.lon, v));
        assert_eq!((row, column), (place.row, place.column), "{series:?} {over_series:?}");
        // within half a pixel each way
        assert!(2 * row_distance(&card, there.lat, row) <= rule::H);
        assert!(2 * column_distance(&card, there.lon, column) <= rule::H);
    }
    assert!(answered > 20_000, "{answered} answered");
}

/// Charts across the date line, and overviews with their origin on either side of it.
#[test]
fn date_line() {
    let mut random = seeded("date_line");
    let mut ask = Ask::default();
    let mut across = [0, 0];
    for _ in 0..4_000 {
        let factor = random.between(1, 64) as u64;
        let scale =
            random.between(10_000.max(5_000_000 / factor as i64), 20_000_000 / factor as i64);
        let series = Series::chart(scale as u64, random.pick(&ZONES));
        let over_series = Series { factor, ..series };
        let [side, over_side] = [series, over_series]
            .map(|series| (rule::non_polar(series).expect("a spacing").0 / 256) as i64);
        let record = all_chart(3, random.pick(&[side - 2, side - 1, side, -side]), 1, 3, false);
        let chart_card = card(series, &record);
        let chart = Sheet { series, card: &chart_card };
        let asked = inside(&mut random, &record);
        let there = chart.position_in(Pair::Corner, asked).expect("a pixel of the chart").value;
        across[usize::from(there.lon < 0)] += 1;
        let n = -(-place_at(over_series, there).row).div_euclid(128) + 1;
        let found = [over_side, -over_side, over_side - 1].map(|m| {
            let over_card = card(over_series, &all_chart(n, m, 3, 4, false));
            let overview = Sheet { series: over_series, card: &over_card };
            ask_nearest(&mut ask, &chart, &overview, asked)
        });
        assert_eq!(found[0], found[1], "one meridian, two origins: {there:?}");
    }
    assert!(across[0] > 500 && across[1] > 500, "{across:?} east and west");
    ask.met("overview_pixel", &[0, 12]);
}

/// Charts at the poles: the north pole's row is an overview's first, the south pole's is in none.
#[test]
fn poles() {
    let mut random = seeded("poles");
    let mut ask = Ask::default();
    for _ in 0..400 {
        let factor = random.between(1, 64) as u64;
        let scale =
            random.between(5_000.max(4_000_000 / factor as i64), 20_000_000 / factor as i64);
        let series = Series::chart(scale as u64, random.pick(&ZONES));
        let over_series = Series { factor, ..series };
        let [pole, over_pole] = [series, over_series]
            .map(|series| (rule::non_polar(series).expect("a spacing").1 / 512) as i64);
        for (n, over_n) in [(pole, over_pole), (1 - pole, 1 - over_pole)] {
            let chart_card = card(series, &all_chart(n, 0, 1, 1, false));
            let over_card = card(over_series, &all_chart(over_n, 0, 1, 1, false));
            let chart = Sheet { series, card: &chart_card };
            let overview = Sheet { series: over_series, card: &over_card };
            for row in [0, 1, random.between(2, 125), 126, 127] {
                let found = ask_nearest(&mut ask, &chart, &overview, Pixel { row, column: 5 });
                if n == pole && row == 0 {
                    assert_eq!(found.map(|pixel| pixel.row), Ok(0), "{over_series:?}");
                }
            }
        }
    }
    ask.met("overview_pixel", &[0, 12]);
}
