//! Place, pixel to position and position to pixel at every edge, compared with the rule in both
//! pairs.

use crate::{rule, support};
use fordcask::{Pixel, Position, Record, Series, Sheet};
use support::make::{around, card, chart, edge_columns, edge_rows, overview, pixel, record};
use support::make::{town_chart, with_edges, Maker, SCALES, ZONES};
use support::{or_zero, seeded, Ask, Random, PAIRS, SIGNED_ENDS};

/// Every pair of edge rows and edge columns, and the ends of i64.
fn ask_edges(ask: &mut Ask, sheet: &Sheet, record: &Record) {
    let mut rows = edge_rows(record);
    let mut columns = edge_columns(record);
    for row in &rows {
        for column in &columns {
            ask.there_and_back(sheet, Pixel { row: *row, column: *column });
        }
    }
    rows.extend(SIGNED_ENDS);
    columns.extend(SIGNED_ENDS);
    for (i, row) in rows.iter().enumerate() {
        let column = columns[i % columns.len()];
        ask.there_and_back(sheet, Pixel { row: *row, column });
        let column = record.nls as i64;
        ask.there_and_back(sheet, Pixel { row: *row, column });
    }
    for column in columns {
        let row = record.nul as i64;
        ask.there_and_back(sheet, Pixel { row, column });
    }
}

/// The latitudes halfway between rows, and those of the rows, at each edge of tiles and chart.
fn edge_latitudes(record: &Record, b: i128) -> Vec<i64> {
    let north = 128 * record.n as i128;
    let halves = |row: &i64| {
        let u = 2 * (north - *row as i128);
        [u - 1, u, u + 1].map(|twice| rule::nearest(twice * rule::H, 2 * b) as i64)
    };
    let rows = edge_rows(record);
    around(&rows.iter().flat_map(halves).collect::<Vec<i64>>())
}

/// The same of longitudes, each brought into range and also one circle off where that is in range.
fn edge_longitudes(record: &Record, a: i128) -> Vec<i64> {
    let east = 128 * record.m as i128;
    let halves = |column: &i64| {
        let v = 2 * (east + *column as i128);
        [v - 1, v, v + 1].map(|twice| rule::nearest(twice * rule::H, 2 * a) as i64)
    };
    let mut columns = edge_columns(record);
    columns.extend([a as i64 - 1, a as i64, a as i64 + 1]);
    let mut all: Vec<i64> = columns.iter().flat_map(halves).collect();
    for i in 0..all.len() {
        all.extend([all[i] - 129_600_000, all[i] + 129_600_000]);
    }
    all.retain(|lon| lon.abs() <= 64_800_010);
    around(&all)
}

fn range_ends(end: i64) -> Vec<i64> {
    let mut all = around(&[-end, 0, end]);
    all.extend(SIGNED_ENDS);
    all
}

/// Each edge latitude with some longitudes and each edge longitude with some latitudes.
fn ask_positions(ask: &mut Ask, random: &mut Random, sheet: &Sheet, record: &Record) {
    let (a, b) = rule::non_polar(sheet.series).expect("a spacing");
    let mut lats = edge_latitudes(record, b);
    let mut lons = edge_longitudes(record, a);
    lats.extend(range_ends(32_400_000));
    lons.extend(range_ends(64_800_000));
    let middle = |low: u64, high: u64| (low + (high - low) / 2) as i64;
    let inside =
        Pixel { row: middle(record.nul, record.nll), column: middle(record.nls, record.nus) };
    for pair in PAIRS {
        let inside = ask.position_in(pair, sheet, inside).expect("a pixel of the chart").value;
        for lat in &lats {
            let _ = ask.pixel_in(pair, sheet, Position { lat: *lat, lon: inside.lon });
            let lon = random.pick(&lons);
            let _ = ask.pixel_in(pair, sheet, Position { lat: *lat, lon });
        }
        for lon in &lons {
            let _ = ask.pixel_in(pair, sheet, Position { lat: inside.lat, lon: *lon });
            let lat = random.pick(&lats);
            let _ = ask.pixel_in(pair, sheet, Position { lat, lon: *lon });
        }
    }
}

fn met_all(ask: &Ask) {
    ask.met("place", &[0, 12]);
    ask.met("position", &[0, 12, 13]);
    ask.met("pixel", &[0, 4, 5, 12, 13]);
}

/// Cards of few tiles and of many in turn; the first rounds are at the named scales.
fn random_edges(test: &str, rounds: usize, named: &[(u64, u64)], maker: Maker) {
    let mut random = seeded(test);
    let mut ask = Ask::default();
    for round in 0..rounds {
        let mut series = maker(&mut random);
        if round < 300 {
            (series.scale, series.factor) = named[round % named.len()];
        }
        let record = record(&mut random, series, if round % 2 == 0 { 3 } else { 999 });
        let card = card(series, &record);
        let sheet = Sheet { series, card: &card };
        ask_edges(&mut ask, &sheet, &record);
        ask_positions(&mut ask, &mut random, &sheet, &record);
    }
    met_all(&ask);
}

#[test]
fn edges_of_random_cards() {
    random_edges("edges_of_random_cards", 4_000, &SCALES.map(|scale| (scale, 1)), chart);
}

#[test]
fn edges_of_town_cards() {
    random_edges(
        "edges_of_town_cards",
        1_500,
        &[5_000, 5_001, 9_998, 9_999].map(|scale| (scale, 1)),
        town_chart,
    );
}

/// Origins at the poles, the Equator, the zero meridian and 180 degrees.
#[test]
fn named_origins() {
    let mut random = seeded("named_origins");
    let mut ask = Ask::default();
    for scale in SCALES {
        for zone in ZONES {
            let series = Series::chart(scale, zone);
            let (a, b) = rule::non_polar(series).expect("a spacing");
            let (pole, side) = ((b / 512) as i64, (a / 256) as i64);
            for n in [pole, 0, 1, -1, 1 - pole] {
                let m = random.pick(&[-side, 1 - side, -1, 0, 1, side - 1, side]);
                let (down, across) = ((n + pole).min(3), side.min(4));
                let record = with_edges(&mut random, n, m, down, across);
                let card = card(series, &record);
                let sheet = Sheet { series, card: &card };
                ask_edges(&mut ask, &sheet, &record);
                ask_positions(&mut ask, &mut random, &sheet, &record);
            }
        }
    }
    met_all(&ask);
}

/// Pixels there and back, and positions near one and anywhere.
fn random_asked(test: &str, rounds: u32, maker: Maker) {
    let mut random = seeded(test);
    let mut ask = Ask::default();
    for _ in 0..rounds {
        let series = maker(&mut random);
        let record = record(&mut random, series, 999);
        let card = card(series, &record);
        let sheet = Sheet { series, card: &card };
        for _ in 0..4 {
            ask.there_and_back(&sheet, pixel(&mut random, &record));
        }
        let near = ask.position(&sheet, pixel(&mut random, &record));
        let near = or_zero(random.pick(&near));
        let position = Position {
            lat: near.lat + random.between(-4_000, 4_000),
            lon: near.lon + random.between(-4_000, 4_000),
        };
        let _ = ask.pixel(&sheet, position);
        let position = Position {
            lat: random.between(-32_400_000, 32_400_000),
            lon: random.between(-64_800_000, 64_800_000),
        };
        let _ = ask.pixel(&sheet, position);
    }
    ask.met("place", &[0, 12]);
    ask.met("position", &[0, 12, 13]);
    ask.met("pixel", &[0, 4, 5, 12, 13]);
}

#[test]
fn random_pixels_and_positions() {
    random_asked("random_pixels_and_positions", 100_000, chart);
}

#[test]
fn random_town_pixels_and_positions() {
    random_asked("random_town_pixels_and_positions", 30_000, town_chart);
}

/// Cards of factors above 1, at the ends of scale, factor and product first (02, E4).
#[test]
fn edges_of_overview_cards() {
    let named = [(5_000, 64), (9_999, 2), (10_000, 63), (50_000, 20), (312_500, 64)];
    random_edges("edges_of_overview_cards", 2_000, &named, overview);
}

#[test]
fn random_overview_pixels_and_positions() {
    random_asked("random_overview_pixels_and_positions", 60_000, overview);
}
