//! Questions on damaged cards: reading's refusals come first. And every pixel of the worked card.

use crate::{rule, support};
use fordcask::{Pixel, Position, Series, Sheet, Tiles, Window};
use support::damage::change_some;
use support::make::{all_chart, card, changes_of, chart, record, town_chart, Maker};
use support::{seeded, Ask, Random, PAIRS, WORKED, WORKED_SERIES};

fn some_pixel(random: &mut Random) -> Pixel {
    Pixel { row: random.between(-2, 258), column: random.between(-2, 130) }
}

/// Puts every question to a sheet, at a pixel and at a position.
fn ask_all(ask: &mut Ask, sheet: &Sheet, pixel: Pixel, position: Position, height: u64) {
    let _ = ask.place(sheet, pixel);
    for position in ask.position(sheet, pixel).into_iter().flatten() {
        let _ = ask.pixel(sheet, position.value);
    }
    let _ = ask.pixel(sheet, position);
    let (tiles, store) = (Tiles { index: &[], count: 2 }, [9; 2 * 49_152]);
    let _ = ask.index_check(sheet, tiles, 3);
    let _ = ask.tile(sheet, tiles, &store, pixel);
    let _ = ask.bands(sheet, tiles, &store, pixel);
    let window = Window { top: 0, left: 0, height, width: 1 };
    let _ = ask.window(sheet, tiles, window);
}

fn some_position(random: &mut Random) -> Position {
    let near = Position {
        lat: random.between(4_060_000, 4_144_000),
        lon: random.between(-898_000, -852_000),
    };
    let far = Position {
        lat: random.between(4_050_000, 32_400_000),
        lon: random.between(-64_800_000, 64_800_000),
    };
    random.pick(&[near, far])
}

/// Every question gives reading's refusals first, and the right answer where the card is accepted.
fn changes_asked(test: &str, good: Sheet) {
    let mut random = seeded(test);
    let mut ask = Ask::default();
    for card in changes_of(good.card) {
        let sheet = Sheet { card: &card, ..good };
        let (pixel, position) = (some_pixel(&mut random), some_position(&mut random));
        ask_all(&mut ask, &sheet, pixel, position, random.below(4) as u64);
        if sheet.read().is_ok() {
            for (row, column) in [(0, 0), (0, 127), (255, 0), (255, 127), (256, 0), (0, -1)] {
                let pixel = Pixel { row, column };
                for pair in PAIRS {
                    let there = good.position_in(pair, pixel).map(|told| told.value);
                    ask_all(&mut ask, &sheet, pixel, there.unwrap_or(position), 3);
                }
            }
        }
    }
    ask.met("place", &[0, 7, 8, 9, 10, 11, 12]);
    ask.met("position", &[0, 7, 8, 9, 10, 11, 12, 13]);
    ask.met("pixel", &[0, 7, 8, 9, 10, 11, 12, 13]);
    ask.met("index_check", &[0, 6, 7, 8, 9, 10, 11]);
    ask.met("tile", &[0, 6, 7, 8, 9, 10, 11, 12, 13]);
    ask.met("bands", &[0, 6, 7, 8, 9, 10, 11, 12, 13]);
    ask.met("window", &[0, 6, 7, 8, 9, 10, 11, 12]);
}

#[test]
fn one_byte_changes_asked() {
    let worked = Sheet { series: WORKED_SERIES, card: WORKED };
    changes_asked("one_byte_changes_asked", worked);
}

#[test]
fn one_byte_changes_asked_town() {
    for (scale, zone) in [(5_000, 8), (9_999, 10)] {
        let series = Series::chart(scale, zone);
        let card = card(series, &all_chart(100, -20, 2, 1, false));
        changes_asked("one_byte_changes_asked_town", Sheet { series, card: &card });
    }
}

/// Several subfields wrong at once, at any scale and zone, the bad ones too.
fn damaged_asked(test: &str, rounds: u32, maker: Maker) {
    let mut random = seeded(test);
    let mut ask = Ask::default();
    for round in 0..rounds {
        let mut series = maker(&mut random);
        let record = record(&mut random, series, 3);
        let mut card = card(series, &record);
        let good = rule::read(series, &card).expect("a good card");
        let last = Pixel { row: record.nll as i64, column: record.nus as i64 };
        let last = PAIRS.map(|pair| rule::position(pair, &good, last));
        let last = random.pick(&last).expect("a pixel of the chart").value;
        change_some(&mut random, &mut card);
        if round % 8 == 0 {
            series.scale = random.pick(&[series.scale, 0, 4_999, 20_000_001, u64::MAX]);
            series.zone = random.pick(&[series.zone, 0, 9, 18, 19, u64::MAX]);
            card.truncate(random.pick(&[98, 97, 0]));
        }
        let sheet = Sheet { series, card: &card };
        let (pixel, position) = (some_pixel(&mut random), some_position(&mut random));
        let position = random.pick(&[position, last]);
        ask_all(&mut ask, &sheet, pixel, position, 1);
    }
    ask.met("place", &[0, 1, 2, 3, 6, 7, 8, 9, 10, 11, 12]);
    ask.met("position", &[0, 1, 2, 3, 6, 7, 8, 9, 10, 11, 12, 13]);
    ask.met("pixel", &[0, 1, 2, 3, 6, 7, 8, 9, 10, 11, 12, 13]);
    ask.met("index_check", &[0, 1, 2, 3, 6, 7, 8, 9, 10, 11]);
    ask.met("tile", &[0, 1, 2, 3, 6, 7, 8, 9, 10, 11, 12, 13]);
    ask.met("bands", &[0, 1, 2, 3, 6, 7, 8, 9, 10, 11, 12, 13]);
    ask.met("window", &[0, 1, 2, 3, 6, 7, 8, 9, 10, 11]);
}

#[test]
fn damaged_cards_asked() {
    damaged_asked("damaged_cards_asked", 30_000, chart);
}

#[test]
fn damaged_town_cards_asked() {
    damaged_asked("damaged_town_cards_asked", 30_000, town_chart);
}

/// Every pixel of the worked card, and a border of two outside it.
#[test]
fn every_pixel() {
    let mut ask = Ask::default();
    let sheet = Sheet { series: WORKED_SERIES, card: WORKED };
    for row in -2..258 {
        for column in -2..130 {
            let pixel = Pixel { row, column };
            ask.there_and_back(&sheet, pixel);
            let inside = sheet.place(pixel).is_ok();
            let answered = PAIRS.map(|pair| sheet.position_in(pair, pixel).is_ok());
            assert_eq!(answered, [inside; 2], "no padding in the worked card");
        }
    }
    ask.met("place", &[0, 12]);
    ask.met("position", &[0, 12]);
    ask.met("pixel", &[0]);
}
