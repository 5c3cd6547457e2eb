//! Every question on cards of factors other than 1, good and damaged (02, E4).

use crate::{rule, support};
use fordcask::{Pixel, Position, Series, Sheet, Tiles, Window};
use support::ask_all::{ask_all, QUESTIONS};
use support::ask_lists::{pixels, positions};
use support::damage::change_some;
use support::index::good_index;
use support::make::{all_chart, card, changes_of, overview, pixel, record};
use support::make::{BAD_FACTORS, BAD_SCALES, BAD_ZONES, ZONES};
use support::{no_blanks, or_zero, seeded, Ask, PAIRS};

/// Every one-byte change of an overview's card, in every question.
#[test]
fn one_byte_changes_asked() {
    let mut random = seeded("one_byte_changes_asked");
    let mut ask = Ask::default();
    for (scale, factor, zone) in [(50_000, 20, 1), (312_500, 64, 17), (9_999, 63, 5)] {
        let series = Series { scale, factor, zone };
        let good_card = card(series, &all_chart(20, -10, 2, 1, false));
        let good = Sheet { series, card: &good_card };
        for card in changes_of(&good_card) {
            let sheet = Sheet { series, card: &card };
            let row = random.between(-2, 258);
            let pixel = Pixel { row, column: random.between(-2, 130) };
            let position = or_zero(good.position_in(random.pick(&PAIRS), pixel));
            ask_all(&mut ask, &sheet, &good, pixel, position);
        }
    }
    for question in ["position", "pixel", "overview_pixel"] {
        ask.met(question, &[0, 7, 8, 9, 10, 11, 12, 13]);
    }
    ask.met("place", &[0, 7, 8, 9, 10, 11, 12]);
    ask.met("positions", &[0, 7, 8, 9, 10, 11]);
    ask.met("pixels", &[0, 7, 8, 9, 10, 11]);
}

/// Damaged cards with scale, factor and zone good or refused, in every question.
#[test]
fn damaged_cards_asked() {
    let mut random = seeded("damaged_cards_asked");
    let mut ask = Ask::default();
    for round in 0..30_000 {
        let mut series = overview(&mut random);
        let record = record(&mut random, series, 3);
        let good_card = card(series, &record);
        let good = Sheet { series, card: &good_card };
        let pixel = pixel(&mut random, &record);
        let position = or_zero(good.position_in(random.pick(&PAIRS), pixel));
        let mut card = good_card.clone();
        if random.once_in(2) {
            change_some(&mut random, &mut card);
        }
        match round % 16 {
            0 => series.scale = random.pick(&BAD_SCALES),
            1 => series.factor = random.pick(&BAD_FACTORS),
            2 => series.zone = random.pick(&BAD_ZONES),
            3 => series.zone = random.pick(&[9, 18]),
            4 => card.truncate(random.below(98)),
            5 => series.factor = random.between(1, 64) as u64,
            6 => std::mem::swap(&mut series.scale, &mut series.factor),
            _ => (),
        }
        ask_all(&mut ask, &Sheet { series, card: &card }, &good, pixel, position);
    }
    for question in ["read", "positions", "pixels", "index_check"] {
        ask.met(question, &[0, 1, 2, 3, 6, 7, 8, 9, 10, 11, 17]);
    }
    for question in ["position", "pixel", "tile", "bands", "overview_pixel"] {
        ask.met(question, &[0, 1, 2, 3, 6, 7, 8, 9, 10, 11, 12, 13, 17]);
    }
    ask.met("place", &[0, 1, 2, 3, 6, 7, 8, 9, 10, 11, 12, 17]);
}

/// Every factor: one card asked in every question, all answered.
#[test]
fn every_factor_answers() {
    let mut random = seeded("every_factor_answers");
    let mut ask = Ask::default();
    for factor in 1..=64 {
        for zone in ZONES {
            let most = (20_000_000 / factor) as i64;
            let any = random.between(5_000, most);
            let scale = random.pick(&[5_000, 9_999, 10_000, most, any]);
            let series = Series { scale: scale as u64, factor, zone };
            let card = card(series, &all_chart(5, -2, 2, 1, false));
            let sheet = Sheet { series, card: &card };
            // not at an edge: each pair finds a pixel at the other's position too
            let pixel = Pixel { row: random.between(1, 254), column: random.between(1, 126) };
            for pair in PAIRS {
                let position = sheet.position_in(pair, pixel).expect("a position").value;
                ask_all(&mut ask, &sheet, &sheet, pixel, position);
                let back = sheet.pixel_in(pair, position);
                assert_eq!(back, Ok(no_blanks(pixel)), "there and back");
            }
        }
    }
    for question in QUESTIONS {
        ask.met(question, &[0]);
    }
}

/// A card round the whole parallel: every column, and +180 and -180 give one column.
#[test]
fn whole_parallel() {
    let mut ask = Ask::default();
    for (zone, nfc) in [(1, 148), (2, 120), (8, 36), (17, 36)] {
        let series = Series { scale: 312_500, factor: 64, zone };
        let (a, _) = rule::non_polar(series).expect("a spacing");
        assert_eq!(a, 128 * nfc as i128, "tiles round the parallel");
        for m in [-nfc / 2, -1, 0, nfc / 2] {
            let card = card(series, &all_chart(1, m, 1, nfc as u64, false));
            let sheet = Sheet { series, card: &card };
            for column in -1..=128 * nfc {
                ask.there_and_back(&sheet, Pixel { row: 5, column });
            }
            let east = ask.pixel(&sheet, Position { lat: 1000, lon: 64_800_000 });
            let west = ask.pixel(&sheet, Position { lat: 1000, lon: -64_800_000 });
            assert_eq!(east, west, "+180 and -180");
        }
    }
    ask.met("position", &[0, 12]);
}

/// The largest image of an overview: 999 × 999 tiles, its index, windows and a whole row.
#[test]
fn largest_image() {
    let mut random = seeded("largest_image");
    let mut ask = Ask::default();
    let series = Series { scale: 10_000, factor: 10, zone: 3 };
    let card = card(series, &all_chart(900, -300, 999, 999, true));
    let sheet = Sheet { series, card: &card };
    let total = 999 * 999;
    let index = good_index(&mut random, total, total - 1);
    let tiles = Tiles { index: &index, count: total as u64 - 1 };
    let _ = ask.index_check(&sheet, tiles, total);
    let _ = ask.window(&sheet, tiles, Window { top: 0, left: 0, height: 999, width: 999 });
    let list: Vec<Pixel> =
        (-2..127_874).step_by(3).map(|column| Pixel { row: 127_871, column }).collect();
    positions(&mut ask, &sheet, &list, list.len(), list.len());
    for pair in PAIRS {
        let there: Vec<Position> =
            list.iter().map(|pixel| or_zero(sheet.position_in(pair, *pixel))).collect();
        pixels(&mut ask, &sheet, &there, list.len(), list.len());
    }
    ask.met("index_check", &[0]);
    ask.met("window", &[0]);
    ask.met("listed positions", &[0, 12]);
}
