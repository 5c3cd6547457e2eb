//! The C answers of the questions in both pairs, field by field: all but number and place is 0 in a
//! refusal, the total of blanks too (02, E2 and E8).

use crate::{rule, support};
use fordcask::{raw, OnCard, Pair, Pixel, Place, Position, Refusal, Sheet};
use support::blanks::pad_some;
use support::damage::change_some;
use support::make::{card, chart, overview, pixel, record, town_chart, Maker};
use support::{or_zero, seeded, Random, PAIRS};

fn raw_position(pair: Pair, sheet: &Sheet, pixel: Pixel) -> raw::Position {
    let ask = match pair {
        Pair::Corner => raw::fordcask_corner_position,
        Pair::Centre => raw::fordcask_position,
    };
    // SAFETY: the pointer and length are those of one slice.
    unsafe { ask(sheet.series, sheet.card.as_ptr(), sheet.card.len(), pixel.row, pixel.column) }
}

fn raw_pixel(pair: Pair, sheet: &Sheet, position: Position) -> raw::Pixel {
    let ask = match pair {
        Pair::Corner => raw::fordcask_corner_pixel,
        Pair::Centre => raw::fordcask_pixel,
    };
    // SAFETY: the pointer and length are those of one slice.
    unsafe { ask(sheet.series, sheet.card.as_ptr(), sheet.card.len(), position.lat, position.lon) }
}

/// Number, place, value and total of an answer; the value is 0, 0 and the total 0 in a refusal.
fn fields<T>(answer: Result<OnCard<T>, Refusal>, zero: T) -> (u32, u64, T, u64) {
    match answer {
        Ok(OnCard { value, blanks }) => (0, 0, value, blanks),
        Err(refusal) => (refusal.number, refusal.at, zero, 0),
    }
}

/// What was met: of a pair, a number, and whether blanks were told.
type Met = (Pair, u32, bool);

/// The place, field by field as the rule says.
fn ask_place(sheet: &Sheet, pixel: Pixel) {
    let right = rule::read(sheet.series, sheet.card).and_then(|card| rule::place(&card, pixel));
    let (number, at, Place { row, column }, blanks) = fields(right, Place { row: 0, column: 0 });
    let (c, length) = (sheet.card.as_ptr(), sheet.card.len());
    // SAFETY: the pointer and length are those of one slice.
    let found = unsafe { raw::fordcask_place(sheet.series, c, length, pixel.row, pixel.column) };
    assert_eq!(found, raw::Place { number, at, row, column, blanks }, "{sheet:?} {pixel:?}");
}

/// Both questions in both pairs, each field as the rule says.
fn ask_fields(sheet: &Sheet, pixel: Pixel, position: Position, met: &mut Vec<Met>) {
    let card = rule::read(sheet.series, sheet.card);
    for pair in PAIRS {
        let right = card.and_then(|card| rule::position(pair, &card, pixel));
        let (number, at, Position { lat, lon }, blanks) = fields(right, Position::default());
        let right = raw::Position { number, at, lat, lon, blanks };
        assert_eq!(raw_position(pair, sheet, pixel), right, "{pair:?} {sheet:?} {pixel:?}");
        let right = card.and_then(|card| rule::pixel(pair, &card, position));
        let (number, at, Pixel { row, column }, blanks) = fields(right, Pixel::default());
        let right = raw::Pixel { number, at, row, column, blanks };
        assert_eq!(raw_pixel(pair, sheet, position), right, "{pair:?} {sheet:?}");
        let case = (pair, number, blanks > 0);
        if !met.contains(&case) {
            met.push(case);
        }
    }
    ask_place(sheet, pixel);
}

/// A position near a pixel's, or at an end of the ranges.
fn some_position(random: &mut Random, near: Position) -> Position {
    let lat = near.lat + random.between(-900, 900);
    let lon = near.lon + random.between(-900, 900);
    let far = [32_400_000, 32_400_001, -32_400_000, -32_400_001, i64::MIN, i64::MAX];
    let wide = [64_800_000, 64_800_001, -64_800_000, -64_800_001, i64::MIN, i64::MAX];
    match random.below(8) {
        0 => Position { lat: random.pick(&far), lon },
        1 => Position { lat, lon: random.pick(&wide) },
        _ => Position { lat, lon },
    }
}

/// Random cards of every kind, some damaged, some padded.
#[test]
fn every_field() {
    let mut random = seeded("every_field");
    let makers: [Maker; 3] = [chart, town_chart, overview];
    let mut met = Vec::new();
    for round in 0..60_000 {
        let series = makers[round % 3](&mut random);
        let record = record(&mut random, series, 3);
        let good = card(series, &record);
        let asked = pixel(&mut random, &record);
        let pair = random.pick(&PAIRS);
        let near = or_zero(Sheet { series, card: &good }.position_in(pair, asked));
        let position = some_position(&mut random, near);
        let mut bytes = good.clone();
        if random.once_in(2) {
            pad_some(&mut random, &mut bytes);
        }
        if random.once_in(6) {
            change_some(&mut random, &mut bytes);
        }
        ask_fields(&Sheet { series, card: &bytes }, asked, position, &mut met);
    }
    for pair in PAIRS {
        let mut cases: Vec<(u32, bool)> =
            met.iter().filter(|case| case.0 == pair).map(|case| (case.1, case.2)).collect();
        cases.sort_unstable();
        assert_eq!(cases[..2], [(0, false), (0, true)], "{pair:?}");
        let refused = [4, 5, 7, 8, 9, 10, 11, 12, 13].map(|number| (number, false));
        assert_eq!(cases[2..], refused, "{pair:?}");
    }
}
