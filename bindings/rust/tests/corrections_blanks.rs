//! The questions on corrections, put to padded cards: as on the cards without blanks, with the
//! total, and no total in a refusal (02, E1 and E2).

use crate::support;
use fordcask::{Corrections, OnCard, Pixel, Refusal, Series, Source, Tiles, TILE_LENGTH};
use support::ask_corrections::look_ups;
use support::blanks::Twins;
use support::corrections::{any_held, store_bytes, store_of, Image};
use support::index::any_window;
use support::make::{all_chart, chart, overview, pixel, town_chart, town_overview, Maker};
use support::{seeded, Ask};

const MAKERS: [Maker; 4] = [chart, town_chart, overview, town_overview];
const QUESTIONS: [&str; 4] =
    ["corrected_tile", "corrected_bands", "corrected_window", "set_correction"];

/// Small images with lists and stores good and wrong.
#[test]
fn twins() {
    let mut random = seeded("twins");
    let mut ask = Ask::default();
    let bytes = store_bytes(&mut random, 13);
    for round in 0..30_000 {
        let held = any_held(&mut random, MAKERS[round % 4], 3);
        let twins = Twins::of(&mut random, held.series, &held.record);
        let store = store_of(&mut random, &bytes, held.count);
        let second = store_of(&mut random, &bytes, held.corrected);
        let lent = held.with(store, second);
        let pixel = pixel(&mut random, &held.record);
        let _ = twins.same(|sheet| ask.corrected_tile(&Image { sheet: *sheet, ..lent }, pixel));
        let _ = twins.same(|sheet| ask.corrected_bands(&Image { sheet: *sheet, ..lent }, pixel));
        let window = any_window(&mut random, &held.record);
        let _ = twins.same(|sheet| ask.corrected_window(&Image { sheet: *sheet, ..lent }, window));
        let tile = random.below(held.tiles() + 1) as u64;
        let number = random.below(held.corrected.min(9) as usize + 2) as u64;
        let _ = twins.same(|sheet| {
            let mut list = held.list.clone();
            ask.set_correction(sheet, &mut list, held.corrected, tile, number)
        });
    }
    ask.met("corrected_tile", &[0, 6, 12, 13, 14, 15]);
    ask.met("corrected_bands", &[0, 6, 12, 13, 14, 15]);
    ask.met("corrected_window", &[0, 6, 12, 15]);
    ask.met("set_correction", &[0, 6, 12, 15]);
    for question in QUESTIONS {
        ask.met_totals(question, 0..=27);
    }
}

/// One padded image: the total is told from either store, and beside a set entry.
#[test]
fn one_image() {
    let mut random = seeded("one_image");
    let series = Series::chart(1_000_000, 1);
    let record = all_chart(100, -20, 1, 2, true);
    let (store, second) = ([3; TILE_LENGTH], [4; TILE_LENGTH]);
    for _ in 0..200 {
        let twins = Twins::of(&mut random, series, &record);
        let [_, sheet] = twins.sheets();
        let image = Image {
            sheet,
            tiles: Tiles { index: &[1, 0], count: 1 },
            store: &store,
            corrections: Corrections { list: &[0, 1], count: 1 },
            second: &second,
        };
        let right = [(Source::Base, 3), (Source::Corrections, 4)];
        for (column, (source, value)) in [0, 128].into_iter().zip(right) {
            let (tile, values) = look_ups(&image, Pixel { row: 0, column });
            let tile = tile.map(|told| (told.value.source, told.blanks));
            assert_eq!(tile, Ok((source, twins.put)));
            let values = values.map(|told| (told.value.red, told.blanks));
            assert_eq!(values, Ok((value, twins.put)));
        }
        let mut list = [0, 1];
        let set = sheet.set_correction(&mut list, 1, 0, 1);
        assert_eq!((set, list), (Ok(OnCard { value: (), blanks: twins.put }), [1, 1]));
        let refused = Err(Refusal { number: 15, at: 1 });
        assert_eq!(sheet.set_correction(&mut list, 1, 1, 2), refused);
    }
}
