//! The questions on presence bits, put to padded cards: as on the cards without blanks, with the
//! total, and no total in a refusal (02, E2 and E7).

use crate::{bits_support, support};
use bits_support::any_bits;
use fordcask::{Bits, Corrections, OnCard, Pixel, Refusal, Series, Source, Window, TILE_LENGTH};
use support::blanks::Twins;
use support::corrections::{store_bytes, store_of};
use support::index::any_window;
use support::make::{all_chart, chart, overview, pixel, town_chart, town_overview, Maker};
use support::{seeded, Ask};

const MAKERS: [Maker; 4] = [chart, town_chart, overview, town_overview];
const LOOK_UPS: [&str; 4] =
    ["bits_tile", "bits_bands", "corrected_bits_tile", "corrected_bits_bands"];
const OTHERS: [&str; 4] = ["bits_window", "corrected_bits_window", "to_bits", "to_list"];

/// Images of one to three words, with everything good and wrong.
#[test]
fn twins() {
    let mut random = seeded("twins");
    let mut ask = Ask::default();
    let bytes = store_bytes(&mut random, 131);
    for round in 0..40_000 {
        let mut image = any_bits(&mut random, MAKERS[round % 4]);
        let twins = Twins::of(&mut random, image.held.series, &image.held.record);
        let store = store_of(&mut random, &bytes, image.held.count);
        let second = store_of(&mut random, &bytes, image.held.corrected);
        let pixel = pixel(&mut random, &image.held.record);
        let window = any_window(&mut random, &image.held.record);
        let lent = image.with(store, second);
        let _ = twins.same(|sheet| ask.bits_tile(&lent.on(sheet), pixel));
        let _ = twins.same(|sheet| ask.bits_bands(&lent.on(sheet), pixel));
        let _ = twins.same(|sheet| ask.bits_window(&lent.on(sheet), window));
        let _ = twins.same(|sheet| ask.corrected_bits_tile(&lent.on(sheet), pixel));
        let _ = twins.same(|sheet| ask.corrected_bits_bands(&lent.on(sheet), pixel));
        let _ = twins.same(|sheet| ask.corrected_bits_window(&lent.on(sheet), window));
        let entries = image.held.index.len();
        let _ = twins.same(|sheet| ask.to_list(sheet, &image.words, &mut vec![7; entries]));
        if random.once_in(4) {
            image.held.index.reverse();
        }
        let (index, words) = (&image.held.index, image.words.len());
        let _ = twins.same(|sheet| ask.to_bits(sheet, index, &mut vec![7; words]));
    }
    for question in LOOK_UPS {
        ask.met(question, &[0, 6, 12, 13, 14, 15, 21]);
    }
    ask.met("bits_window", &[0, 6, 12, 15, 21]);
    ask.met("corrected_bits_window", &[0, 6, 12, 15, 21]);
    ask.met("to_bits", &[0, 6, 20]);
    ask.met("to_list", &[0, 6, 21]);
    for question in LOOK_UPS.into_iter().chain(OTHERS) {
        ask.met_totals(question, 0..=27);
    }
}

/// One padded image: the total is told by every answer, and by no refusal.
#[test]
fn one_image() {
    let mut random = seeded("one_image");
    let series = Series::chart(1_000_000, 1);
    let record = all_chart(100, -20, 1, 2, true);
    let (store, second) = ([3; TILE_LENGTH], [4; TILE_LENGTH]);
    for _ in 0..200 {
        let twins = Twins::of(&mut random, series, &record);
        let [_, sheet] = twins.sheets();
        let bits = Bits { words: &[0b01], count: 1 };
        let corrections = Corrections { list: &[0, 1], count: 1 };
        let told = |value| Ok((value, twins.put));
        let [first, last] = [0, 128].map(|column| Pixel { row: 0, column });
        let found = sheet.bits_stored(bits, &store, first).map(|told| (told.value, told.blanks));
        assert_eq!(found, told(1));
        let missing = Err(Refusal { number: 14, at: 0 });
        assert_eq!(sheet.bits_bands(bits, &store, last), missing);
        for (pixel, source, value) in [(first, Source::Base, 3), (last, Source::Corrections, 4)] {
            let tile = sheet.corrected_bits_tile(bits, &store, corrections, &second, pixel);
            let tile = tile.map(|told| (told.value.source, told.blanks));
            assert_eq!(tile, Ok((source, twins.put)));
            let values = sheet.corrected_bits_bands(bits, &store, corrections, &second, pixel);
            assert_eq!(values.map(|told| (u64::from(told.value.red), told.blanks)), told(value));
        }
        let all = Window { top: 0, left: 0, height: 1, width: 2 };
        let found = sheet.bits_window(bits, all);
        assert_eq!(found, Ok(OnCard { value: Some(1), blanks: twins.put }));
        let found = sheet.corrected_bits_window(bits, corrections, all);
        assert_eq!(found, Ok(OnCard { value: None, blanks: twins.put }));
        let (mut words, mut index) = ([7], [7; 2]);
        let made = sheet.to_bits(&[0, 1], &mut words);
        assert_eq!((made, words), (Ok(OnCard { value: (), blanks: twins.put }), [0b10]));
        let made = sheet.to_list(&[0b10], &mut index);
        assert_eq!((made, index), (Ok(OnCard { value: (), blanks: twins.put }), [0, 1]));
        let order = Err(Refusal { number: 20, at: 0 });
        assert_eq!((sheet.to_bits(&[2, 1], &mut words), words), (order, [0b10]));
        let past = Err(Refusal { number: 21, at: 0 });
        assert_eq!((sheet.to_list(&[0b100], &mut index), index), (past, [0, 1]));
    }
}
