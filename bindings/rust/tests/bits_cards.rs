//! The questions on presence bits, put to damaged cards: reading's refusals come first, and the
//! buffers stay (02, E7).

use crate::{bits_support, rule, support};
use bits_support::{right_bits, stray, BitHeld};
use fordcask::{Pixel, Refusal, Series, Sheet, Window};
use support::blanks::pad_some;
use support::corrections::{store_bytes, Held};
use support::damage::{blank_damage, change_some};
use support::make::{all_chart, card, changes_of, chart, overview, pixel, town_chart, Maker};
use support::make::{BAD_FACTORS, BAD_SCALES, BAD_ZONES};
use support::{seeded, Ask, WORKED, WORKED_SERIES};

const MAKERS: [Maker; 3] = [chart, town_chart, overview];
const LOOK_UPS: [&str; 4] =
    ["bits_tile", "bits_bands", "corrected_bits_tile", "corrected_bits_bands"];

/// Puts all questions to another card with the bits and lists of an image.
fn ask_all(ask: &mut Ask, sheet: &Sheet, image: &BitHeld, bytes: &[u8], pixel: Pixel) {
    let lent = image.lent(bytes).on(sheet);
    ask.all_look_ups(&lent, pixel);
    let (nfl, width) = (image.held.record.nfl, image.held.record.nfc);
    for height in [nfl, nfl + 1] {
        ask.all_windows(&lent, Window { top: 0, left: 0, height, width });
    }
    let mut words = vec![77; image.words.len()];
    let mut index = vec![77; image.held.index.len()];
    let _ = ask.to_bits(sheet, &image.held.index, &mut words);
    let _ = ask.to_list(sheet, &image.words, &mut index);
    if rule::read(sheet.series, sheet.card).is_err() {
        assert!(words.iter().all(|word| *word == 77), "the words of a refused card stay");
        assert!(index.iter().all(|entry| *entry == 77), "the index of a refused card stays");
    }
}

/// Two tiles, one corrected and one stored; with N both are stored.
fn two_tiles(series: Series, tif: bool) -> BitHeld {
    let record = all_chart(100, -20, 2, 1, tif);
    let card = card(series, &record);
    let (index, words, count) =
        if tif { (vec![0, 1], vec![0b10], 1) } else { (Vec::new(), Vec::new(), 2) };
    let held = Held { series, record, card, index, count, list: vec![1, 0], corrected: 1 };
    BitHeld { held, words }
}

/// Every second one-byte change of the worked card, and of one with an index.
#[test]
fn one_byte_changes() {
    let mut random = seeded("one_byte_changes");
    let mut ask = Ask::default();
    let bytes = store_bytes(&mut random, 4);
    let worked = two_tiles(WORKED_SERIES, false);
    assert_eq!(worked.held.card, WORKED);
    for image in [worked, two_tiles(Series { scale: 5_000, factor: 2, zone: 8 }, true)] {
        for card in changes_of(&image.held.card).step_by(2) {
            let pixel = Pixel { row: random.between(-2, 258), column: random.between(-2, 130) };
            let sheet = Sheet { series: image.held.series, card: &card };
            ask_all(&mut ask, &sheet, &image, &bytes, pixel);
        }
    }
    let reading = [0, 6, 7, 8, 9, 10, 11];
    for question in ["corrected_bits_tile", "corrected_bits_bands"] {
        ask.met(question, &[&reading[..], &[12, 13]].concat());
    }
    for question in ["bits_tile", "bits_bands"] {
        ask.met(question, &[&reading[..], &[12, 13, 14]].concat());
    }
    for question in ["bits_window", "corrected_bits_window"] {
        ask.met(question, &[&reading[..], &[12]].concat());
    }
    ask.met("to_bits", &reading);
    ask.met("to_list", &reading);
}

/// Several subfields wrong at once, with scale, factor and zone good or refused.
#[test]
fn damaged_cards() {
    let mut random = seeded("damaged_cards");
    let mut ask = Ask::default();
    let bytes = store_bytes(&mut random, 190);
    for round in 0..40_000 {
        let mut image = right_bits(&mut random, MAKERS[round % 3]);
        let tiles = image.held.tiles();
        match random.below(12) {
            0 => stray(&mut random, &mut image.words, tiles),
            1 => image.held.index.reverse(),
            _ => (),
        }
        let (mut series, mut card) = (image.held.series, image.held.card.clone());
        let pixel = pixel(&mut random, &image.held.record);
        match random.below(4) {
            0 => change_some(&mut random, &mut card),
            1 => blank_damage(&mut random, &mut card),
            2 => drop(pad_some(&mut random, &mut card)),
            _ => (),
        }
        match random.below(24) {
            0 => series.scale = random.pick(&BAD_SCALES),
            1 => series.factor = random.pick(&BAD_FACTORS),
            2 => series.zone = random.pick(&BAD_ZONES),
            3 => series.zone = random.pick(&[9, 18]),
            4 => card.truncate(random.below(98)),
            _ => (),
        }
        ask_all(&mut ask, &Sheet { series, card: &card }, &image, &bytes, pixel);
    }
    let reading = [0, 1, 2, 3, 6, 7, 8, 9, 10, 11];
    for question in LOOK_UPS {
        ask.met(question, &[&reading[..], &[12, 13, 14, 15, 17, 21]].concat());
    }
    for question in ["bits_window", "corrected_bits_window"] {
        ask.met(question, &[&reading[..], &[12, 15, 17, 21]].concat());
    }
    ask.met("to_bits", &[&reading[..], &[17, 20]].concat());
    ask.met("to_list", &[&reading[..], &[17, 21]].concat());
}

/// A refused card: its refusal, whatever else is wrong, and the buffers stay.
#[test]
fn buffers_stay() {
    let sheet = Sheet { series: Series { zone: 9, ..WORKED_SERIES }, card: WORKED };
    let refused = Err(Refusal { number: 3, at: 0 });
    for (entries, length) in [(0, 0), (2, 0), (0, 1), (2, 1), (3, 2)] {
        for entry in [0, 1, u32::MAX] {
            let mut words = vec![7; length];
            let found = sheet.to_bits(&vec![entry; entries], &mut words);
            assert_eq!((found, words), (refused, vec![7; length]));
            let mut index = vec![7; entries];
            let found = sheet.to_list(&vec![entry.into(); length], &mut index);
            assert_eq!((found, index), (refused, vec![7; entries]));
        }
    }
}
