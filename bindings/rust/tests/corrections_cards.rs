//! The questions on corrections, put to damaged cards: reading's refusals come first, and the list
//! stays (02, E1).

use crate::{rule, support};
use fordcask::{Pixel, Refusal, Series, Sheet, Window};
use support::blanks::pad_some;
use support::corrections::{right_held, store_bytes, Held, Image};
use support::damage::{blank_damage, change_some};
use support::make::{all_chart, card, changes_of, chart, overview, pixel, town_chart, Maker};
use support::make::{BAD_FACTORS, BAD_SCALES, BAD_ZONES};
use support::{seeded, Ask, WORKED, WORKED_SERIES};

const MAKERS: [Maker; 3] = [chart, town_chart, overview];

/// Puts the four questions to another card with the lists of an image.
fn ask_four(ask: &mut Ask, sheet: &Sheet, held: &Held, bytes: &[u8], pixel: Pixel) {
    let image = Image { sheet: *sheet, ..held.lent(bytes) };
    let _ = ask.corrected_tile(&image, pixel);
    let _ = ask.corrected_bands(&image, pixel);
    let (nfl, width) = (held.record.nfl, held.record.nfc);
    for height in [nfl, nfl + 1] {
        let _ = ask.corrected_window(&image, Window { top: 0, left: 0, height, width });
    }
    let mut list = held.list.clone();
    let _ = ask.set_correction(sheet, &mut list, held.corrected, 0, held.corrected);
    if rule::read(sheet.series, sheet.card).is_err() {
        assert_eq!(list, held.list, "the list of a refused card stays");
    }
}

/// The lists of two tiles, one corrected and one stored; the count of the other is 1 or 2.
fn two_tiles(series: Series, tif: bool) -> Held {
    let record = all_chart(100, -20, 2, 1, tif);
    let card = card(series, &record);
    let (index, count) = if tif { (vec![0, 1], 1) } else { (Vec::new(), 2) };
    Held { series, record, card, index, count, list: vec![1, 0], corrected: 1 }
}

/// Every second one-byte change of the worked card, and of one with an index.
#[test]
fn one_byte_changes() {
    let mut random = seeded("one_byte_changes");
    let mut ask = Ask::default();
    let bytes = store_bytes(&mut random, 4);
    let worked = two_tiles(WORKED_SERIES, false);
    assert_eq!(worked.card, WORKED);
    for held in [worked, two_tiles(Series { scale: 5_000, factor: 2, zone: 8 }, true)] {
        for card in changes_of(&held.card).step_by(2) {
            let pixel = Pixel { row: random.between(-2, 258), column: random.between(-2, 130) };
            let sheet = Sheet { series: held.series, card: &card };
            ask_four(&mut ask, &sheet, &held, &bytes, pixel);
        }
    }
    ask.met("corrected_tile", &[0, 6, 7, 8, 9, 10, 11, 12, 13]);
    ask.met("corrected_bands", &[0, 6, 7, 8, 9, 10, 11, 12, 13]);
    ask.met("corrected_window", &[0, 6, 7, 8, 9, 10, 11, 12]);
    ask.met("set_correction", &[0, 6, 7, 8, 9, 10, 11]);
}

/// Several subfields wrong at once, with scale, factor and zone good or refused.
#[test]
fn damaged_cards() {
    let mut random = seeded("damaged_cards");
    let mut ask = Ask::default();
    let bytes = store_bytes(&mut random, 18);
    for round in 0..40_000 {
        let held = right_held(&mut random, MAKERS[round % 3], 3);
        let (mut series, mut card) = (held.series, held.card.clone());
        let pixel = pixel(&mut random, &held.record);
        match random.below(4) {
            0 => change_some(&mut random, &mut card),
            1 => blank_damage(&mut random, &mut card),
            2 => drop(pad_some(&mut random, &mut card)),
            _ => (),
        }
        match random.below(24) {
            0 => series.scale = random.pick(&BAD_SCALES),
            1 => series.factor = random.pick(&BAD_FACTORS),
            2 => series.zone = random.pick(&BAD_ZONES),
            3 => series.zone = random.pick(&[9, 18]),
            4 => card.truncate(random.below(98)),
            _ => (),
        }
        ask_four(&mut ask, &Sheet { series, card: &card }, &held, &bytes, pixel);
    }
    let reading = [0, 1, 2, 3, 6, 7, 8, 9, 10, 11];
    for question in ["corrected_tile", "corrected_bands"] {
        ask.met(question, &[&reading[..], &[12, 13, 14, 15, 17]].concat());
    }
    ask.met("corrected_window", &[&reading[..], &[12, 15, 17]].concat());
    ask.met("set_correction", &[&reading[..], &[17]].concat());
}

/// A refused card: its refusal, whatever else is wrong, and no entry is set.
#[test]
fn list_stays() {
    let sheet = Sheet { series: Series { zone: 9, ..WORKED_SERIES }, card: WORKED };
    for (length, count) in [(0, 0), (2, 2), (3, u64::MAX)] {
        for (tile, number) in [(0, 0), (1, 1), (2, 0), (u64::MAX, u64::MAX)] {
            let mut list = vec![7; length];
            let set = sheet.set_correction(&mut list, count, tile, number);
            assert_eq!((set, list), (Err(Refusal { number: 3, at: 0 }), vec![7; length]));
        }
    }
}
