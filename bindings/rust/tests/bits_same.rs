//! Every answer from presence bits is the one from the list; the library is compared with itself
//! (02, E7).

use crate::{bits_support, support};
use bits_support::{right_bits, sized, BitHeld};
use fordcask::{Bits, Refusal, Sheet, Tiles};
use support::corrections::{every_window, pixel_of_each, store_bytes, store_of};
use support::index::any_window;
use support::make::{card, chart, overview, pixel, town_chart, Maker};
use support::{no_blanks, seeded, Ask};

const MAKERS: [Maker; 3] = [chart, town_chart, overview];
const LOOK_UPS: [&str; 5] = [
    "stored of both",
    "tile of both",
    "bands of both",
    "corrected tile of both",
    "corrected bands of both",
];
const WINDOWS: [&str; 2] = ["window of both", "corrected window of both"];

/// The numbers met by each look-up, and by each window question.
fn met(ask: &Ask, look_ups: &[u32], windows: &[u32]) {
    for question in LOOK_UPS {
        ask.met(question, look_ups);
    }
    for question in WINDOWS {
        ask.met(question, windows);
    }
}

/// The words that the library makes of the list.
fn converted(image: &mut BitHeld) {
    let mut words = vec![u64::MAX; image.words.len()];
    let made = image.held.sheet().to_bits(&image.held.index, &mut words);
    assert_eq!(made, Ok(no_blanks(())), "{:?}", image.held.index);
    image.words = words;
}

/// A pixel of each tile, and windows, where the lengths are right.
#[test]
fn right_lengths() {
    let mut random = seeded("right_lengths");
    let mut ask = Ask::default();
    let bytes = store_bytes(&mut random, 190);
    for round in 0..1_500 {
        let mut image = right_bits(&mut random, MAKERS[round % 3]);
        converted(&mut image);
        let (lent, list) = (image.lent(&bytes), image.held.lent(&bytes));
        for pixel in pixel_of_each(&mut random, &image.held.record) {
            ask.look_ups_as_list(&lent, &list, pixel);
        }
        let step = 1 + image.held.tiles() / 10;
        for window in every_window(&image.held.record).into_iter().step_by(step) {
            ask.windows_as_list(&lent, &list, window);
        }
    }
    met(&ask, &[0, 13, 14, 15], &[0, 15]);
}

/// A wrong count, list or store is 6 in both forms; so is a wrong number of words or entries.
#[test]
fn wrong_lengths() {
    let mut random = seeded("wrong_lengths");
    let mut ask = Ask::default();
    let bytes = store_bytes(&mut random, 131);
    for round in 0..80_000 {
        let mut image = right_bits(&mut random, MAKERS[round % 3]);
        let tiles = image.held.tiles();
        match random.below(12) {
            0 => image.held.count = random.pick(&[u64::MAX, 1 << 63, 1 << 32, tiles as u64 + 1]),
            1 => image.held.count = random.below(tiles + 1) as u64,
            2 => image.held.corrected = random.pick(&[u64::MAX, 1 << 32, tiles as u64 + 1]),
            3 => image.held.list.push(0),
            4 => drop(image.held.list.pop()),
            5 => {
                image.words.push(0);
                image.held.index.push(0);
            }
            6 if image.held.record.tif => {
                image.words.pop();
                image.held.index.pop();
            }
            _ => (),
        }
        let store = store_of(&mut random, &bytes, image.held.count);
        let second = store_of(&mut random, &bytes, image.held.corrected);
        let (lent, list) = (image.with(store, second), image.held.with(store, second));
        for _ in 0..3 {
            ask.look_ups_as_list(&lent, &list, pixel(&mut random, &image.held.record));
            ask.windows_as_list(&lent, &list, any_window(&mut random, &image.held.record));
        }
    }
    met(&ask, &[0, 6, 12, 13, 14, 15], &[0, 6, 12, 15]);
}

/// The list that the library makes of the bits answers as the bits do.
#[test]
fn of_the_bits() {
    let mut random = seeded("of_the_bits");
    let mut ask = Ask::default();
    let bytes = store_bytes(&mut random, 190);
    for round in 0..1_500 {
        let mut image = right_bits(&mut random, MAKERS[round % 3]);
        let mut index = vec![7; image.held.index.len()];
        let made = image.held.sheet().to_list(&image.words, &mut index);
        assert_eq!(made, Ok(no_blanks(())), "{:x?}", image.words);
        image.held.index = index;
        let (lent, list) = (image.lent(&bytes), image.held.lent(&bytes));
        for pixel in pixel_of_each(&mut random, &image.held.record) {
            ask.look_ups_as_list(&lent, &list, pixel);
        }
        for _ in 0..20 {
            ask.windows_as_list(&lent, &list, any_window(&mut random, &image.held.record));
        }
    }
    met(&ask, &[0, 13, 14, 15], &[0, 12, 15]);
}

/// With N the bits are none and all tiles are stored in reading order, as with the empty list.
#[test]
fn with_n() {
    let mut random = seeded("with_n");
    let bytes = store_bytes(&mut random, 130);
    for round in 0..300 {
        let (series, record) = sized(&mut random, MAKERS[round % 3], false);
        let card = card(series, &record);
        let sheet = Sheet { series, card: &card };
        let tiles = record.nfl * record.nfc;
        let store = &bytes[..tiles as usize * 49_152];
        let bits = Bits { words: &[], count: tiles };
        let list = Tiles { index: &[], count: tiles };
        for (tile, pixel) in pixel_of_each(&mut random, &record).into_iter().enumerate() {
            let found = sheet.bits_stored(bits, store, pixel);
            assert_eq!(found, sheet.stored(list, store, pixel), "{pixel:?}");
            match found {
                Ok(told) => assert_eq!(told, no_blanks(tile as u64 + 1), "{pixel:?}"),
                Err(refusal) => assert_eq!(refusal, Refusal { number: 13, at: 0 }, "{pixel:?}"),
            }
        }
        for window in every_window(&record).into_iter().step_by(1 + tiles as usize / 8) {
            assert_eq!(sheet.bits_window(bits, window), Ok(no_blanks(None)), "{window:?}");
        }
        assert_eq!(sheet.to_bits(&[], &mut []), Ok(no_blanks(())));
        assert_eq!(sheet.to_list(&[], &mut []), Ok(no_blanks(())));
    }
}
