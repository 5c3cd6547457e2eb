//! Look-up and bands from presence bits, with corrections and without, over words, counts, lists
//! and stores of every kind, compared with the rule (02, E7).

use crate::{bits_support, support};
use bits_support::{any_bits, right_bits, words_of, BitImage};
use fordcask::{Bits, Corrections, Pixel, Series, Sheet, TILE_LENGTH};
use support::corrections::{pixel_of_each, store_bytes, store_of};
use support::make::{all_chart, card, chart, overview, pixel, town_chart, Maker};
use support::{seeded, Ask, SIGNED_ENDS};

const NUMBERS: [u32; 7] = [0, 6, 12, 13, 14, 15, 21];
const QUESTIONS: [&str; 5] =
    ["bits_tile", "bits_stored", "bits_bands", "corrected_bits_tile", "corrected_bits_bands"];

/// Pixels of images of one to three words, with everything good and wrong.
fn random_look_ups(test: &str, rounds: u32, maker: Maker) {
    let mut random = seeded(test);
    let mut ask = Ask::default();
    let bytes = store_bytes(&mut random, 131);
    for _ in 0..rounds {
        let image = any_bits(&mut random, maker);
        let store = store_of(&mut random, &bytes, image.held.count);
        let second = store_of(&mut random, &bytes, image.held.corrected);
        let lent = image.with(store, second);
        for _ in 0..4 {
            let mut pixel = pixel(&mut random, &image.held.record);
            if random.once_in(32) {
                pixel.row = random.pick(&SIGNED_ENDS);
            }
            ask.all_look_ups(&lent, pixel);
        }
    }
    for question in QUESTIONS {
        ask.met(question, &NUMBERS);
        ask.met_at(question, 21, &[0]);
    }
}

#[test]
fn charts() {
    random_look_ups("charts", 90_000, chart);
}

#[test]
fn town_charts() {
    random_look_ups("town_charts", 35_000, town_chart);
}

#[test]
fn overviews() {
    random_look_ups("overviews", 35_000, overview);
}

/// A pixel of each tile, where only tiles and counts refuse.
#[test]
fn each_tile() {
    let mut random = seeded("each_tile");
    let mut ask = Ask::default();
    let bytes = store_bytes(&mut random, 190);
    for round in 0..2_000 {
        let image = right_bits(&mut random, [chart, town_chart, overview][round % 3]);
        let lent = image.lent(&bytes);
        for pixel in pixel_of_each(&mut random, &image.held.record) {
            ask.all_look_ups(&lent, pixel);
        }
    }
    for question in QUESTIONS {
        ask.met(question, &[0, 13, 14, 15]);
    }
}

/// Every word of three tiles and one bit more, every count, every list of some corrections.
#[test]
fn every_small_word() {
    let mut random = seeded("every_small_word");
    let mut ask = Ask::default();
    let bytes = store_bytes(&mut random, 6);
    let series = Series::chart(1_000_000, 1);
    for tif in [true, false] {
        let card = card(series, &all_chart(9, 9, 1, 3, tif));
        let sheet = Sheet { series, card: &card };
        for (word, count) in (0..16).flat_map(|word| (0..4).map(move |count| (word, count))) {
            let words = if tif { vec![word] } else { Vec::new() };
            let store = &bytes[..count as usize * TILE_LENGTH];
            for code in 0..64 {
                let list = [code % 4, code / 4 % 4, code / 16];
                for corrected in [0, 1, 2] {
                    let image = BitImage {
                        sheet,
                        bits: Bits { words: &words, count },
                        store,
                        corrections: Corrections { list: &list, count: corrected },
                        second: &bytes[(6 - corrected as usize) * TILE_LENGTH..],
                    };
                    for column in [127, 128, 383] {
                        ask.all_look_ups(&image, Pixel { row: 127, column });
                    }
                }
            }
        }
    }
    for question in QUESTIONS {
        ask.met(question, &[0, 6, 14, 15, 21]);
    }
}

/// A border of two rows and columns round every edge of tiles, chart and image.
#[test]
fn every_edge() {
    let mut random = seeded("every_edge");
    let mut ask = Ask::default();
    let bytes = store_bytes(&mut random, 72);
    for tif in [true, false] {
        let mut record = all_chart(9, -3, 5, 14, tif);
        (record.nul, record.nll, record.nls, record.nus) = (3, 638, 130, 1_700);
        let series = Series { scale: 50_000, factor: 4, zone: 12 };
        let card = card(series, &record);
        let present: Vec<bool> = (0..70).map(|tile| tile % 3 != 1).collect();
        let words = if tif { words_of(&present) } else { Vec::new() };
        let count = if tif { 40 } else { 70 };
        let list: Vec<u32> = (0..70).map(|tile| tile % 4).collect();
        let image = BitImage {
            sheet: Sheet { series, card: &card },
            bits: Bits { words: &words, count },
            store: &bytes[..count as usize * TILE_LENGTH],
            corrections: Corrections { list: &list, count: 2 },
            second: &bytes[70 * TILE_LENGTH..],
        };
        let near = |edges: &[i64]| -> Vec<i64> {
            edges.iter().flat_map(|edge| edge - 2..=edge + 2).collect()
        };
        for row in near(&[0, 3, 128, 256, 384, 512, 638, 640]) {
            for column in near(&[0, 128, 130, 256, 640, 1_664, 1_700, 1_792]) {
                ask.all_look_ups(&image, Pixel { row, column });
            }
        }
        for (row, column) in SIGNED_ENDS.into_iter().flat_map(|x| [(x, 131), (4, x), (x, x)]) {
            ask.all_look_ups(&image, Pixel { row, column });
        }
    }
    for question in QUESTIONS {
        ask.met(question, &[0, 12, 13, 14, 15]);
    }
}
