//! Look-up and bands, corrected first, over lists and stores of every kind, compared with the rule
//! (02, E1).

use crate::support;
use fordcask::{Corrections, Pixel, Series, Sheet, Source, Tiles, TILE_LENGTH};
use support::corrections::{any_held, pixel_of_each, store_bytes, store_of, Image};
use support::make::{all_chart, card, chart, overview, pixel, town_chart, Maker};
use support::{seeded, Ask, SIGNED_ENDS};

/// Pixels of small images, with lists and stores good and wrong.
fn random_look_ups(test: &str, rounds: u32, maker: Maker) {
    let mut random = seeded(test);
    let mut ask = Ask::default();
    let bytes = store_bytes(&mut random, 13);
    let mut from = [0, 0];
    for _ in 0..rounds {
        let held = any_held(&mut random, maker, 3);
        let store = store_of(&mut random, &bytes, held.count);
        let second = store_of(&mut random, &bytes, held.corrected);
        let image = held.with(store, second);
        for _ in 0..4 {
            let mut pixel = pixel(&mut random, &held.record);
            if random.once_in(32) {
                pixel.row = random.pick(&SIGNED_ENDS);
            }
            let found = ask.corrected_tile(&image, pixel);
            let _ = ask.corrected_bands(&image, pixel);
            if let Ok(told) = found {
                from[usize::from(told.value.source == Source::Corrections)] += 1;
            }
        }
    }
    let least = rounds / 5;
    assert!(from[0] > least && from[1] > least, "{from:?} from the two stores");
    ask.met("corrected_tile", &[0, 6, 12, 13, 14, 15]);
    ask.met("corrected_bands", &[0, 6, 12, 13, 14, 15]);
}

#[test]
fn charts() {
    random_look_ups("charts", 100_000, chart);
}

#[test]
fn town_charts() {
    random_look_ups("town_charts", 40_000, town_chart);
}

#[test]
fn overviews() {
    random_look_ups("overviews", 40_000, overview);
}

/// Every index and list of two tiles with some entries, every count, a pixel of each tile.
#[test]
fn every_small_list() {
    let mut random = seeded("every_small_list");
    let mut ask = Ask::default();
    let bytes = store_bytes(&mut random, 4);
    let entries = [0, 1, 2, 3, u32::MAX];
    let lists: Vec<[u32; 2]> = (0..25).map(|code| [entries[code % 5], entries[code / 5]]).collect();
    let series = Series::chart(1_000_000, 1);
    let with_index = lists.iter().flat_map(|index| [0, 1, 2].map(|k| (true, &index[..], k)));
    for (tif, index, count) in with_index.chain([(false, &[][..], 2)]) {
        let card = card(series, &all_chart(9, 9, 1, 2, tif));
        let sheet = Sheet { series, card: &card };
        let tiles = Tiles { index, count };
        for (list, corrected) in lists.iter().flat_map(|list| [0, 1, 2].map(|k| (list, k))) {
            let corrections = Corrections { list, count: corrected };
            let store = &bytes[..count as usize * TILE_LENGTH];
            let second = &bytes[(4 - corrected as usize) * TILE_LENGTH..];
            let image = Image { sheet, tiles, store, corrections, second };
            for column in [127, 128] {
                let _ = ask.corrected_tile(&image, Pixel { row: 127, column });
                let _ = ask.corrected_bands(&image, Pixel { row: 127, column });
            }
        }
    }
    ask.met("corrected_tile", &[0, 14, 15]);
    ask.met("corrected_bands", &[0, 14, 15]);
}

/// A border of two rows and columns round every edge of tiles, chart and image.
#[test]
fn every_edge() {
    let mut random = seeded("every_edge");
    let mut ask = Ask::default();
    let bytes = store_bytes(&mut random, 12);
    for tif in [true, false] {
        let mut record = all_chart(9, -3, 3, 2, tif);
        (record.nul, record.nll, record.nls, record.nus) = (3, 380, 130, 250);
        let series = Series { scale: 50_000, factor: 4, zone: 12 };
        let card = card(series, &record);
        let index = [2, 0, 1, 9, 3, 1];
        let tiles = match tif {
            true => Tiles { index: &index, count: 3 },
            false => Tiles { index: &[], count: 6 },
        };
        let image = Image {
            sheet: Sheet { series, card: &card },
            tiles,
            store: &bytes[..tiles.count as usize * TILE_LENGTH],
            corrections: Corrections { list: &[0, 0, 2, 3, 1, 0], count: 2 },
            second: &bytes[10 * TILE_LENGTH..],
        };
        let near = |edges: &[i64]| -> Vec<i64> {
            edges.iter().flat_map(|edge| edge - 2..=edge + 2).collect()
        };
        for row in near(&[0, 3, 128, 256, 380, 384]) {
            for column in near(&[0, 128, 130, 250, 256]) {
                let pixel = Pixel { row, column };
                let _ = ask.corrected_tile(&image, pixel);
                let _ = ask.corrected_bands(&image, pixel);
            }
        }
        for (row, column) in SIGNED_ENDS.into_iter().flat_map(|x| [(x, 131), (4, x), (x, x)]) {
            let _ = ask.corrected_tile(&image, Pixel { row, column });
            let _ = ask.corrected_bands(&image, Pixel { row, column });
        }
    }
    ask.met("corrected_tile", &[0, 12, 13, 14, 15]);
    ask.met("corrected_bands", &[0, 12, 13, 14, 15]);
}

/// Every pixel of one tile of each store: the values are its own bytes.
#[test]
fn every_pixel() {
    let mut random = seeded("every_pixel");
    let mut ask = Ask::default();
    let bytes = store_bytes(&mut random, 5);
    let series = Series::chart(1_000_000, 1);
    let card = card(series, &all_chart(100, -20, 1, 2, false));
    let image = Image {
        sheet: Sheet { series, card: &card },
        tiles: Tiles { index: &[], count: 2 },
        store: &bytes[..2 * TILE_LENGTH],
        corrections: Corrections { list: &[0, 2], count: 2 },
        second: &bytes[3 * TILE_LENGTH..],
    };
    for row in 0..128 {
        for column in 0..256 {
            let found = ask.corrected_bands(&image, Pixel { row, column }).expect("values").value;
            // the first tile of the base, the second of the corrections, the last in the bytes
            let tile = &bytes[if column < 128 { 0 } else { 4 * TILE_LENGTH }..];
            let at = (128 * row + column % 128) as usize;
            let right = [tile[at], tile[at + 16_384], tile[at + 32_768]];
            assert_eq!([found.red, found.green, found.blue], right, "{row} {column}");
        }
    }
    ask.met("corrected_bands", &[0]);
}

/// One list lent as both lists, and one store as both stores: corrected first.
#[test]
fn lent_twice() {
    let mut random = seeded("lent_twice");
    let mut ask = Ask::default();
    let bytes = store_bytes(&mut random, 10);
    let mut twice = 0;
    for _ in 0..2_000 {
        let mut held = any_held(&mut random, chart, 3);
        (held.list, held.corrected) = (held.index.clone(), held.count);
        let length = held.count.min(9) as usize * TILE_LENGTH;
        let mut image = held.with(&bytes[..length], &bytes[..length]);
        image.corrections.list = image.tiles.index;
        for pixel in pixel_of_each(&mut random, &held.record) {
            let _ = ask.corrected_bands(&image, pixel);
            if let Ok(told) = ask.corrected_tile(&image, pixel) {
                assert_eq!(told.value.source, Source::Corrections, "corrected first");
                twice += 1;
            }
        }
    }
    assert!(twice > 500, "{twice} tiles in both");
    ask.met("corrected_tile", &[0, 6, 13, 14, 15]);
}
