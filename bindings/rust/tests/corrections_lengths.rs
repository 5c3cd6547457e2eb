//! Lengths and counts of all buffers, right and wrong, alone and together: 6, and nothing else is
//! looked at before it (02, E1).

use crate::support;
use fordcask::{Corrections, Pixel, Refusal, Series, Sheet, Tiles, Window, TILE_LENGTH};
use support::corrections::Image;
use support::make::{all_chart, card};
use support::{no_blanks, Ask};

const SIX: Refusal = Refusal { number: 6, at: 0 };
const SERIES: Series = Series::chart(1_000_000, 1);
const PIXEL: Pixel = Pixel { row: 5, column: 130 };
const ALL: Window = Window { top: 0, left: 0, height: 1, width: 2 };

/// Counts round those of two tiles, and some that are small if fewer bits are kept.
const COUNTS: [u64; 8] = [0, 1, 2, 3, (1 << 32) + 1, 1 << 50, 1 << 63, u64::MAX];

/// Lengths of a store at a count: right, one byte off, one tile off, and none.
fn store_lengths(count: u64) -> Vec<usize> {
    let right = count.min(3) as usize * TILE_LENGTH;
    let mut all = vec![0, 1, right, right + 1, right + TILE_LENGTH];
    all.extend([right.saturating_sub(1), right.saturating_sub(TILE_LENGTH)]);
    all.sort_unstable();
    all.dedup();
    all
}

/// Asks all questions that take these lists, at one pixel and for one window.
fn ask_image(ask: &mut Ask, image: &Image) {
    let _ = ask.corrected_tile(image, PIXEL);
    let _ = ask.corrected_bands(image, PIXEL);
    let _ = ask.corrected_window(image, ALL);
}

/// Every length of both lists with every count and every length of both stores.
#[test]
fn together() {
    let mut ask = Ask::default();
    let (bytes, entries) = (vec![5; 4 * TILE_LENGTH + 1], [1; 4]);
    for tif in [true, false] {
        let card = card(SERIES, &all_chart(9, 9, 1, 2, tif));
        let sheet = Sheet { series: SERIES, card: &card };
        for (count, corrected) in COUNTS.into_iter().flat_map(|k| COUNTS.map(|c| (k, c))) {
            for (i, c) in (0..=4).flat_map(|i| (0..=4).map(move |c| (i, c))) {
                let tiles = Tiles { index: &entries[..i], count };
                let corrections = Corrections { list: &entries[..c], count: corrected };
                for store in store_lengths(count).into_iter().map(|length| &bytes[..length]) {
                    for second in store_lengths(corrected).into_iter().map(|end| &bytes[..end]) {
                        ask_image(&mut ask, &Image { sheet, tiles, store, corrections, second });
                    }
                }
            }
        }
    }
    ask.met("corrected_tile", &[0, 6, 15]);
    ask.met("corrected_bands", &[0, 6, 15]);
    ask.met("corrected_window", &[0, 6, 15]);
    ask.met_at("corrected_tile", 6, &[0]);
}

/// One thing wrong in an image that is answered: 6 where the question takes it.
#[test]
fn alone() {
    let (bytes, entries) = (vec![5; 9 * TILE_LENGTH], [1; 9]);
    for tif in [true, false] {
        let card = card(SERIES, &all_chart(9, 9, 1, 2, tif));
        let index: &[u32] = if tif { &[0, 0] } else { &[] };
        let good = Image {
            sheet: Sheet { series: SERIES, card: &card },
            tiles: Tiles { index, count: 2 },
            store: &bytes[..2 * TILE_LENGTH],
            corrections: Corrections { list: &[1, 1], count: 1 },
            second: &bytes[..TILE_LENGTH],
        };
        check(&good, [true, true], "good");
        for length in (0..9).filter(|length| *length != index.len()) {
            let tiles = Tiles { index: &entries[..length], count: 2 };
            check(&Image { tiles, ..good }, [false, false], "index");
        }
        for length in (0..9).filter(|length| *length != 2) {
            let corrections = Corrections { list: &entries[..length], count: 1 };
            check(&Image { corrections, ..good }, [false, false], "list");
        }
        for count in [3, 4, 1 << 32, (1 << 32) + 1, u64::MAX] {
            let most = &bytes[..(count.min(9) as usize) * TILE_LENGTH];
            let tiles = Tiles { count, ..good.tiles };
            check(&Image { tiles, store: most, ..good }, [false, false], "count");
            let corrections = Corrections { count, ..good.corrections };
            check(&Image { corrections, second: most, ..good }, [false, false], "corrected");
        }
        for length in [0, 1, TILE_LENGTH, 2 * TILE_LENGTH - 1, 2 * TILE_LENGTH + 1] {
            check(&Image { store: &bytes[..length], ..good }, [false, true], "store");
        }
        for length in [0, 1, TILE_LENGTH - 1, TILE_LENGTH + 1, 2 * TILE_LENGTH] {
            check(&Image { second: &bytes[..length], ..good }, [false, true], "second");
        }
    }
}

/// Whether look-up and the window question answer; else both give 6.
fn check(image: &Image, answered: [bool; 2], wrong: &str) {
    let Image { sheet, tiles, store, corrections, second } = *image;
    let tile = sheet.corrected_tile(tiles, store, corrections, second, PIXEL);
    let right = if answered[0] { Ok(1) } else { Err(SIX) };
    assert_eq!(tile.map(|told| told.value.stored), right, "{wrong}");
    let bands = sheet.corrected_bands(tiles, store, corrections, second, PIXEL);
    let right = if answered[0] { Ok(5) } else { Err(SIX) };
    assert_eq!(bands.map(|told| told.value.green), right, "{wrong}");
    let window = sheet.corrected_window(tiles, corrections, ALL);
    let right = if answered[1] { Ok(no_blanks(None)) } else { Err(SIX) };
    assert_eq!(window, right, "{wrong}");
}

/// With N the base count is all tiles; fewer are refused though every tile is corrected.
#[test]
fn fewer_with_n() {
    let bytes = vec![5; 2 * TILE_LENGTH];
    let card = card(SERIES, &all_chart(9, 9, 1, 2, false));
    for count in [0, 1, 2] {
        let image = Image {
            sheet: Sheet { series: SERIES, card: &card },
            tiles: Tiles { index: &[], count },
            store: &bytes[..count as usize * TILE_LENGTH],
            corrections: Corrections { list: &[1, 1], count: 1 },
            second: &bytes[..TILE_LENGTH],
        };
        check(&image, [count == 2; 2], "count");
    }
}
