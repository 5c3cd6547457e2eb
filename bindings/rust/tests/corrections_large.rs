//! Corrections of the largest images, 999 × 999 tiles (02, E1).

use crate::support;
use fordcask::{Corrections, Pixel, Series, Sheet, Tiles, Window, TILE_LENGTH};
use support::corrections::Image;
use support::index::{any_window, good_index};
use support::make::{all_chart, card};
use support::{no_blanks, seeded, Ask};

const TOTAL: usize = 999 * 999;
const ALL: Window = Window { top: 0, left: 0, height: 999, width: 999 };

/// Counts whose store would be empty, or one tile, if its length were kept in 32 bits.
#[test]
fn large_counts() {
    let mut ask = Ask::default();
    let (ones, zeros, store) = (vec![1; TOTAL], vec![0; TOTAL], [5; 2 * TILE_LENGTH]);
    let series = Series { scale: 9_999, factor: 10, zone: 3 };
    let card = card(series, &all_chart(900, -300, 999, 999, true));
    let sheet = Sheet { series, card: &card };
    for count in [0, 1, 2, 1 << 18, (1 << 18) + 1, 3 << 18, TOTAL as u64, TOTAL as u64 + 1] {
        for length in [0, 1, TILE_LENGTH - 1, TILE_LENGTH, 2 * TILE_LENGTH] {
            for (row, list) in [(0, &ones), (127_871, &ones), (127_872, &ones), (0, &zeros)] {
                let image = Image {
                    sheet,
                    tiles: Tiles { index: &ones, count: 1 },
                    store: &store[TILE_LENGTH..],
                    corrections: Corrections { list, count },
                    second: &store[..length],
                };
                let pixel = Pixel { row, column: 127_871 };
                let _ = ask.corrected_tile(&image, pixel);
                let _ = ask.corrected_bands(&image, pixel);
            }
        }
    }
    ask.met("corrected_tile", &[0, 6, 12, 15]);
    ask.met("corrected_bands", &[0, 6, 12, 15]);
}

/// Windows over all tiles, with one tile missing or above its count, and with none.
#[test]
fn windows() {
    let mut random = seeded("windows");
    let mut ask = Ask::default();
    for tif in [true, false] {
        let record = all_chart(900, -300, 999, 999, tif);
        let series = Series::chart(100_000, 3);
        let card = card(series, &record);
        let sheet = Sheet { series, card: &card };
        let index = if tif { good_index(&mut random, TOTAL, TOTAL / 2) } else { Vec::new() };
        let count = if tif { TOTAL / 2 } else { TOTAL };
        let tiles = Tiles { index: &index, count: count as u64 };
        // each tile that is not stored is corrected
        let mut list: Vec<u32> = (1..=TOTAL as u32).collect();
        for (entry, stored) in list.iter_mut().zip(&index) {
            *entry = if *stored == 0 { *entry } else { 0 };
        }
        for tile in [TOTAL - 1, TOTAL / 2, 0] {
            for entry in [list[tile], 0, TOTAL as u32 + 1] {
                list[tile] = entry;
                let corrections = Corrections { list: &list, count: TOTAL as u64 };
                let image = Image { sheet, tiles, store: &[], corrections, second: &[] };
                let _ = ask.corrected_window(&image, ALL);
                let _ = ask.corrected_window(&image, any_window(&mut random, &record));
            }
        }
        let short = Corrections { list: &list[1..], count: TOTAL as u64 };
        let image = Image { sheet, tiles, store: &[], corrections: short, second: &[] };
        let _ = ask.corrected_window(&image, ALL);
    }
    ask.met("corrected_window", &[0, 6, 12, 15]);
}

/// Setting at both ends and in the middle; every other entry stays.
#[test]
fn setting() {
    let series = Series::chart(5_000, 12);
    let card = card(series, &all_chart(900, -300, 999, 999, false));
    let sheet = Sheet { series, card: &card };
    let total = TOTAL as u64;
    let (mut list, mut right) = (vec![7; TOTAL], vec![7; TOTAL]);
    for (tile, number) in [(0, total), (total - 1, 1), (998, 0), (999, total - 1), (65_536, 2)] {
        let set = sheet.set_correction(&mut list, total, tile, number);
        assert_eq!(set, Ok(no_blanks(())), "{tile} {number}");
        right[tile as usize] = number as u32;
        assert!(list == right, "{tile} set to {number}");
    }
    let refused = [(total, 0, 12, 0), (1 << 32, 0, 12, 0), (0, total + 1, 15, 0)];
    let more = [(total - 1, u64::MAX, 15, total - 1), (u64::MAX, u64::MAX, 12, 0)];
    for (tile, number, no, at) in refused.into_iter().chain(more) {
        let set = sheet.set_correction(&mut list, total, tile, number);
        assert_eq!(set.map_err(|refusal| (refusal.number, refusal.at)), Err((no, at)));
        assert!(list == right, "{tile} {number}");
    }
}
