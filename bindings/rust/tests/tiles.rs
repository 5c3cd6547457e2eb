//! Look-up and bands over indexes and stores of every kind, compared with the rule.

use crate::support;
use fordcask::{Pixel, Series, Sheet, Tiles};
use support::index::{index_of, small};
use support::make::{all_chart, card, chart, overview, pixel, town_chart, Maker};
use support::{seeded, Ask};

/// Pixels of small images, with indexes and stores good and wrong.
fn random_look_ups(test: &str, rounds: u32, maker: Maker) {
    let mut random = seeded(test);
    let mut ask = Ask::default();
    let bytes: Vec<u8> = (0..12 * 49_152).map(|_| random.byte()).collect();
    for _ in 0..rounds {
        let tif = !random.once_in(4);
        let (series, record) = small(&mut random, maker, 3, tif);
        let card = card(series, &record);
        let sheet = Sheet { series, card: &card };
        let (index, count) = index_of(&mut random, &record);
        let tiles = Tiles { index: &index, count };
        let right = count.min(11) as usize * 49_152;
        let length = match random.below(16) {
            0 => right + 1,
            1 => right.saturating_sub(1),
            2 => random.below(12) * 49_152,
            _ => right,
        };
        // a store that starts in the middle of the bytes, at any alignment
        let start = random.below(bytes.len() - length + 1);
        let store = &bytes[start..start + length];
        for _ in 0..4 {
            let pixel = pixel(&mut random, &record);
            let _ = ask.tile(&sheet, tiles, store, pixel);
            let _ = ask.bands(&sheet, tiles, store, pixel);
        }
    }
    ask.met("tile", &[0, 6, 12, 13, 14, 15]);
    ask.met("bands", &[0, 6, 12, 13, 14, 15]);
}

#[test]
fn tile_and_bands() {
    random_look_ups("tile_and_bands", 150_000, chart);
}

#[test]
fn tile_and_bands_town() {
    random_look_ups("tile_and_bands_town", 50_000, town_chart);
}

#[test]
fn tile_and_bands_overview() {
    random_look_ups("tile_and_bands_overview", 50_000, overview);
}

/// Counts whose store would be empty, or one tile, if its length were kept in 32 bits.
#[test]
fn large_counts() {
    let mut ask = Ask::default();
    let record = all_chart(900, -300, 999, 999, true);
    let (index, store) = (vec![1; 999 * 999], [5; 49_152]);
    for scale in [100_000, 9_999] {
        let series = Series::chart(scale, 3);
        let card = card(series, &record);
        let sheet = Sheet { series, card: &card };
        for count in [0, 1, 2, 1 << 18, (1 << 18) + 1, 3 << 18, 999 * 999] {
            let tiles = Tiles { index: &index, count };
            for length in [0, 1, 49_151, 49_152] {
                for row in [0, 127_871, 127_872] {
                    let pixel = Pixel { row, column: 127_871 };
                    let _ = ask.tile(&sheet, tiles, &store[..length], pixel);
                    let _ = ask.bands(&sheet, tiles, &store[..length], pixel);
                }
            }
        }
    }
    ask.met("tile", &[0, 6, 12, 15]);
    ask.met("bands", &[0, 6, 12, 15]);
}
