//! Presence bits of the largest images, 999 × 999 tiles, and of others of many words (02, E7).

use crate::{bits_support, support};
use bits_support::{list_of, some_present, words_of, BitImage};
use fordcask::{Bits, Corrections, Pixel, Refusal, Series, Sheet, Tiles, Window, TILE_LENGTH};
use support::corrections::Image;
use support::index::any_window;
use support::make::{all_chart, card};
use support::{no_blanks, seeded, Ask, Random};

const TOTAL: usize = 999 * 999;
const WORDS: usize = 15_594;
const ALL: Window = Window { top: 0, left: 0, height: 999, width: 999 };
const SERIES: Series = Series { scale: 9_999, factor: 10, zone: 3 };

/// The card of 999 × 999 tiles.
fn large(tif: bool) -> Vec<u8> {
    card(SERIES, &all_chart(900, -300, 999, 999, tif))
}

/// Tiles in many kinds: all, none, each second, one at either end, and random ones.
fn kinds(random: &mut Random) -> Vec<Vec<bool>> {
    let mut kinds: Vec<Vec<bool>> = vec![vec![true; TOTAL], vec![false; TOTAL]];
    kinds.push((0..TOTAL).map(|tile| tile % 2 == 1).collect());
    kinds.push((0..TOTAL).map(|tile| tile == 0 || tile == TOTAL - 1).collect());
    kinds.extend([(); 3].map(|_| some_present(random, TOTAL)));
    kinds
}

/// Both conversions, there and back, with the buffers full of other numbers before.
#[test]
fn conversions() {
    let mut random = seeded("conversions");
    let mut ask = Ask::default();
    let card = large(true);
    let sheet = Sheet { series: SERIES, card: &card };
    for present in kinds(&mut random) {
        let (mut list, mut words) = (vec![7; TOTAL], vec![77; WORDS]);
        assert_eq!(ask.to_list(&sheet, &words_of(&present), &mut list), Ok(no_blanks(())));
        assert!(list == list_of(&present));
        assert_eq!(ask.to_bits(&sheet, &list, &mut words), Ok(no_blanks(())));
        assert!(words == words_of(&present));
        // one entry out of order, at any place; one bit past the last tile
        let at = random.pick(&[0, 63, 64, 998, TOTAL / 2, TOTAL - 1]);
        list[at] = if list[at] == 0 { u32::MAX } else { list[at] + 1 };
        assert_eq!(ask.to_bits(&sheet, &list, &mut words), Err(Refusal { number: 20, at: 0 }));
        words[WORDS - 1] |= 1 << random.between(49, 63);
        assert_eq!(ask.to_list(&sheet, &words, &mut list), Err(Refusal { number: 21, at: 0 }));
    }
    ask.met("to_bits", &[0, 20]);
    ask.met("to_list", &[0, 21]);
}

/// Windows over tiles of each kind, the count below the ones, at them and above.
#[test]
fn windows() {
    let mut random = seeded("windows");
    let mut ask = Ask::default();
    let card = large(true);
    let record = all_chart(900, -300, 999, 999, true);
    for (i, present) in kinds(&mut random).into_iter().enumerate() {
        let (words, index) = (words_of(&present), list_of(&present));
        let ones = present.iter().filter(|there| **there).count() as u64;
        // each tile that is not present is corrected, above the corrected count in some
        let list: Vec<u32> = present.iter().map(|there| u32::from(!there)).collect();
        for count in [0, 1, ones / 2, ones.saturating_sub(1), ones, TOTAL as u64] {
            let bits = Bits { words: &words, count };
            let corrections = Corrections { list: &list, count: (i % 3).min(1) as u64 };
            let sheet = Sheet { series: SERIES, card: &card };
            let image = BitImage { sheet, bits, store: &[], corrections, second: &[] };
            let tiles = Tiles { index: &index, count };
            let both = Image { sheet, tiles, store: &[], corrections, second: &[] };
            let some = any_window(&mut random, &record);
            for window in [ALL, Window { top: 998, height: 1, ..ALL }, some] {
                ask.all_windows(&image, window);
                ask.windows_as_list(&image, &both, window);
            }
        }
    }
    ask.met("bits_window", &[0, 12, 15]);
    ask.met("corrected_bits_window", &[0, 12, 15]);
}

/// With N: no words, and every tile is stored.
#[test]
fn without_an_index() {
    let card = large(false);
    let sheet = Sheet { series: SERIES, card: &card };
    let bits = Bits { words: &[], count: TOTAL as u64 };
    assert_eq!(sheet.bits_window(bits, ALL), Ok(no_blanks(None)));
    let six = Err(Refusal { number: 6, at: 0 });
    assert_eq!(sheet.bits_window(Bits { words: &vec![u64::MAX; WORDS], ..bits }, ALL), six);
    assert_eq!(sheet.bits_window(Bits { count: 0, ..bits }, ALL), six);
    let mut list = vec![0; TOTAL];
    list[TOTAL - 1] = 2;
    let corrected = |count| {
        let corrections = Corrections { list: &list, count };
        sheet.corrected_bits_window(bits, corrections, ALL)
    };
    let last = Err(Refusal { number: 15, at: TOTAL as u64 - 1 });
    assert_eq!([corrected(1), corrected(2)], [last, Ok(no_blanks(None))]);
}

/// Few tiles far apart: the ones are counted over all words, in tiles, parts and values.
#[test]
fn far_apart() {
    let mut random = seeded("far_apart");
    let mut ask = Ask::default();
    let card = large(true);
    let sheet = Sheet { series: SERIES, card: &card };
    let present: Vec<bool> = (0..TOTAL).map(|tile| tile % 1_000 == 377).collect();
    let (words, index) = (words_of(&present), list_of(&present));
    let count = present.iter().filter(|there| **there).count();
    let mut store = vec![0; count * TILE_LENGTH];
    for (k, tile) in store.chunks_mut(TILE_LENGTH).enumerate() {
        (tile[0], tile[16_384]) = (k as u8, (k >> 8) as u8);
    }
    let list = vec![0; TOTAL];
    for (bits, store) in [(count, &store[..]), (count - 1, &store[TILE_LENGTH..])] {
        let bits = Bits { words: &words, count: bits as u64 };
        let corrections = Corrections { list: &list, count: 0 };
        let image = BitImage { sheet, bits, store, corrections, second: &[] };
        let tiles = Tiles { index: &index, count: bits.count };
        let both = Image { sheet, tiles, store, corrections, second: &[] };
        for k in [0, 1, 2, 255, 256, 600, count - 2, count - 1] {
            for tile in [1_000 * k + 377, 1_000 * k + 378 + random.below(600)] {
                let (row, column) = ((tile / 999) as i64, (tile % 999) as i64);
                let pixel = Pixel { row: 128 * row, column: 128 * column };
                ask.all_look_ups(&image, pixel);
                ask.look_ups_as_list(&image, &both, pixel);
            }
        }
    }
    for question in ["bits_tile", "bits_bands", "corrected_bits_tile", "corrected_bits_bands"] {
        ask.met(question, &[0, 14, 15]);
    }
}

/// Counts whose store would be empty, or one tile, if its length were kept in 32 bits.
#[test]
fn large_counts() {
    let mut ask = Ask::default();
    let (zeros, store) = (vec![0; TOTAL], [5; 2 * TILE_LENGTH]);
    let mut words = vec![u64::MAX; WORDS];
    words[WORDS - 1] >>= 15;
    let card = large(true);
    let sheet = Sheet { series: SERIES, card: &card };
    for count in [0, 1, 2, 1 << 18, (1 << 18) + 1, 3 << 18, TOTAL as u64, TOTAL as u64 + 1] {
        for length in [0, 1, TILE_LENGTH - 1, TILE_LENGTH, 2 * TILE_LENGTH] {
            for (row, column) in [(0, 0), (0, 128), (127_871, 127_871), (127_872, 0)] {
                let image = BitImage {
                    sheet,
                    bits: Bits { words: &words, count },
                    store: &store[..length],
                    corrections: Corrections { list: &zeros, count: 0 },
                    second: &[],
                };
                ask.all_look_ups(&image, Pixel { row, column });
            }
        }
    }
    for question in ["bits_tile", "bits_bands", "corrected_bits_tile", "corrected_bits_bands"] {
        ask.met(question, &[0, 6, 12, 15]);
    }
}
