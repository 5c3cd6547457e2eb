//! Numbers of words, counts and lengths of all buffers beside presence bits, right and wrong,
//! alone and together: 6, and nothing else is looked at before it (02, E7).

use crate::{bits_support, support};
use bits_support::BitImage;
use fordcask::{Bits, Corrections, Pixel, Refusal, Series, Sheet, Window, TILE_LENGTH};
use support::make::{all_chart, card};
use support::{no_blanks, Ask};

const SIX: Refusal = Refusal { number: 6, at: 0 };
const MISSING: Refusal = Refusal { number: 14, at: 0 };
const SERIES: Series = Series::chart(1_000_000, 1);
const PIXEL: Pixel = Pixel { row: 5, column: 5 };
const ALL: Window = Window { top: 0, left: 0, height: 1, width: 1 };

/// Tiles down and across, and the words of as many bits.
const SIZES: [(u64, u64, usize); 12] = [
    (1, 1, 1),
    (7, 9, 1),
    (63, 1, 1),
    (8, 8, 1),
    (1, 64, 1),
    (5, 13, 2),
    (127, 1, 2),
    (8, 16, 2),
    (3, 43, 3),
    (129, 1, 3),
    (64, 64, 64),
    (999, 999, 15_594),
];

/// The answer where the number is right, else 6.
fn only<T>(right: bool, answer: Result<T, Refusal>) -> Result<T, Refusal> {
    if right {
        answer
    } else {
        Err(SIX)
    }
}

/// None, one less, right, one more, and other numbers of clear words; with N none are right.
#[test]
fn words() {
    for (nfl, nfc, words) in SIZES {
        for tif in [true, false] {
            let series = Series::chart(100_000, 1);
            let card = card(series, &all_chart(900, -300, nfl, nfc, tif));
            let tiles = (nfl * nfc) as usize;
            let zeros = vec![0; 2 * words.max(2)];
            let list = vec![0; tiles];
            for length in [0, words - 1, words, words + 1, words / 2, 2 * words] {
                let right = length == if tif { words } else { 0 };
                check_words(&Sheet { series, card: &card }, tif, &zeros[..length], &list, right);
            }
        }
    }
}

/// All questions, put with these clear words: with Y no tile is stored, with N the count is wrong
/// in all but the conversions.
fn check_words(sheet: &Sheet, tif: bool, words: &[u64], list: &[u32], right: bool) {
    let (bits, none) = (Bits { words, count: 0 }, Corrections { list, count: 0 });
    let name = format!("{} words for {} tiles", words.len(), list.len());
    let found = sheet.bits_stored(bits, &[], PIXEL);
    assert_eq!(found, only(right && tif, Err(MISSING)), "{name}");
    let found = sheet.bits_bands(bits, &[], PIXEL);
    assert_eq!(found, only(right && tif, Err(MISSING)), "{name}");
    let found = sheet.corrected_bits_tile(bits, &[], none, &[], PIXEL);
    assert_eq!(found, only(right && tif, Err(MISSING)), "{name}");
    let first = only(right && tif, Ok(no_blanks(Some(0))));
    assert_eq!(sheet.bits_window(bits, ALL), first, "{name}");
    assert_eq!(sheet.corrected_bits_window(bits, none, ALL), first, "{name}");
    let all = Bits { words, count: list.len() as u64 };
    let found = sheet.bits_window(all, ALL);
    assert_eq!(found, only(right, Ok(no_blanks(tif.then_some(0)))), "{name}");
    let index = if tif { list } else { &[] };
    let mut made = vec![7; words.len()];
    let left = if right { words.to_vec() } else { vec![7; words.len()] };
    let found = sheet.to_bits(index, &mut made);
    assert!((found, made) == (only(right, Ok(no_blanks(()))), left), "{name}");
    let mut made = vec![7; index.len()];
    let left = if right { index.to_vec() } else { vec![7; index.len()] };
    let found = sheet.to_list(words, &mut made);
    assert!((found, made) == (only(right, Ok(no_blanks(()))), left), "{name}");
}

/// Lists of one entry less, one more and none, in both conversions.
#[test]
fn entries() {
    for (nfl, nfc, words) in SIZES {
        let series = Series::chart(100_000, 1);
        let card = card(series, &all_chart(900, -300, nfl, nfc, true));
        let sheet = Sheet { series, card: &card };
        let tiles = (nfl * nfc) as usize;
        for length in [0, tiles - 1, tiles, tiles + 1, 64 * words] {
            let right = only(length == tiles, Ok(no_blanks(())));
            let (mut list, mut made) = (vec![0; length], vec![7; words]);
            assert_eq!(sheet.to_bits(&list, &mut made), right, "{length} for {tiles}");
            let left = if right.is_ok() { 0 } else { 7 };
            assert!(made.iter().all(|word| *word == left), "{length} for {tiles}");
            list.fill(9);
            assert_eq!(sheet.to_list(&vec![0; words], &mut list), right, "{length} for {tiles}");
            let left = if right.is_ok() { 0 } else { 9 };
            assert!(list.iter().all(|entry| *entry == left), "{length} for {tiles}");
        }
    }
}

/// Counts round those of two tiles, and some that are small if fewer bits are kept.
const COUNTS: [u64; 7] = [0, 1, 2, 3, (1 << 32) + 1, 1 << 63, u64::MAX];

/// Lengths of a store at a count: right, one byte off, one tile off, and none.
fn store_lengths(count: u64) -> Vec<usize> {
    let right = count.min(3) as usize * TILE_LENGTH;
    let mut all = vec![0, right, right + 1, right + TILE_LENGTH];
    all.extend([right.saturating_sub(1), right.saturating_sub(TILE_LENGTH)]);
    all.sort_unstable();
    all.dedup();
    all
}

/// Every number of words and entries with every count and every length of both stores.
#[test]
fn together() {
    let mut ask = Ask::default();
    let (bytes, words, entries) = (vec![5; 4 * TILE_LENGTH + 1], [0b10, 0, 1], [0, 1, 1, 0]);
    for tif in [true, false] {
        let card = card(SERIES, &all_chart(9, 9, 1, 2, tif));
        let sheet = Sheet { series: SERIES, card: &card };
        for (count, corrected) in COUNTS.into_iter().flat_map(|k| COUNTS.map(|c| (k, c))) {
            for (w, c) in (0..=3).flat_map(|w| (0..=3).map(move |c| (w, c))) {
                let bits = Bits { words: &words[..w], count };
                let corrections = Corrections { list: &entries[..c], count: corrected };
                for store in store_lengths(count).into_iter().map(|length| &bytes[..length]) {
                    for second in store_lengths(corrected).into_iter().map(|end| &bytes[..end]) {
                        let image = BitImage { sheet, bits, store, corrections, second };
                        ask.all_look_ups(&image, PIXEL);
                        ask.all_windows(&image, Window { width: 2, ..ALL });
                    }
                }
            }
        }
    }
    for question in ["bits_tile", "bits_bands"] {
        ask.met(question, &[0, 6, 14]);
    }
    for question in ["corrected_bits_tile", "corrected_bits_bands"] {
        ask.met(question, &[0, 6, 14]);
        ask.met_at(question, 6, &[0]);
    }
    ask.met("bits_window", &[0, 6]);
    ask.met("corrected_bits_window", &[0, 6, 15]);
}

/// One thing wrong in an image that is answered: 6 where the question takes it.
#[test]
fn alone() {
    let (bytes, entries) = (vec![5; 9 * TILE_LENGTH], [1; 9]);
    for tif in [true, false] {
        let card = card(SERIES, &all_chart(9, 9, 1, 2, tif));
        let good = BitImage {
            sheet: Sheet { series: SERIES, card: &card },
            bits: Bits { words: if tif { &[0b11] } else { &[] }, count: 2 },
            store: &bytes[..2 * TILE_LENGTH],
            corrections: Corrections { list: &[1, 1], count: 1 },
            second: &bytes[..TILE_LENGTH],
        };
        check(&good, [true; 4], "good");
        for words in [&[][..], &[0b11], &[0b11, 0], &[0, 0b11], &[0b11, 0, 0]] {
            let bits = Bits { words, count: 2 };
            check(&BitImage { bits, ..good }, [words.len() == usize::from(tif); 4], "words");
        }
        for length in (0..9).filter(|length| *length != 2) {
            let corrections = Corrections { list: &entries[..length], count: 1 };
            check(&BitImage { corrections, ..good }, [true, true, false, false], "list");
        }
        for count in [3, 4, 1 << 32, (1 << 32) + 1, u64::MAX] {
            let most = &bytes[..(count.min(9) as usize) * TILE_LENGTH];
            let bits = Bits { count, ..good.bits };
            check(&BitImage { bits, store: most, ..good }, [false; 4], "count");
            let corrections = Corrections { count, ..good.corrections };
            let image = BitImage { corrections, second: most, ..good };
            check(&image, [true, true, false, false], "corrected");
        }
        for length in [0, 1, TILE_LENGTH, 2 * TILE_LENGTH - 1, 2 * TILE_LENGTH + 1] {
            let image = BitImage { store: &bytes[..length], ..good };
            check(&image, [false, true, false, true], "store");
        }
        for length in [0, 1, TILE_LENGTH - 1, TILE_LENGTH + 1, 2 * TILE_LENGTH] {
            let image = BitImage { second: &bytes[..length], ..good };
            check(&image, [true, true, false, true], "second");
        }
    }
}

/// Whether look-up, window, and both beside corrections answer; else they give 6.
fn check(image: &BitImage, answered: [bool; 4], wrong: &str) {
    let BitImage { sheet, bits, store, corrections, second } = *image;
    let [plain, window, corrected, corrected_window] = answered;
    let found = sheet.bits_stored(bits, store, PIXEL);
    assert_eq!(found, only(plain, Ok(no_blanks(1))), "{wrong}");
    let found = sheet.bits_tile(bits, store, PIXEL).map(|told| told.value.len());
    assert_eq!(found, only(plain, Ok(TILE_LENGTH)), "{wrong}");
    let found = sheet.bits_bands(bits, store, PIXEL).map(|told| told.value.green);
    assert_eq!(found, only(plain, Ok(5)), "{wrong}");
    let all = Window { width: 2, ..ALL };
    assert_eq!(sheet.bits_window(bits, all), only(window, Ok(no_blanks(None))), "{wrong}");
    let found = sheet.corrected_bits_tile(bits, store, corrections, second, PIXEL);
    assert_eq!(found.map(|told| told.value.stored), only(corrected, Ok(1)), "{wrong}");
    let found = sheet.corrected_bits_bands(bits, store, corrections, second, PIXEL);
    assert_eq!(found.map(|told| told.value.blue), only(corrected, Ok(5)), "{wrong}");
    let found = sheet.corrected_bits_window(bits, corrections, all);
    assert_eq!(found, only(corrected_window, Ok(no_blanks(None))), "{wrong}");
}
