//! Presence bits of hand-made images: each answer and refusal written out (02, E7).

use crate::support;
use fordcask::TILE_LENGTH;
use fordcask::{Bands, Bits, Corrections, Pixel, Refusal, Series, Sheet, Source, Tiles, Window};
use support::make::{all_chart, card};
use support::{no_blanks, WORKED, WORKED_SERIES};

const SERIES: Series = Series::chart(1_000_000, 1);

/// Tiles that are filled with one byte each, for each band its own.
fn store(fill: &[u8]) -> Vec<u8> {
    let band = |first: &u8| [0, 1, 2].map(|band| [first + band; TILE_LENGTH / 3]).concat();
    fill.iter().flat_map(band).collect()
}

fn refused<T>(number: u32, at: u64) -> Result<T, Refusal> {
    Err(Refusal { number, at })
}

/// The card of an image of these tiles, all chart.
fn of(nfl: u64, nfc: u64) -> Vec<u8> {
    card(SERIES, &all_chart(100, -20, nfl, nfc, true))
}

fn sheet(card: &[u8]) -> Sheet<'_> {
    Sheet { series: SERIES, card }
}

/// An image of 2 by 3 tiles, four of them present and three counted.
#[test]
fn look_up() {
    let (card, store, second) = (of(2, 3), store(&[10, 20, 30]), store(&[110, 120]));
    let sheet = sheet(&card);
    let bits = Bits { words: &[0b11_0101], count: 3 };
    let corrections = Corrections { list: &[0, 2, 1, 0, 3, 2], count: 2 };
    let right = [
        ((0, 0), Ok((1, 10)), Ok((Source::Base, 1, 10))),
        // not present, corrected as 2
        ((0, 128), refused(14, 0), Ok((Source::Corrections, 2, 120))),
        ((127, 383), Ok((2, 20)), Ok((Source::Corrections, 1, 110))),
        ((128, 0), refused(14, 0), refused(14, 0)),
        // the correction is above its count
        ((128, 128), Ok((3, 30)), refused(15, 4)),
        // the fourth one is above the count; the bits aren't consulted beside a correction
        ((255, 383), refused(15, 5), Ok((Source::Corrections, 2, 120))),
        ((256, 0), refused(12, 0), refused(12, 0)),
        ((0, -1), refused(12, 0), refused(12, 0)),
    ];
    for ((row, column), plain, corrected) in right {
        let pixel = Pixel { row, column };
        let stored = sheet.bits_stored(bits, &store, pixel);
        assert_eq!(stored, plain.map(|right| no_blanks(right.0)), "{pixel:?}");
        let part = sheet.bits_tile(bits, &store, pixel).map(|told| told.value);
        assert_eq!(part.map(|part| part[0]), plain.map(|right| right.1), "{pixel:?}");
        assert_eq!(part.map_or(TILE_LENGTH, <[u8]>::len), TILE_LENGTH);
        let bands = |red| no_blanks(Bands { red, green: red + 1, blue: red + 2 });
        let values = sheet.bits_bands(bits, &store, pixel);
        assert_eq!(values, plain.map(|right| bands(right.1)), "{pixel:?}");
        let found = sheet.corrected_bits_tile(bits, &store, corrections, &second, pixel);
        let found = found.map(|told| told.value);
        let found = found.map(|tile| (tile.source, tile.stored, tile.bytes[0]));
        assert_eq!(found, corrected, "{pixel:?}");
        let values = sheet.corrected_bits_bands(bits, &store, corrections, &second, pixel);
        assert_eq!(values, corrected.map(|right| bands(right.2)), "{pixel:?}");
    }
}

/// Windows of that image.
#[test]
fn windows() {
    let card = of(2, 3);
    let bits = Bits { words: &[0b11_0101], count: 3 };
    let corrections = Corrections { list: &[0, 2, 1, 0, 3, 2], count: 2 };
    let right = [
        ((0, 0, 1, 3), Ok(Some(1)), Ok(None)),
        ((0, 0, 2, 3), Ok(Some(1)), Ok(Some(3))),
        ((0, 2, 2, 1), refused(15, 5), Ok(None)),
        ((1, 1, 1, 1), Ok(None), refused(15, 4)),
        ((1, 1, 1, 2), refused(15, 5), refused(15, 4)),
        ((2, 3, 0, 0), Ok(None), Ok(None)),
        ((1, 0, 2, 1), refused(12, 0), refused(12, 0)),
        ((0, 1, 1, 3), refused(12, 0), refused(12, 0)),
    ];
    for ((top, left, height, width), plain, corrected) in right {
        let window = Window { top, left, height, width };
        let found = sheet(&card).bits_window(bits, window).map(|told| told.value);
        assert_eq!(found, plain, "{window:?}");
        let found = sheet(&card).corrected_bits_window(bits, corrections, window);
        assert_eq!(found.map(|told| told.value), corrected, "{window:?}");
    }
}

/// Bits 111 with count 2: 15 at 2 from both forms; a clear bit past that tile is 14, and missing
/// in a window, not 15.
#[test]
fn above_the_count() {
    let (card, store) = (of(1, 4), store(&[10, 20]));
    let sheet = sheet(&card);
    let bits = Bits { words: &[0b0111], count: 2 };
    let tiles = Tiles { index: &[1, 2, 3, 0], count: 2 };
    for (column, right) in [(0, Ok(1)), (128, Ok(2)), (256, refused(15, 2)), (384, refused(14, 0))]
    {
        let (pixel, right) = (Pixel { row: 0, column }, right.map(no_blanks));
        assert_eq!(sheet.bits_stored(bits, &store, pixel), right);
        assert_eq!(sheet.stored(tiles, &store, pixel), right);
    }
    for (left, width, right) in [
        (0, 2, Ok(None)),
        (0, 3, refused(15, 2)),
        (2, 2, refused(15, 2)),
        (3, 1, Ok(Some(3))),
        (0, 4, refused(15, 2)),
    ] {
        let window = Window { top: 0, left, height: 1, width };
        assert_eq!(sheet.bits_window(bits, window), right.map(no_blanks));
        assert_eq!(sheet.window(tiles, window), right.map(no_blanks));
    }
}

/// A bit past the last tile comes after every 6, the corrections' too, and before a pixel or
/// window outside.
#[test]
fn stray() {
    let (card, store) = (of(2, 3), store(&[10, 20, 30]));
    let sheet = sheet(&card);
    let bits = Bits { words: &[0b100_0111], count: 3 };
    let ask = |bits, length: usize, row| {
        let corrections = Corrections { list: &[0; 6], count: 1 };
        let (second, pixel) = (&store[..length], Pixel { row, column: 0 });
        let found = sheet.corrected_bits_tile(bits, &store, corrections, second, pixel);
        found.map(|told| told.value.stored)
    };
    assert_eq!(ask(bits, TILE_LENGTH - 1, 0), refused(6, 0));
    assert_eq!(ask(bits, TILE_LENGTH, 256), refused(21, 0));
    assert_eq!(ask(bits, TILE_LENGTH, 0), refused(21, 0));
    assert_eq!(ask(Bits { words: &[0b111], ..bits }, TILE_LENGTH, 256), refused(12, 0));
    assert_eq!(ask(Bits { words: &[0b111], ..bits }, TILE_LENGTH, 0), Ok(1));
    let outside = Window { top: 3, left: 0, height: 0, width: 0 };
    assert_eq!(sheet.bits_window(bits, outside), refused(21, 0));
    assert_eq!(sheet.bits_window(Bits { count: 7, ..bits }, outside), refused(6, 0));
    let mut index = [9; 6];
    assert_eq!((sheet.to_list(bits.words, &mut index), index), (refused(21, 0), [9; 6]));
    assert_eq!((sheet.to_list(&[1, 0], &mut index), index), (refused(6, 0), [9; 6]));
}

/// Lists in reading order and not.
#[test]
fn lists() {
    let ask = |list: &[u32]| {
        let (card, mut words) = (of(1, list.len() as u64), [u64::MAX]);
        let found = sheet(&card).to_bits(list, &mut words);
        (found.map(|told| told.value), words[0])
    };
    let order = (refused(20, 0), u64::MAX);
    for list in [&[0, 2, 1][..], &[0, 1, 1], &[2], &[1, 3], &[1, 2, 2], &[u32::MAX], &[1, 0, 1]] {
        assert_eq!(ask(list), order, "{list:?}");
    }
    assert_eq!(ask(&[0; 5]), (Ok(()), 0));
    assert_eq!(ask(&[0, 1, 0, 2]), (Ok(()), 0b1010));
    assert_eq!(ask(&[1, 2, 3]), (Ok(()), 0b111));
    assert_eq!(ask(&[1]), (Ok(()), 1));
    let mut index = [9; 4];
    let found = sheet(&of(2, 2)).to_list(&[0b1010], &mut index);
    assert_eq!((found, index), (Ok(no_blanks(())), [0, 1, 0, 2]));
}

/// 64 tiles are one word, 65 are two; the last tile is the highest bit, or the lowest of the next.
#[test]
fn words() {
    let right =
        [(63, vec![1 << 62]), (64, vec![1 << 63]), (65, vec![0, 1]), (128, vec![0, 1 << 63])];
    for (tiles, right) in right {
        let card = of(1, tiles);
        let sheet = sheet(&card);
        let mut list = vec![0; tiles as usize];
        list[tiles as usize - 1] = 1;
        for length in 0..4 {
            let mut words = vec![7; length];
            let found = sheet.to_bits(&list, &mut words).map(|told| told.value);
            let good = length == right.len();
            assert_eq!(found, if good { Ok(()) } else { refused(6, 0) }, "{tiles} {length}");
            assert_eq!(words, if good { right.clone() } else { vec![7; length] }, "{tiles}");
        }
        let all = Window { top: 0, left: 0, height: 1, width: tiles };
        let last = Window { left: tiles - 1, width: 1, ..all };
        let bits = Bits { words: &right, count: 1 };
        assert_eq!(sheet.bits_window(bits, all), Ok(no_blanks(Some(0))));
        assert_eq!(sheet.bits_window(bits, last), Ok(no_blanks(None)));
        assert_eq!(sheet.bits_window(Bits { count: 0, ..bits }, last), refused(15, tiles - 1));
    }
}

/// The worked card has TIF N: no words, both tiles stored in reading order.
#[test]
fn without_an_index() {
    let sheet = Sheet { series: WORKED_SERIES, card: WORKED };
    let store = store(&[10, 20]);
    let all = Window { top: 0, left: 0, height: 2, width: 1 };
    let ask = |words: &[u64], count, row| {
        let found = sheet.bits_stored(Bits { words, count }, &store, Pixel { row, column: 127 });
        found.map(|told| told.value)
    };
    assert_eq!([ask(&[], 2, 0), ask(&[], 2, 128)], [Ok(1), Ok(2)]);
    assert_eq!(ask(&[], 2, 256), refused(12, 0));
    assert_eq!([ask(&[0b11], 2, 0), ask(&[0], 2, 0), ask(&[], 1, 0)], [refused(6, 0); 3]);
    assert_eq!(sheet.bits_window(Bits { words: &[], count: 2 }, all), Ok(no_blanks(None)));
    assert_eq!(sheet.bits_window(Bits { words: &[0b11], count: 2 }, all), refused(6, 0));
    assert_eq!(sheet.bits_window(Bits { words: &[], count: 3 }, all), refused(6, 0));
    let (mut word, mut entries) = ([7], [9; 2]);
    assert_eq!(sheet.to_bits(&[], &mut []), Ok(no_blanks(())));
    assert_eq!(sheet.to_list(&[], &mut []), Ok(no_blanks(())));
    assert_eq!(sheet.to_bits(&[1, 2], &mut []), refused(6, 0));
    assert_eq!((sheet.to_bits(&[], &mut word), word), (refused(6, 0), [7]));
    assert_eq!(sheet.to_list(&[0b11], &mut []), refused(6, 0));
    assert_eq!((sheet.to_list(&[], &mut entries), entries), (refused(6, 0), [9; 2]));
}
