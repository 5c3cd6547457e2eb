//! Corrections of hand-made images: each answer and refusal written out (02, E1).

use crate::support;
use fordcask::{Bands, Corrections, Pixel, Refusal, Series, Sheet, Source, Tiles, Window};
use fordcask::{CARD_LENGTH, TILE_LENGTH};
use support::make::{all_chart, card};
use support::{no_blanks, WORKED, WORKED_SERIES};

/// Tiles that are filled with one byte each, for each band its own.
fn store(fill: &[u8]) -> Vec<u8> {
    let mut bytes = Vec::new();
    for first in fill {
        for band in 0..3 {
            bytes.extend([first + band; TILE_LENGTH / 3]);
        }
    }
    bytes
}

fn refused<T>(number: u32, at: u64) -> Result<T, Refusal> {
    Err(Refusal { number, at })
}

/// An image of 2 by 3 tiles: corrected or not, stored or not, and entries above their counts.
#[test]
fn with_an_index() {
    let series = Series { scale: 500_000, factor: 2, zone: 1 };
    let card = card(series, &all_chart(100, -20, 2, 3, true));
    let sheet = Sheet { series, card: &card };
    let (store, second) = (store(&[10, 20, 30]), store(&[110, 120]));
    let tiles = Tiles { index: &[1, 0, 3, 9, 0, 2], count: 3 };
    let corrections = Corrections { list: &[2, 2, 0, 1, 3, 0], count: 2 };
    let right = [
        // stored as 1, corrected as 2
        ((0, 0), Ok((Source::Corrections, 2, 120))),
        // not stored, corrected as 2 once more
        ((0, 128), Ok((Source::Corrections, 2, 120))),
        ((0, 256), Ok((Source::Base, 3, 30))),
        // the base entry is above the count and isn't consulted
        ((128, 0), Ok((Source::Corrections, 1, 110))),
        // not stored, and the correction is above its count: 15 before 14
        ((128, 128), refused(15, 4)),
        ((255, 383), Ok((Source::Base, 2, 20))),
        ((256, 0), refused(12, 0)),
        ((0, 384), refused(12, 0)),
        ((-1, 0), refused(12, 0)),
        ((0, -1), refused(12, 0)),
    ];
    for ((row, column), right) in right {
        let pixel = Pixel { row, column };
        let found = sheet.corrected_tile(tiles, &store, corrections, &second, pixel);
        let found = found.map(|told| told.value);
        let (source, red) = (right.map(|r| (r.0, r.1)), right.map(|r| r.2));
        assert_eq!(found.map(|tile| (tile.source, tile.stored)), source, "{pixel:?}");
        assert_eq!(found.map(|tile| tile.bytes[0]), red, "{pixel:?}");
        assert_eq!(found.map_or(TILE_LENGTH, |tile| tile.bytes.len()), TILE_LENGTH);
        let values = sheet.corrected_bands(tiles, &store, corrections, &second, pixel);
        let bands = red.map(|red| no_blanks(Bands { red, green: red + 1, blue: red + 2 }));
        assert_eq!(values, bands, "{pixel:?}");
    }
}

/// Windows of that image, from document 01's question and the new one.
#[test]
fn windows() {
    let series = Series::chart(1_000_000, 1);
    let card = card(series, &all_chart(100, -20, 2, 3, true));
    let sheet = Sheet { series, card: &card };
    let tiles = Tiles { index: &[1, 0, 3, 9, 0, 2], count: 3 };
    let corrections = Corrections { list: &[2, 2, 0, 1, 3, 0], count: 2 };
    let none = Corrections { list: &[0; 6], count: 0 };
    let cases = [
        ((0, 0, 1, 3), Ok(Some(1)), Ok(None)),
        ((0, 0, 2, 1), refused(15, 3), Ok(None)),
        ((0, 0, 2, 2), Ok(Some(1)), refused(15, 4)),
        ((1, 1, 1, 2), Ok(Some(4)), refused(15, 4)),
        ((1, 2, 1, 1), Ok(None), Ok(None)),
        ((2, 3, 0, 0), Ok(None), Ok(None)),
        ((1, 0, 2, 1), refused(12, 0), refused(12, 0)),
        ((0, 1, 1, 3), refused(12, 0), refused(12, 0)),
    ];
    for ((top, left, height, width), base, corrected) in cases {
        let window = Window { top, left, height, width };
        let found = sheet.window(tiles, window).map(|told| told.value);
        assert_eq!(found, base, "{window:?}");
        let found = sheet.corrected_window(tiles, none, window).map(|told| told.value);
        assert_eq!(found, base, "no corrections: {window:?}");
        let found = sheet.corrected_window(tiles, corrections, window).map(|told| told.value);
        assert_eq!(found, corrected, "{window:?}");
    }
}

/// The worked card has TIF N: the list is as long as its two tiles, and both stores are whole.
#[test]
fn without_an_index() {
    assert_eq!(WORKED.len(), CARD_LENGTH);
    let sheet = Sheet { series: WORKED_SERIES, card: WORKED };
    let (store, second) = (store(&[10, 20]), store(&[110]));
    let tiles = Tiles { index: &[], count: 2 };
    let all = Window { top: 0, left: 0, height: 2, width: 1 };
    let ask = |list: &[u32], row| {
        let corrections = Corrections { list, count: 1 };
        let pixel = Pixel { row, column: 127 };
        let found = sheet.corrected_tile(tiles, &store, corrections, &second, pixel);
        found.map(|told| (told.value.source, told.value.stored, told.value.bytes[0]))
    };
    let missing = |list: &[u32]| {
        let corrections = Corrections { list, count: 1 };
        sheet.corrected_window(tiles, corrections, all).map(|told| told.value)
    };
    assert_eq!(ask(&[0, 1], 0), Ok((Source::Base, 1, 10)));
    assert_eq!(ask(&[0, 1], 128), Ok((Source::Corrections, 1, 110)));
    assert_eq!(ask(&[0, 0], 128), Ok((Source::Base, 2, 20)));
    assert_eq!(ask(&[0, 2], 128), refused(15, 1));
    assert_eq!(ask(&[0, 2], 127), Ok((Source::Base, 1, 10)));
    assert_eq!(ask(&[0, 2], 256), refused(12, 0));
    assert_eq!(ask(&[], 0), refused(6, 0));
    assert_eq!(ask(&[0], 0), refused(6, 0));
    assert_eq!(ask(&[0, 0, 0], 256), refused(6, 0));
    assert_eq!(missing(&[0, 1]), Ok(None));
    assert_eq!(missing(&[1, 2]), refused(15, 1));
    assert_eq!(missing(&[]), refused(6, 0));
}

/// Setting on the worked card: both tiles, both ends of the count, and each refusal.
#[test]
fn setting() {
    let sheet = Sheet { series: WORKED_SERIES, card: WORKED };
    let cases = [
        ((1, 0, 1), Ok(()), [1, 5]),
        ((1, 1, 1), Ok(()), [4, 1]),
        ((2, 1, 2), Ok(()), [4, 2]),
        ((0, 1, 0), Ok(()), [4, 0]),
        ((1, 1, 2), refused(15, 1), [4, 5]),
        ((0, 0, 1), refused(15, 0), [4, 5]),
        ((1, 2, 2), refused(12, 0), [4, 5]),
        ((1, u64::MAX, 0), refused(12, 0), [4, 5]),
        ((3, 2, 4), refused(6, 0), [4, 5]),
        ((3, 0, 1), refused(6, 0), [4, 5]),
        ((2, 0, u64::MAX), refused(15, 0), [4, 5]),
        ((2, 0, (1 << 32) + 1), refused(15, 0), [4, 5]),
    ];
    for ((count, tile, number), right, left) in cases {
        let mut list = [4, 5];
        let found = sheet.set_correction(&mut list, count, tile, number);
        assert_eq!((found, list), (right.map(no_blanks), left), "{count} {tile} {number}");
    }
    for length in [0, 1, 3] {
        let mut list = vec![4; length];
        let found = sheet.set_correction(&mut list, 1, 0, 1);
        assert_eq!((found, list), (refused(6, 0), vec![4; length]));
    }
}
