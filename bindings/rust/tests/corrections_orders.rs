//! The order of the refusals with corrections: reading's, the base's 6, the corrections' 6, 12, 13,
//! 15 of the correction, 14, 15 of the index (02, E1).

use crate::support;
use fordcask::{Corrections, Pixel, Record, Refusal, Series, Sheet, Tiles, Window, TILE_LENGTH};
use support::make::{all_chart, card};
use support::no_blanks;

const SERIES: Series = Series { scale: 312_500, factor: 2, zone: 14 };

/// A refusal of this number and place where it is there.
fn fault(there: bool, number: u32, at: u64) -> Option<Refusal> {
    there.then_some(Refusal { number, at })
}

/// A card of 2 by 2 tiles, its chart inside them; the same with a wrong byte.
fn cards(tif: bool) -> [Vec<u8>; 2] {
    let mut record: Record = all_chart(9, -3, 2, 2, tif);
    (record.nul, record.nll, record.nls, record.nus) = (20, 200, 30, 220);
    let good = card(SERIES, &record);
    let mut bad = good.clone();
    bad[44] = b'x';
    [good, bad]
}

/// Pixels of the fourth tile and of tiles that are not there, with their refusals.
fn pixels() -> [(Option<Refusal>, Pixel); 6] {
    let at = |row, column| Pixel { row, column };
    let outside = fault(true, 12, 0);
    [
        (None, at(150, 150)),
        (fault(true, 13, 0), at(201, 150)),
        (fault(true, 13, 0), at(150, 255)),
        (outside, at(256, 150)),
        (outside, at(150, -1)),
        (outside, at(i64::MIN, 150)),
    ]
}

/// The entry of every tile in the corrections and in the index; the counts are 2 and 3.
const CORRECTIONS: [u32; 5] = [0, 1, 2, 3, u32::MAX];
const ENTRIES: [u32; 5] = [0, 1, 3, 4, u32::MAX];

/// What a tile gives past the pixel's refusals: the source as a number, and the number there.
fn of_tile(tif: bool, correction: u32, entry: u32) -> Result<(u8, u64), Refusal> {
    match (correction, entry) {
        (3.., _) => Err(Refusal { number: 15, at: 3 }),
        (1.., _) => Ok((1, correction.into())),
        (0, _) if !tif => Ok((0, 4)),
        (0, 0) => Err(Refusal { number: 14, at: 0 }),
        (0, 4..) => Err(Refusal { number: 15, at: 3 }),
        (0, _) => Ok((0, entry.into())),
    }
}

/// Every set of wrong lengths, with each pixel and each two entries.
#[test]
fn look_up() {
    let bytes = vec![5; 5 * TILE_LENGTH];
    for (tif, set) in [true, false].into_iter().flat_map(|tif| (0..128).map(move |set| (tif, set)))
    {
        let has = |bit: u32| set >> bit & 1 == 1;
        let cards = cards(tif);
        let sheet = Sheet { series: SERIES, card: &cards[usize::from(has(0))] };
        let count = if tif { 3 } else { 4 };
        let six = fault(set > 1, 6, 0);
        let store = &bytes[..count as usize * TILE_LENGTH - usize::from(has(3))];
        let second = &bytes[..2 * TILE_LENGTH + usize::from(has(6))];
        for (state, pixel) in pixels() {
            for (c, e) in CORRECTIONS.into_iter().flat_map(|c| ENTRIES.map(|e| (c, e))) {
                let (list, entries) = ([c; 5], [e; 5]);
                let index = &entries[..if tif { 4 } else { 0 } + usize::from(has(1))];
                let tiles = Tiles { index, count: if has(2) { 5 } else { count } };
                let list = &list[..4 - usize::from(has(4))];
                let corrections = Corrections { list, count: if has(5) { 5 } else { 2 } };
                let found = sheet.corrected_tile(tiles, store, corrections, second, pixel);
                let found = found.map(|told| (told.value.source as u8, told.value.stored));
                let before = fault(has(0), 7, 44).or(six).or(state);
                let right = before.map_or_else(|| of_tile(tif, c, e), Err);
                assert_eq!(found, right, "{tif} {set} {pixel:?} {c} {e}");
                let found = sheet.corrected_bands(tiles, store, corrections, second, pixel);
                let found = found.map(|told| told.value.red);
                assert_eq!(found, right.map(|_| 5), "{tif} {set} {pixel:?} {c} {e}");
            }
        }
    }
}

/// Windows with two tiles in them, and outside.
fn windows() -> [(Option<Refusal>, Window); 5] {
    let window = |top, left, height, width| Window { top, left, height, width };
    let outside = fault(true, 12, 0);
    [
        (None, window(1, 0, 1, 2)),
        (outside, window(1, 0, 2, 2)),
        (outside, window(1, 1, 1, 2)),
        (outside, window(2, 0, u64::MAX, 2)),
        (outside, window(3, 0, 0, 0)),
    ]
}

/// What tile 2 gives before tile 3 is looked at.
fn of_window(tif: bool, correction: u32, entry: u32) -> Option<Result<Option<u64>, Refusal>> {
    match (correction, entry) {
        (3.., _) => Some(Err(Refusal { number: 15, at: 2 })),
        (1.., _) => None,
        (0, _) if !tif => None,
        (0, 0) => Some(Ok(Some(2))),
        (0, 4..) => Some(Err(Refusal { number: 15, at: 2 })),
        (0, _) => None,
    }
}

/// Every set of wrong lengths, with each window and each two entries of its first tile; its second
/// tile has a correction above the count.
#[test]
fn window() {
    for (tif, set) in [true, false].into_iter().flat_map(|tif| (0..32).map(move |set| (tif, set))) {
        let has = |bit: u32| set >> bit & 1 == 1;
        let cards = cards(tif);
        let sheet = Sheet { series: SERIES, card: &cards[usize::from(has(0))] };
        let count = if tif { 3 } else { 4 };
        let six = fault(set > 1, 6, 0);
        for (state, window) in windows() {
            for (c, e) in CORRECTIONS.into_iter().flat_map(|c| ENTRIES.map(|e| (c, e))) {
                let (list, entries) = ([3, 3, c, 3, 0], [0, 0, e, 0, 0]);
                let index = &entries[..if tif { 4 } else { 0 } + usize::from(has(1))];
                let tiles = Tiles { index, count: if has(2) { 5 } else { count } };
                let list = &list[..4 + usize::from(has(3))];
                let corrections = Corrections { list, count: if has(4) { 5 } else { 2 } };
                let found = sheet.corrected_window(tiles, corrections, window);
                let before = fault(has(0), 7, 44).or(six).or(state);
                let second = || Err(Refusal { number: 15, at: 3 });
                let right = || of_window(tif, c, e).unwrap_or_else(second).map(no_blanks);
                let right = before.map_or_else(right, Err);
                assert_eq!(found, right, "{tif} {set} {window:?} {c} {e}");
            }
        }
    }
}

/// Setting: every set of reading's refusal, 6 of the list, 6 of the count, 12 and 15.
#[test]
fn setting() {
    for (tif, set) in [true, false].into_iter().flat_map(|tif| (0..32).map(move |set| (tif, set))) {
        let has = |bit: u32| set >> bit & 1 == 1;
        let cards = cards(tif);
        let sheet = Sheet { series: SERIES, card: &cards[usize::from(has(0))] };
        let count = if has(2) { 5 } else { 2 };
        for length in if has(1) { vec![0, 3, 5] } else { vec![4] } {
            for tile in if has(3) { vec![4, 5, 1 << 32, u64::MAX] } else { vec![0, 3] } {
                let numbers = if has(4) { [6, 1 << 32, u64::MAX] } else { [0, 1, 2] };
                for number in numbers {
                    let mut list = vec![9; length];
                    let found = sheet.set_correction(&mut list, count, tile, number);
                    let six = fault(has(1) || has(2), 6, 0);
                    let late = fault(has(3), 12, 0).or(fault(has(4), 15, tile));
                    let right = fault(has(0), 7, 44).or(six).or(late);
                    let mut left = vec![9; length];
                    if right.is_none() {
                        left[tile as usize] = number as u32;
                    }
                    let right = right.map_or(Ok(no_blanks(())), Err);
                    assert_eq!((found, list), (right, left), "{set} {length} {tile} {number}");
                }
            }
        }
    }
}
