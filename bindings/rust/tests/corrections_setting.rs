//! Setting one entry touches that entry only and changes look-ups in that tile only; these answer
//! from the new entry (02, E1). The library is compared with itself, before and after.

use crate::support;
use fordcask::{Pixel, Source, Window, TILE_LENGTH};
use support::ask_corrections::{look_ups, missing, Part};
use support::corrections::{every_window, has_tile, pixel_of_each, right_held, store_bytes};
use support::corrections::{Held, Image};
use support::make::{chart, overview, town_chart, Maker};
use support::{no_blanks, seeded, Random};

const MAKERS: [Maker; 3] = [chart, town_chart, overview];

/// The same image with one entry set by the library: a tile and a number that are accepted.
fn set_one(random: &mut Random, held: &Held) -> (Held, u64, u64) {
    let tile = match random.below(4) {
        0 => 0,
        1 => held.tiles() as u64 - 1,
        _ => random.below(held.tiles()) as u64,
    };
    let number = match random.below(4) {
        0 => 0,
        1 => held.corrected,
        _ => random.between(held.corrected.min(1) as i64, held.corrected as i64) as u64,
    };
    let mut list = held.list.clone();
    let set = held.sheet().set_correction(&mut list, held.corrected, tile, number);
    assert_eq!(set, Ok(no_blanks(())), "{tile} {number}");
    (held.listing(list), tile, number)
}

/// The tile of a pixel of the tiles.
fn tile_at(held: &Held, pixel: Pixel) -> u64 {
    (pixel.row / 128) as u64 * held.record.nfc + (pixel.column / 128) as u64
}

/// Whether the chart has a pixel.
fn in_chart(held: &Held, pixel: Pixel) -> bool {
    let (rows, columns) = (held.record.nul..=held.record.nll, held.record.nls..=held.record.nus);
    rows.contains(&(pixel.row as u64)) && columns.contains(&(pixel.column as u64))
}

/// No other entry is touched.
#[test]
fn one_entry() {
    let mut random = seeded("one_entry");
    for round in 0..40_000 {
        let held = right_held(&mut random, MAKERS[round % 3], 5);
        let (after, tile, number) = set_one(&mut random, &held);
        for (i, (before, after)) in held.list.iter().zip(&after.list).enumerate() {
            let right = if i as u64 == tile { number as u32 } else { *before };
            assert_eq!(*after, right, "entry {i} of {:?}, {tile} set to {number}", held.list);
        }
    }
}

/// A pixel of that tile answers from the new entry: the corrected tile, or as document 01 has it.
fn from_the_entry(image: &Image, pixel: Pixel, number: u64) {
    let Image { sheet, tiles, store, second, .. } = *image;
    let (found, values) = look_ups(image, pixel);
    if number == 0 {
        let base = sheet.stored(tiles, store, pixel).map(|told| told.value);
        let right = sheet.tile(tiles, store, pixel).map(|told| {
            let (start, length) = (told.value.as_ptr(), told.value.len());
            no_blanks(Part { source: Source::Base, stored: base.unwrap_or(0), start, length })
        });
        assert_eq!((found, values), (right, sheet.bands(tiles, store, pixel)));
        return;
    }
    let bytes = &second[(number as usize - 1) * TILE_LENGTH..][..TILE_LENGTH];
    let (source, start) = (Source::Corrections, bytes.as_ptr());
    let right = Part { source, stored: number, start, length: TILE_LENGTH };
    assert_eq!(found, Ok(no_blanks(right)), "{pixel:?}");
    let at = (pixel.row % 128 * 128 + pixel.column % 128) as usize;
    let values = values.map(|told| [told.value.red, told.value.green, told.value.blue]);
    assert_eq!(values, Ok([0, 16_384, 32_768].map(|band| bytes[at + band])), "{pixel:?}");
}

/// Pixels of every tile before and after: the same in other tiles, from the entry in that one.
#[test]
fn look_ups_in_that_tile_only() {
    let mut random = seeded("look_ups_in_that_tile_only");
    let bytes = store_bytes(&mut random, 18);
    let (mut same, mut taken_back, mut from) = (0, 0, 0);
    for round in 0..24_000 {
        let before = right_held(&mut random, MAKERS[round % 3], 3);
        let (after, tile, number) = set_one(&mut random, &before);
        let (old, new) = (before.lent(&bytes), after.lent(&bytes));
        for pixel in pixel_of_each(&mut random, &before.record) {
            if tile_at(&before, pixel) != tile || !in_chart(&before, pixel) {
                assert_eq!(look_ups(&new, pixel), look_ups(&old, pixel), "{pixel:?}");
                same += 1;
                continue;
            }
            from_the_entry(&new, pixel, number);
            *if number == 0 { &mut taken_back } else { &mut from } += 1;
        }
        let outside = Pixel { row: -1, column: 0 };
        assert_eq!(look_ups(&new, outside), look_ups(&old, outside), "outside");
    }
    assert!(same > 40_000 && taken_back > 2_500 && from > 4_000, "{same} {taken_back} {from}");
}

/// Every window before and after: the same where the tile is not in it.
#[test]
fn windows_without_that_tile() {
    let mut random = seeded("windows_without_that_tile");
    let mut same = 0;
    for round in 0..10_000 {
        let before = right_held(&mut random, MAKERS[round % 3], 3);
        let (after, tile, number) = set_one(&mut random, &before);
        let ask = |held: &Held, window| missing(&held.with(&[], &[]), window);
        for window in every_window(&before.record) {
            if !has_tile(&before.record, window, tile) {
                assert_eq!(ask(&after, window), ask(&before, window), "{window:?}");
                same += 1;
            }
        }
        // the tile alone: not missing where it is corrected, else as document 01 has it
        let (top, left) = (tile / before.record.nfc, tile % before.record.nfc);
        let alone = Window { top, left, height: 1, width: 1 };
        let image = after.with(&[], &[]);
        let right = match number {
            0 => image.sheet.window(image.tiles, alone),
            _ => Ok(no_blanks(None)),
        };
        assert_eq!(ask(&after, alone), right, "{alone:?}");
    }
    assert!(same > 100_000, "{same} windows without the tile");
}

/// Taking a correction back, and setting it again, gives the list back.
#[test]
fn there_and_back() {
    let mut random = seeded("there_and_back");
    for round in 0..5_000 {
        let held = right_held(&mut random, MAKERS[round % 3], 5);
        let (sheet, mut list) = (held.sheet(), held.list.clone());
        let tile = random.below(held.tiles());
        let old = u64::from(list[tile]);
        for number in [0, held.corrected, old] {
            let set = sheet.set_correction(&mut list, held.corrected, tile as u64, number);
            assert_eq!(set.is_ok(), number <= held.corrected, "{number}");
        }
        assert_eq!(list == held.list, old <= held.corrected, "{old}");
    }
}
