//! Every question on a card, put to both sides.

use super::ask::Ask;
use super::ask_lists::{pixels, positions};
use super::corrections::Image;
use fordcask::{Corrections, Pixel, Position, Sheet, Tiles, Window};

/// The questions on a card that `ask_all` puts, under the names they are counted by.
pub const QUESTIONS: [&str; 15] = [
    "read",
    "place",
    "position",
    "pixel",
    "positions",
    "pixels",
    "index_check",
    "tile",
    "bands",
    "window",
    "overview_pixel",
    "corrected_tile",
    "corrected_bands",
    "corrected_window",
    "set_correction",
];

/// Puts every question to a sheet, at a pixel and at a position; `other` is its overview.
pub fn ask_all(ask: &mut Ask, sheet: &Sheet, other: &Sheet, pixel: Pixel, position: Position) {
    let _ = ask.read(sheet.series, sheet.card);
    let _ = ask.place(sheet, pixel);
    let _ = ask.position(sheet, pixel);
    let _ = ask.pixel(sheet, position);
    positions(ask, sheet, &[pixel], 2, 1);
    pixels(ask, sheet, &[position], 1, 2);
    let (tiles, store) = (Tiles { index: &[], count: 2 }, [9; 2 * 49_152]);
    let _ = ask.index_check(sheet, tiles, 3);
    let _ = ask.tile(sheet, tiles, &store, pixel);
    let _ = ask.bands(sheet, tiles, &store, pixel);
    let _ = ask.window(sheet, tiles, Window { top: 0, left: 0, height: 1, width: 1 });
    let _ = ask.overview_pixel(sheet, other, pixel);
    let _ = ask.overview_pixel(other, sheet, pixel);
    ask_corrected(ask, sheet, tiles, &store, pixel);
}

/// The questions on corrections (02, E1): the second of two tiles is corrected.
fn ask_corrected(ask: &mut Ask, sheet: &Sheet, tiles: Tiles, store: &[u8], pixel: Pixel) {
    let (mut list, second) = ([0, 1], [8; 49_152]);
    let corrections = Corrections { list: &list, count: 1 };
    let image = Image { sheet: *sheet, tiles, store, corrections, second: &second };
    let _ = ask.corrected_tile(&image, pixel);
    let _ = ask.corrected_bands(&image, pixel);
    let _ = ask.corrected_window(&image, Window { top: 0, left: 0, height: 1, width: 1 });
    let _ = ask.set_correction(sheet, &mut list, 1, 0, 1);
}
