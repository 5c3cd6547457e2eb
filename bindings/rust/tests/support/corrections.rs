//! Images with corrections beside their stored tiles, good and wrong (02, E1).

use super::index::{good_index, index_of, small, spoil};
use super::make::{card, Maker};
use super::random::Random;
use fordcask::{Corrections, Pixel, Record, Series, Sheet, Tiles, Window, TILE_LENGTH};

/// An image as it is lent: its card, index and store, its corrections and their store.
#[derive(Clone, Copy)]
pub struct Image<'a> {
    pub sheet: Sheet<'a>,
    pub tiles: Tiles<'a>,
    pub store: &'a [u8],
    pub corrections: Corrections<'a>,
    pub second: &'a [u8],
}

/// An image as it is held: card, index and count, corrections and their count.
#[derive(Clone)]
pub struct Held {
    pub series: Series,
    pub record: Record,
    pub card: Vec<u8>,
    pub index: Vec<u32>,
    pub count: u64,
    pub list: Vec<u32>,
    pub corrected: u64,
}

impl Held {
    /// Lent with these stores.
    pub fn with<'a>(&'a self, store: &'a [u8], second: &'a [u8]) -> Image<'a> {
        Image {
            sheet: self.sheet(),
            tiles: Tiles { index: &self.index, count: self.count },
            store,
            corrections: Corrections { list: &self.list, count: self.corrected },
            second,
        }
    }

    /// Lent with stores of the right lengths: the first bytes, and the last.
    pub fn lent<'a>(&'a self, bytes: &'a [u8]) -> Image<'a> {
        let [first, last] = [self.count, self.corrected].map(|k| k as usize * TILE_LENGTH);
        self.with(&bytes[..first], &bytes[bytes.len() - last..])
    }

    pub fn sheet(&self) -> Sheet<'_> {
        Sheet { series: self.series, card: &self.card }
    }

    /// NFL × NFC.
    pub fn tiles(&self) -> usize {
        (self.record.nfl * self.record.nfc) as usize
    }

    /// The same with another list of corrections.
    pub fn listing(&self, list: Vec<u32>) -> Held {
        Held { list, ..self.clone() }
    }
}

/// Bytes for stores of this many tiles, all of them random.
pub fn store_bytes(random: &mut Random, tiles: usize) -> Vec<u8> {
    (0..tiles * TILE_LENGTH).map(|_| random.byte()).collect()
}

/// A store for a count, of a wrong length once in 16; it starts anywhere in the bytes.
pub fn store_of<'b>(random: &mut Random, bytes: &'b [u8], count: u64) -> &'b [u8] {
    let most = bytes.len() / TILE_LENGTH - 1;
    let right = count.min(most as u64) as usize * TILE_LENGTH;
    let length = match random.below(64) {
        0 => right + 1,
        1 => right.saturating_sub(1),
        2 => random.below(most) * TILE_LENGTH,
        3 => right + TILE_LENGTH,
        _ => right,
    };
    let start = random.below(bytes.len() - length + 1);
    &bytes[start..start + length]
}

/// A list of corrections of the right length: none, each number once, or any of them, repeats too;
/// one or two entries are changed in many cases.
pub fn some_list(random: &mut Random, tiles: usize, corrected: usize) -> Vec<u32> {
    let mut list = match random.below(5) {
        0 => vec![0; tiles],
        1 | 2 => good_index(random, tiles, corrected),
        3 => (0..tiles).map(|_| random.below(corrected + 1) as u32).collect(),
        _ => (0..tiles).map(|_| corrected.min(1) as u32).collect(),
    };
    for _ in 0..random.below(4).saturating_sub(1) {
        spoil(random, &mut list, corrected);
    }
    list
}

/// A corrected count that is accepted.
fn some_count(random: &mut Random, tiles: usize) -> usize {
    match random.below(6) {
        0 => tiles,
        1 => 0,
        _ => random.below(tiles + 1),
    }
}

/// A list of corrections and their count for a record, of a wrong length once in six.
pub fn corrections_of(random: &mut Random, record: &Record) -> (Vec<u32>, u64) {
    let tiles = (record.nfl * record.nfc) as usize;
    let corrected = some_count(random, tiles);
    let mut list = some_list(random, tiles, corrected);
    match random.below(30) {
        0 => list.push(0),
        1 => drop(list.pop()),
        2 => list.clear(),
        3 => return (list, random.pick(&[u64::MAX, 1 << 63, 1 << 32, tiles as u64 + 1])),
        4 => return (list, random.below(tiles + 2) as u64),
        _ => (),
    }
    (list, corrected as u64)
}

/// A small image with lists good and wrong; its sides are 1 to `most` tiles.
pub fn any_held(random: &mut Random, maker: Maker, most: i64) -> Held {
    let tif = !random.once_in(4);
    let (series, record) = small(random, maker, most, tif);
    let card = card(series, &record);
    let (index, count) = index_of(random, &record);
    let (list, corrected) = corrections_of(random, &record);
    Held { series, record, card, index, count, list, corrected }
}

/// A small image with lists of the right lengths, their entries good and wrong.
pub fn right_held(random: &mut Random, maker: Maker, most: i64) -> Held {
    let tif = !random.once_in(4);
    let (series, record) = small(random, maker, most, tif);
    let card = card(series, &record);
    let tiles = (record.nfl * record.nfc) as usize;
    let corrected = some_count(random, tiles);
    let list = some_list(random, tiles, corrected);
    let count = if tif { some_count(random, tiles) } else { tiles };
    let index = if tif { some_list(random, tiles, count) } else { Vec::new() };
    let (count, corrected) = (count as u64, corrected as u64);
    Held { series, record, card, index, count, list, corrected }
}

/// A pixel of each tile, in reading order; it may be padding.
pub fn pixel_of_each(random: &mut Random, record: &Record) -> Vec<Pixel> {
    let mut pixels = Vec::new();
    for down in 0..record.nfl as i64 {
        for across in 0..record.nfc as i64 {
            let mut inside = || random.pick(&[0, 127, 64, 1]) + random.pick(&[0, 0, 0, -1, 1]);
            let (row, column) = (inside(), inside());
            let (row, column) = (row.clamp(0, 127), column.clamp(0, 127));
            pixels.push(Pixel { row: 128 * down + row, column: 128 * across + column });
        }
    }
    pixels
}

/// Every window inside the tiles, the empty ones too.
pub fn every_window(record: &Record) -> Vec<Window> {
    let sides = |tiles: u64| -> Vec<(u64, u64)> {
        (0..=tiles)
            .flat_map(|first| (0..=tiles - first).map(move |length| (first, length)))
            .collect()
    };
    let mut windows = Vec::new();
    for (top, height) in sides(record.nfl) {
        for (left, width) in sides(record.nfc) {
            windows.push(Window { top, left, height, width });
        }
    }
    windows
}

/// Whether a window has this tile.
pub fn has_tile(record: &Record, window: Window, tile: u64) -> bool {
    let (row, column) = (tile / record.nfc, tile % record.nfc);
    let down = window.top <= row && row < window.top + window.height;
    down && window.left <= column && column < window.left + window.width
}
