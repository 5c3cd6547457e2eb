//! (02, E7; counts, stores, windows and places as in 01, "Tiles", corrections as in 02, E1): the
//! index as presence bits.

use super::tiles::{store_length, tile_bytes, tile_of, tile_total, values, window_inside};
use super::{on_card, refuse, Answer};
use fordcask::{Bands, Bits, Card, CorrectedTile, Corrections, OnCard, Pixel, Source, Window};

/// The first missing tile of a window, or none.
type Missing = Answer<OnCard<Option<u64>>>;

/// 6 unless this holds.
fn six_unless(good: bool) -> Answer<()> {
    match good {
        true => Ok(()),
        false => refuse(6, 0),
    }
}

/// The number of words: one bit a tile, 64 to a word; none with N.
fn words_length(card: &Card, words: usize) -> Answer<()> {
    let (tiles, words) = (tile_total(card), words as i128);
    // each tile has a bit, and each word has a tile
    let right = 64 * words >= tiles && 64 * (words - 1) < tiles;
    six_unless(if card.record.tif { right } else { words == 0 })
}

/// The length of the list: as many entries as tiles; empty with N.
fn list_length(card: &Card, entries: usize) -> Answer<()> {
    let right = if card.record.tif { tile_total(card) } else { 0 };
    six_unless(entries as i128 == right)
}

/// The words, and the stored count: at most the tiles, and all of them with N.
fn bits_length(card: &Card, bits: Bits) -> Answer<()> {
    words_length(card, bits.words.len())?;
    let (tiles, count) = (tile_total(card), bits.count as i128);
    six_unless(if card.record.tif { count <= tiles } else { count == tiles })
}

/// The corrections' list is as long as the tile grid, with N too; their count is at most that.
fn corrections_length(card: &Card, corrections: Corrections) -> Answer<()> {
    let tiles = tile_total(card);
    six_unless(corrections.list.len() as i128 == tiles && corrections.count as i128 <= tiles)
}

/// The bit of a tile, by its number from 0 in the image: 64 to a word, first tile lowest.
fn bit(words: &[u64], tile: u64) -> bool {
    let word = words[(tile / 64) as usize];
    word >> (tile % 64) & 1 == 1
}

/// A bit set past the last tile: 21.
fn none_past(card: &Card, words: &[u64]) -> Answer<()> {
    for place in tile_total(card) as u64..64 * words.len() as u64 {
        if bit(words, place) {
            return refuse(21, 0);
        }
    }
    Ok(())
}

/// List to bits: 6, then 20 unless the entries that aren't 0 are 1, 2, 3 and so on in reading
/// order. In a refusal the words stay.
pub fn to_bits(read: &OnCard<Card>, index: &[u32], words: &mut [u64]) -> Answer<OnCard<()>> {
    let card = &read.value;
    list_length(card, index.len())?;
    words_length(card, words.len())?;
    let mut last = 0;
    for entry in index.iter().filter(|entry| **entry != 0) {
        if *entry != last + 1 {
            return refuse(20, 0);
        }
        last = *entry;
    }
    words.fill(0);
    for (tile, entry) in index.iter().enumerate() {
        if *entry != 0 {
            words[tile / 64] += 1 << (tile % 64);
        }
    }
    on_card(read, ())
}

/// Bits to list: 6, then 21. In a refusal the list stays.
pub fn to_list(read: &OnCard<Card>, words: &[u64], index: &mut [u32]) -> Answer<OnCard<()>> {
    let card = &read.value;
    words_length(card, words.len())?;
    list_length(card, index.len())?;
    none_past(card, words)?;
    let mut ones = 0;
    for (tile, entry) in index.iter_mut().enumerate() {
        *entry = 0;
        if bit(words, tile as u64) {
            ones += 1;
            *entry = ones;
        }
    }
    on_card(read, ())
}

/// The number of a tile among the stored ones, the count of ones up to and including it: 14 for a
/// clear bit, 15 at the tile for a number above the count. With N all are stored in reading order.
fn stored_number(card: &Card, bits: Bits, tile: u64) -> Answer<u64> {
    if !card.record.tif {
        return Ok(tile + 1);
    }
    if !bit(bits.words, tile) {
        return refuse(14, 0);
    }
    let mut ones = 0;
    for other in 0..=tile {
        ones += if bit(bits.words, other) { 1 } else { 0 };
    }
    if ones > bits.count {
        return refuse(15, tile);
    }
    Ok(ones)
}

/// The number of a pixel's tile among the stored ones, from 1: 6, 21, 12, 13, 14, 15.
pub fn bits_lookup(
    read: &OnCard<Card>,
    bits: Bits,
    store: &[u8],
    pixel: Pixel,
) -> Answer<OnCard<u64>> {
    let card = &read.value;
    bits_length(card, bits)?;
    store_length(store, bits.count)?;
    none_past(card, bits.words)?;
    let tile = tile_of(card, pixel)?;
    on_card(read, stored_number(card, bits, tile)?)
}

/// The values of a pixel in its tile, with the same refusals.
pub fn bits_bands(
    read: &OnCard<Card>,
    bits: Bits,
    store: &[u8],
    pixel: Pixel,
) -> Answer<OnCard<Bands>> {
    let stored = bits_lookup(read, bits, store, pixel)?;
    on_card(read, values(tile_bytes(store, stored.value), pixel))
}

/// What stands at a tile in the corrections, 0 for none: 15 at the tile for an entry above the
/// corrected count.
fn correction(corrections: Corrections, tile: u64) -> Answer<u64> {
    let entry = corrections.list[tile as usize] as u64;
    if entry > corrections.count {
        return refuse(15, tile);
    }
    Ok(entry)
}

/// The tile of a pixel from whichever of the two stores holds it, corrected first: 6, 6 of the
/// corrections, 21, 12, 13, 15 of the correction, and where none stands 14, 15 of the bits.
pub fn corrected_bits_tile<'s>(
    read: &OnCard<Card>,
    bits: Bits,
    store: &'s [u8],
    corrections: Corrections,
    second: &'s [u8],
    pixel: Pixel,
) -> Answer<OnCard<CorrectedTile<'s>>> {
    let card = &read.value;
    bits_length(card, bits)?;
    store_length(store, bits.count)?;
    corrections_length(card, corrections)?;
    store_length(second, corrections.count)?;
    none_past(card, bits.words)?;
    let tile = tile_of(card, pixel)?;
    let (source, stored, held) = match correction(corrections, tile)? {
        0 => (Source::Base, stored_number(card, bits, tile)?, store),
        corrected => (Source::Corrections, corrected, second),
    };
    on_card(read, CorrectedTile { source, stored, bytes: tile_bytes(held, stored) })
}

/// The values of a pixel in that tile, with the same refusals.
pub fn corrected_bits_bands(
    read: &OnCard<Card>,
    bits: Bits,
    store: &[u8],
    corrections: Corrections,
    second: &[u8],
    pixel: Pixel,
) -> Answer<OnCard<Bands>> {
    let found = corrected_bits_tile(read, bits, store, corrections, second, pixel)?;
    on_card(read, values(found.value.bytes, pixel))
}

/// The tiles of a window in reading order: 15 for a correction above its count, and a corrected
/// tile isn't missing; where none stands, the first clear bit ends the search, or 15 for a number
/// above the count before it. With N none is missing.
fn search(
    card: &Card,
    bits: Bits,
    corrections: Option<Corrections>,
    window: Window,
) -> Answer<Option<u64>> {
    // the ones among the first tiles, as many as are counted
    let (mut counted, mut ones) = (0, 0);
    for row in window.top..window.top + window.height {
        for column in window.left..window.left + window.width {
            let tile = row * card.record.nfc + column;
            let corrected = corrections.map_or(Ok(0), |list| correction(list, tile))?;
            if corrected != 0 || !card.record.tif {
                continue;
            }
            if !bit(bits.words, tile) {
                return Ok(Some(tile));
            }
            while counted <= tile {
                ones += if bit(bits.words, counted) { 1 } else { 0 };
                counted += 1;
            }
            if ones > bits.count {
                return refuse(15, tile);
            }
        }
    }
    Ok(None)
}

/// Window: 6, 21, 12, then 15 where a number above the count comes before any missing tile.
pub fn bits_window(read: &OnCard<Card>, bits: Bits, window: Window) -> Missing {
    let card = &read.value;
    bits_length(card, bits)?;
    none_past(card, bits.words)?;
    window_inside(card, window)?;
    on_card(read, search(card, bits, None, window)?)
}

/// Window beside corrections: 6, 6 of the corrections, 21, 12, then 15 of either at its tile.
pub fn corrected_bits_window(
    read: &OnCard<Card>,
    bits: Bits,
    corrections: Corrections,
    window: Window,
) -> Missing {
    let card = &read.value;
    bits_length(card, bits)?;
    corrections_length(card, corrections)?;
    none_past(card, bits.words)?;
    window_inside(card, window)?;
    on_card(read, search(card, bits, Some(corrections), window)?)
}
