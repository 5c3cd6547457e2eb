//! (02, E1; the lists, parts and places as in 01, "Tiles"): corrections beside the base charts.

use super::tiles::{lengths, store_length, stored_number, tile_bytes, tile_of, tile_total};
use super::tiles::{values, window_inside};
use super::{on_card, refuse, Answer};
use fordcask::{Bands, Card, CorrectedTile, Corrections, OnCard, Pixel, Source, Tiles, Window};

/// The new 6: the second list is as long as the tile grid, with N too, and the corrected count is
/// at most the tiles.
fn second_lengths(card: &Card, entries: usize, count: u64) -> Answer<()> {
    let tiles = tile_total(card);
    if entries as i128 != tiles || count as i128 > tiles {
        return refuse(6, 0);
    }
    Ok(())
}

/// What stands at a tile in the second list: none for 0, k for the k-th corrected tile; 15 at the
/// tile for an entry above the corrected count.
fn correction(corrections: Corrections, tile: u64) -> Answer<Option<u64>> {
    match corrections.list[tile as usize] as u64 {
        0 => Ok(None),
        entry if entry > corrections.count => refuse(15, tile),
        entry => Ok(Some(entry)),
    }
}

/// The tile of a pixel from whichever of the two stores holds it, corrected first: 6, the new 6,
/// 12, 13, then 15 of the correction, and where none stands 14, 15 of the base entry.
pub fn corrected_tile<'s>(
    read: &OnCard<Card>,
    tiles: Tiles,
    store: &'s [u8],
    corrections: Corrections,
    second: &'s [u8],
    pixel: Pixel,
) -> Answer<OnCard<CorrectedTile<'s>>> {
    let card = &read.value;
    lengths(card, tiles.index, tiles.count)?;
    store_length(store, tiles.count)?;
    second_lengths(card, corrections.list.len(), corrections.count)?;
    store_length(second, corrections.count)?;
    let tile = tile_of(card, pixel)?;
    let (source, stored, held) = match correction(corrections, tile)? {
        Some(stored) => (Source::Corrections, stored, second),
        None => {
            let stored = stored_number(card, tiles.index, tiles.count, tile)?;
            (Source::Base, stored, store)
        }
    };
    on_card(read, CorrectedTile { source, stored, bytes: tile_bytes(held, stored) })
}

/// The values of a pixel in that tile, with the same refusals.
pub fn corrected_bands(
    read: &OnCard<Card>,
    tiles: Tiles,
    store: &[u8],
    corrections: Corrections,
    second: &[u8],
    pixel: Pixel,
) -> Answer<OnCard<Bands>> {
    let found = corrected_tile(read, tiles, store, corrections, second, pixel)?;
    on_card(read, values(found.value.bytes, pixel))
}

/// Window: 6, the new 6, 12, then tile by tile in reading order: 15 for a correction above its
/// count; a corrected tile isn't missing; where none stands, the base entry decides.
pub fn corrected_window(
    read: &OnCard<Card>,
    tiles: Tiles,
    corrections: Corrections,
    window: Window,
) -> Answer<OnCard<Option<u64>>> {
    let card = &read.value;
    lengths(card, tiles.index, tiles.count)?;
    second_lengths(card, corrections.list.len(), corrections.count)?;
    window_inside(card, window)?;
    for row in window.top..window.top + window.height {
        for column in window.left..window.left + window.width {
            let tile = row * card.record.nfc + column;
            // with N every tile is stored
            if correction(corrections, tile)?.is_some() || !card.record.tif {
                continue;
            }
            let entry = tiles.index[tile as usize] as u64;
            if entry == 0 {
                return on_card(read, Some(tile));
            }
            if entry > tiles.count {
                return refuse(15, tile);
            }
        }
    }
    on_card(read, None)
}

/// Setting one entry: the new 6, 12 for a tile outside, 15 at the tile for a number above the
/// corrected count; 0 takes a correction back. In a refusal the list stays.
pub fn set_correction(
    read: &OnCard<Card>,
    list: &mut [u32],
    count: u64,
    tile: u64,
    number: u64,
) -> Answer<OnCard<()>> {
    let card = &read.value;
    second_lengths(card, list.len(), count)?;
    if tile as i128 >= tile_total(card) {
        return refuse(12, 0);
    }
    if number > count {
        return refuse(15, tile);
    }
    list[tile as usize] = number as u32;
    on_card(read, ())
}
