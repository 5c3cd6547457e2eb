//! (01, "Tiles"; 02, E2)

use super::grid::in_chart;
use super::{on_card, refuse, Answer, TILE, TILE_BYTES};
use fordcask::{Bands, Card, OnCard, Pixel, Window};

pub(super) fn tile_total(card: &Card) -> i128 {
    card.record.nfl as i128 * card.record.nfc as i128
}

/// The lengths of index and count, else 6.
pub(super) fn lengths(card: &Card, index: &[u32], count: u64) -> Answer<()> {
    let tiles = tile_total(card);
    let entries = index.len() as i128;
    let count = count as i128;
    let good = if card.record.tif {
        entries == tiles && count <= tiles
    } else {
        entries == 0 && count == tiles
    };
    if good {
        Ok(())
    } else {
        refuse(6, 0)
    }
}

/// A store of this many tiles, else 6.
pub(super) fn store_length(store: &[u8], count: u64) -> Answer<()> {
    if store.len() as i128 != count as i128 * TILE_BYTES {
        return refuse(6, 0);
    }
    Ok(())
}

/// Index check: 6, then 15 at the first bad entry. The marks become what 01 says.
pub fn index_check(
    read: &OnCard<Card>,
    index: &[u32],
    count: u64,
    marks: &mut [u8],
) -> Answer<OnCard<()>> {
    let card = &read.value;
    lengths(card, index, count)?;
    if (marks.len() as i128) < count as i128 {
        return refuse(6, 0);
    }
    if !card.record.tif {
        marks[..count as usize].fill(1);
        return on_card(read, ());
    }
    // how often each number 1..count occurs among the entries before the refused one
    let mut occurs = vec![0u32; count as usize + 1];
    let mut refused = None;
    for (i, entry) in index.iter().enumerate() {
        if *entry == 0 {
            continue;
        }
        if *entry as u64 > count || occurs[*entry as usize] > 0 {
            refused = Some(i);
            break;
        }
        occurs[*entry as usize] += 1;
    }
    for k in 1..=count as usize {
        marks[k - 1] = if occurs[k] > 0 { 1 } else { 0 };
    }
    if let Some(entry) = refused {
        return refuse(15, entry as u64);
    }
    if (1..=count as usize).any(|k| occurs[k] == 0) {
        return refuse(15, index.len() as u64);
    }
    on_card(read, ())
}

/// A pixel's tile, by its number from 0 in the image: 12, 13.
pub(super) fn tile_of(card: &Card, pixel: Pixel) -> Answer<u64> {
    let (row, column) = (pixel.row as i128, pixel.column as i128);
    in_chart(card, row, column)?;
    Ok((row / TILE * card.record.nfc as i128 + column / TILE) as u64)
}

/// The number of a tile among the stored ones, from 1: 14, 15. With N all are stored.
pub(super) fn stored_number(card: &Card, index: &[u32], count: u64, tile: u64) -> Answer<u64> {
    if !card.record.tif {
        return Ok(tile + 1);
    }
    let entry = index[tile as usize] as u64;
    if entry == 0 {
        return refuse(14, 0);
    }
    if entry > count {
        return refuse(15, tile);
    }
    Ok(entry)
}

/// The number of a pixel's tile among the stored ones, from 1. Tile look-up: 6, 12, 13, 14, 15.
pub fn lookup(
    read: &OnCard<Card>,
    index: &[u32],
    count: u64,
    store: &[u8],
    pixel: Pixel,
) -> Answer<OnCard<u64>> {
    let card = &read.value;
    lengths(card, index, count)?;
    store_length(store, count)?;
    let tile = tile_of(card, pixel)?;
    on_card(read, stored_number(card, index, count, tile)?)
}

/// The bytes of the k-th tile of a store, k from 1.
pub(super) fn tile_bytes(store: &[u8], k: u64) -> &[u8] {
    let start = (k as usize - 1) * TILE_BYTES as usize;
    &store[start..start + TILE_BYTES as usize]
}

/// Red, green, blue, each 128 rows of 128.
pub(super) fn values(tile: &[u8], pixel: Pixel) -> Bands {
    let (row, column) = (pixel.row as usize % 128, pixel.column as usize % 128);
    let byte = |band: usize| tile[band * 128 * 128 + row * 128 + column];
    Bands { red: byte(0), green: byte(1), blue: byte(2) }
}

/// The values of a pixel in its tile, with the refusals of look-up.
pub fn bands(
    read: &OnCard<Card>,
    index: &[u32],
    count: u64,
    store: &[u8],
    pixel: Pixel,
) -> Answer<OnCard<Bands>> {
    let stored = lookup(read, index, count, store, pixel)?;
    on_card(read, values(tile_bytes(store, stored.value), pixel))
}

/// top + height above NFL or left + width above NFC: 12.
pub(super) fn window_inside(card: &Card, window: Window) -> Answer<()> {
    let outside_down = window.top as i128 + window.height as i128 > card.record.nfl as i128;
    let outside_across = window.left as i128 + window.width as i128 > card.record.nfc as i128;
    if outside_down || outside_across {
        return refuse(12, 0);
    }
    Ok(())
}

/// Window: 6, 12, then 15 where an entry above the count comes before any missing tile.
pub fn window(
    read: &OnCard<Card>,
    index: &[u32],
    count: u64,
    window: Window,
) -> Answer<OnCard<Option<u64>>> {
    let card = &read.value;
    lengths(card, index, count)?;
    window_inside(card, window)?;
    let record = &card.record;
    if !record.tif {
        return on_card(read, None);
    }
    for row in window.top..window.top + window.height {
        for column in window.left..window.left + window.width {
            let tile = row * record.nfc + column;
            let entry = index[tile as usize] as u64;
            if entry == 0 {
                return on_card(read, Some(tile));
            }
            if entry > count {
                return refuse(15, tile);
            }
        }
    }
    on_card(read, None)
}
