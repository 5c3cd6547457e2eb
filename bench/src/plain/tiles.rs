//! Index check, window, tile look-up.

use super::read::read_card;
use super::{refuse, Card, Refusal, TILE};
use fordcask::Series;

/// The stored tile: its number from 1, and where it starts in the store.
#[derive(Clone, Copy, PartialEq, Debug)]
pub struct Found {
    pub stored: u64,
    pub offset: usize,
}

impl Card {
    pub fn tiles(&self) -> usize {
        (self.nfl * self.nfc) as usize
    }

    /// 6: index and count against the tile grid.
    pub fn lengths(&self, index: &[u32], count: u64) -> Result<(), Refusal> {
        let tiles = self.tiles();
        let good = if self.tif {
            index.len() == tiles && count <= tiles as u64
        } else {
            index.is_empty() && count == tiles as u64
        };
        if good {
            Ok(())
        } else {
            refuse(6, 0)
        }
    }

    /// 6: index, count and store.
    pub fn base_lengths(&self, index: &[u32], count: u64, store: &[u8]) -> Result<(), Refusal> {
        self.lengths(index, count)?;
        if store.len() as u64 != count * TILE as u64 {
            return refuse(6, 0);
        }
        Ok(())
    }

    /// 12, 13: the tile of a pixel.
    pub fn tile_at(&self, row: i64, column: i64) -> Result<usize, Refusal> {
        if let Err(number) = self.bounds(row, column) {
            return refuse(number, 0);
        }
        Ok((row / 128 * self.nfc + column / 128) as usize)
    }

    /// 14, 15: the stored tile.
    pub fn stored(&self, index: &[u32], count: u64, tile: usize) -> Result<Found, Refusal> {
        let stored = if self.tif {
            u64::from(index[tile])
        } else {
            tile as u64 + 1
        };
        if stored == 0 {
            return refuse(14, 0);
        }
        if stored > count {
            return refuse(15, tile as u64);
        }
        let offset = (stored - 1) as usize * TILE;
        Ok(Found { stored, offset })
    }

    fn tile(
        &self,
        index: &[u32],
        count: u64,
        store: &[u8],
        row: i64,
        column: i64,
    ) -> Result<Found, Refusal> {
        self.base_lengths(index, count, store)?;
        let tile = self.tile_at(row, column)?;
        self.stored(index, count, tile)
    }

    /// 12: a window against the tile grid.
    pub fn window_fits(&self, window: &Window) -> Result<(), Refusal> {
        let fits = |start: u64, length: u64, limit: i64| {
            start <= limit as u64 && length <= limit as u64 - start
        };
        if fits(window.top, window.height, self.nfl) && fits(window.left, window.width, self.nfc) {
            Ok(())
        } else {
            refuse(12, 0)
        }
    }
}

#[inline(never)]
pub fn index_check(
    series: Series,
    card: &[u8],
    index: &[u32],
    count: u64,
    marks: &mut [u8],
) -> Result<(), Refusal> {
    let card = read_card(series, card)?;
    card.lengths(index, count)?;
    if (marks.len() as u64) < count {
        return refuse(6, 0);
    }
    let marks = &mut marks[..count as usize];
    if !card.tif {
        marks.fill(1);
        return Ok(());
    }
    marks.fill(0);
    let mut named = 0;
    for (at, &entry) in index.iter().enumerate() {
        if entry == 0 {
            continue;
        }
        match marks.get_mut(entry as usize - 1) {
            Some(mark) if *mark == 0 => *mark = 1,
            _ => return refuse(15, at as u64),
        }
        named += 1;
    }
    if named < count {
        return refuse(15, index.len() as u64);
    }
    Ok(())
}

/// Top, left, height and width in tiles.
#[derive(Clone, Copy)]
pub struct Window {
    pub top: u64,
    pub left: u64,
    pub height: u64,
    pub width: u64,
}

/// The first tile of the window that isn't stored.
#[inline(never)]
pub fn window(
    series: Series,
    card: &[u8],
    index: &[u32],
    count: u64,
    window: &Window,
) -> Result<Option<u64>, Refusal> {
    let card = read_card(series, card)?;
    card.lengths(index, count)?;
    card.window_fits(window)?;
    if !card.tif {
        return Ok(None);
    }
    let nfc = card.nfc as u64;
    for row in window.top..window.top + window.height {
        for column in window.left..window.left + window.width {
            let tile = row * nfc + column;
            let entry = u64::from(index[tile as usize]);
            if entry == 0 {
                return Ok(Some(tile));
            }
            if entry > count {
                return refuse(15, tile);
            }
        }
    }
    Ok(None)
}

/// A pixel's question to an image: index, count, store, row and column.
#[derive(Clone, Copy)]
pub struct Look<'a> {
    pub index: &'a [u32],
    pub count: u64,
    pub store: &'a [u8],
    pub row: i64,
    pub column: i64,
}

#[inline(never)]
pub fn tile<'a>(
    series: Series,
    card: &[u8],
    look: &Look<'a>,
) -> Result<(Found, &'a [u8]), Refusal> {
    let card = read_card(series, card)?;
    let found = card.tile(look.index, look.count, look.store, look.row, look.column)?;
    Ok((found, &look.store[found.offset..found.offset + TILE]))
}

#[inline(never)]
pub fn bands(series: Series, card: &[u8], look: &Look) -> Result<[u8; 3], Refusal> {
    let card = read_card(series, card)?;
    let found = card.tile(look.index, look.count, look.store, look.row, look.column)?;
    let part = &look.store[found.offset..found.offset + TILE];
    Ok(values(part, look.row, look.column))
}

/// Red, green and blue of a pixel in its tile.
pub fn values(part: &[u8], row: i64, column: i64) -> [u8; 3] {
    let at = (row % 128 * 128 + column % 128) as usize;
    [part[at], part[at + 16_384], part[at + 32_768]]
}
