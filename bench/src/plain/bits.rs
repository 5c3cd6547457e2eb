//! The index as presence bits (02, E7): the plain rule over words.

use super::corrections::Beside;
use super::read::read_card;
use super::tiles::{Found, Window};
use super::{refuse, Card, Refusal, TILE};
use fordcask::Series;

/// A pixel's question to an image: words, count, store, row and column.
#[derive(Clone, Copy)]
pub struct Look<'a> {
    pub words: &'a [u64],
    pub count: u64,
    pub store: &'a [u8],
    pub row: i64,
    pub column: i64,
}

impl Card {
    /// 6: words and count against the tile grid.
    fn words_lengths(&self, words: &[u64], count: u64) -> Result<(), Refusal> {
        let tiles = self.tiles();
        let good = if self.tif {
            words.len() == tiles.div_ceil(64) && count <= tiles as u64
        } else {
            words.is_empty() && count == tiles as u64
        };
        if good {
            Ok(())
        } else {
            refuse(6, 0)
        }
    }

    /// 21: a bit set past the last tile.
    fn no_stray(&self, words: &[u64]) -> Result<(), Refusal> {
        let tiles = self.tiles();
        match words.last() {
            Some(last) if tiles % 64 != 0 && last >> (tiles % 64) != 0 => refuse(21, 0),
            _ => Ok(()),
        }
    }

    /// 14, 15: the stored tile, by the ones of the whole words before and of its word up to it.
    fn counted(&self, words: &[u64], count: u64, tile: usize) -> Result<Found, Refusal> {
        let stored = if self.tif {
            if !bit(words, tile) {
                return refuse(14, 0);
            }
            let whole: u64 = words[..tile / 64].iter().map(ones).sum();
            whole + ones(&(words[tile / 64] & (u64::MAX >> (63 - tile % 64))))
        } else {
            tile as u64 + 1
        };
        if stored > count {
            return refuse(15, tile as u64);
        }
        let offset = (stored - 1) as usize * TILE;
        Ok(Found { stored, offset })
    }
}

fn ones(word: &u64) -> u64 {
    u64::from(word.count_ones())
}

fn bit(words: &[u64], tile: usize) -> bool {
    words[tile / 64] >> (tile % 64) & 1 == 1
}

/// The first tile whose count of ones passes the stated one, in one pass over the words.
fn limit(words: &[u64], count: u64) -> usize {
    let mut before = 0;
    for (i, word) in words.iter().enumerate() {
        let more = before + ones(word);
        if more > count {
            let passed = |tile: &usize| {
                let mask = u64::MAX >> (63 - tile % 64);
                before + ones(&(word & mask)) > count
            };
            return (64 * i..64 * i + 64).find(passed).unwrap();
        }
        before = more;
    }
    64 * words.len()
}

/// The tile of a pixel, and its part of the store.
#[inline(never)]
pub fn tile<'a>(
    series: Series,
    card: &[u8],
    look: &Look<'a>,
) -> Result<(Found, &'a [u8]), Refusal> {
    let card = read_card(series, card)?;
    card.words_lengths(look.words, look.count)?;
    if look.store.len() as u64 != look.count * TILE as u64 {
        return refuse(6, 0);
    }
    card.no_stray(look.words)?;
    let tile = card.tile_at(look.row, look.column)?;
    let found = card.counted(look.words, look.count, tile)?;
    Ok((found, &look.store[found.offset..found.offset + TILE]))
}

/// The same, corrected first; whether it is a corrected one.
#[inline(never)]
pub fn corrected_tile<'a>(
    series: Series,
    card: &[u8],
    look: &Look<'a>,
    beside: &Beside<'a>,
) -> Result<(bool, Found), Refusal> {
    let card = read_card(series, card)?;
    card.words_lengths(look.words, look.count)?;
    if look.store.len() as u64 != look.count * TILE as u64 {
        return refuse(6, 0);
    }
    card.list_lengths(beside.list, beside.count)?;
    if beside.store.len() as u64 != beside.count * TILE as u64 {
        return refuse(6, 0);
    }
    card.no_stray(look.words)?;
    let tile = card.tile_at(look.row, look.column)?;
    let stored = u64::from(beside.list[tile]);
    if stored > beside.count {
        return refuse(15, tile as u64);
    }
    if stored != 0 {
        let offset = (stored - 1) as usize * TILE;
        return Ok((true, Found { stored, offset }));
    }
    Ok((false, card.counted(look.words, look.count, tile)?))
}

/// The first tile of the window that isn't stored.
#[inline(never)]
pub fn window(
    series: Series,
    card: &[u8],
    words: &[u64],
    count: u64,
    window: &Window,
) -> Result<Option<u64>, Refusal> {
    let card = read_card(series, card)?;
    card.words_lengths(words, count)?;
    card.no_stray(words)?;
    card.window_fits(window)?;
    if !card.tif {
        return Ok(None);
    }
    let limit = limit(words, count);
    for row in window.top..window.top + window.height {
        for column in window.left..window.left + window.width {
            let tile = row * card.nfc as u64 + column;
            if !bit(words, tile as usize) {
                return Ok(Some(tile));
            }
            if tile as usize >= limit {
                return refuse(15, tile);
            }
        }
    }
    Ok(None)
}

/// The same, a corrected tile not being missing.
#[inline(never)]
pub fn corrected_window(
    series: Series,
    card: &[u8],
    base: (&[u64], u64),
    beside: (&[u32], u64),
    window: &Window,
) -> Result<Option<u64>, Refusal> {
    let card = read_card(series, card)?;
    let ((words, count), (list, corrected)) = (base, beside);
    card.words_lengths(words, count)?;
    card.list_lengths(list, corrected)?;
    card.no_stray(words)?;
    card.window_fits(window)?;
    let limit = limit(words, count);
    for row in window.top..window.top + window.height {
        for column in window.left..window.left + window.width {
            let tile = row * card.nfc as u64 + column;
            let correction = u64::from(list[tile as usize]);
            if correction > corrected {
                return refuse(15, tile);
            }
            if correction != 0 || !card.tif {
                continue;
            }
            if !bit(words, tile as usize) {
                return Ok(Some(tile));
            }
            if tile as usize >= limit {
                return refuse(15, tile);
            }
        }
    }
    Ok(None)
}
