//! Corrections beside the base charts (02, E1).

use super::read::read_card;
use super::tiles::{values, Found, Look, Window};
use super::{refuse, Card, Refusal, TILE};
use fordcask::Series;

/// The second list, the corrected count and the second store.
#[derive(Clone, Copy)]
pub struct Beside<'a> {
    pub list: &'a [u32],
    pub count: u64,
    pub store: &'a [u8],
}

/// A stored tile, and whether it is a corrected one.
type Sourced = (bool, Found);

impl Card {
    /// 6: the second list and its count.
    pub fn list_lengths(&self, list: &[u32], count: u64) -> Result<(), Refusal> {
        if list.len() != self.tiles() || count > self.tiles() as u64 {
            return refuse(6, 0);
        }
        Ok(())
    }

    fn sourced(&self, look: &Look, beside: &Beside) -> Result<Sourced, Refusal> {
        self.base_lengths(look.index, look.count, look.store)?;
        self.list_lengths(beside.list, beside.count)?;
        if beside.store.len() as u64 != beside.count * TILE as u64 {
            return refuse(6, 0);
        }
        let tile = self.tile_at(look.row, look.column)?;
        let stored = u64::from(beside.list[tile]);
        if stored > beside.count {
            return refuse(15, tile as u64);
        }
        if stored != 0 {
            let offset = (stored - 1) as usize * TILE;
            return Ok((true, Found { stored, offset }));
        }
        Ok((false, self.stored(look.index, look.count, tile)?))
    }
}

/// The tile of a pixel, corrected first, and its part of whichever store holds it.
#[inline(never)]
pub fn tile<'a>(
    series: Series,
    card: &[u8],
    look: &Look<'a>,
    beside: &Beside<'a>,
) -> Result<(Sourced, &'a [u8]), Refusal> {
    let card = read_card(series, card)?;
    let (corrected, found) = card.sourced(look, beside)?;
    let store = if corrected { beside.store } else { look.store };
    Ok((
        (corrected, found),
        &store[found.offset..found.offset + TILE],
    ))
}

#[inline(never)]
pub fn bands(
    series: Series,
    card: &[u8],
    look: &Look,
    beside: &Beside,
) -> Result<[u8; 3], Refusal> {
    let (_, part) = tile(series, card, look, beside)?;
    Ok(values(part, look.row, look.column))
}

/// The first tile of the window that is neither corrected nor stored.
#[inline(never)]
pub fn window(
    series: Series,
    card: &[u8],
    base: (&[u32], u64),
    beside: (&[u32], u64),
    window: &Window,
) -> Result<Option<u64>, Refusal> {
    let card = read_card(series, card)?;
    let ((index, count), (list, corrected)) = (base, beside);
    card.lengths(index, count)?;
    card.list_lengths(list, corrected)?;
    card.window_fits(window)?;
    for row in window.top..window.top + window.height {
        for column in window.left..window.left + window.width {
            let tile = row * card.nfc as u64 + column;
            let correction = u64::from(list[tile as usize]);
            if correction > corrected {
                return refuse(15, tile);
            }
            if correction != 0 || !card.tif {
                continue;
            }
            let entry = u64::from(index[tile as usize]);
            if entry == 0 {
                return Ok(Some(tile));
            }
            if entry > count {
                return refuse(15, tile);
            }
        }
    }
    Ok(None)
}
