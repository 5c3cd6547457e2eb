use crate::card::OnCard;
use crate::position::Pixel;
use crate::raw;
use crate::refusal::{answer, Refusal};
use crate::sheet::Sheet;
use crate::tiles::{Bands, Tiles, Window};

/// Corrections beside the stored tiles of an image: their list and how many corrected tiles there
/// are. Whether the numbers occur once is not checked; a number may be listed more than once.
#[derive(Clone, Copy, Debug, PartialEq, Eq)]
pub struct Corrections<'i> {
    /// NFL × NFC numbers in reading order, with TIF N too: 0 for a tile not corrected, k for the
    /// k-th corrected tile.
    pub list: &'i [u32],
    /// The corrected count, at most NFL × NFC.
    pub count: u64,
}

/// Which of the two stores holds a tile.
#[derive(Clone, Copy, Debug, PartialEq, Eq)]
pub enum Source {
    /// The base store, that of the stored tiles.
    Base,
    /// The corrections store.
    Corrections,
}

/// A tile, from whichever of the two stores holds it.
#[derive(Clone, Copy, Debug, PartialEq, Eq)]
pub struct CorrectedTile<'s> {
    /// The store that holds it.
    pub source: Source,
    /// Its number there, from 1.
    pub stored: u64,
    /// Its 49,152 bytes, a part of that store.
    pub bytes: &'s [u8],
}

impl Sheet<'_> {
    /// The tile of a pixel, corrected first. `store` holds exactly `tiles.count` × 49,152 bytes,
    /// `corrections_store` exactly `corrections.count` × 49,152. Where a correction stands, the
    /// base entry isn't consulted.
    ///
    /// Refuses 6 (index, count or store), 6 (the corrections' list, count or store), 12, 13, 15 for
    /// a correction above its count, then, where none stands, 14, 15 of the index.
    pub fn corrected_tile<'s>(
        &self,
        tiles: Tiles,
        store: &'s [u8],
        corrections: Corrections,
        corrections_store: &'s [u8],
        pixel: Pixel,
    ) -> Result<OnCard<CorrectedTile<'s>>, Refusal> {
        // SAFETY: each pointer and length are those of one slice, which is only read.
        let given = unsafe {
            raw::fordcask_corrected_tile(
                self.series,
                self.card.as_ptr(),
                self.card.len(),
                tiles.index.as_ptr(),
                tiles.index.len(),
                tiles.count,
                store.as_ptr(),
                store.len(),
                corrections.list.as_ptr(),
                corrections.list.len(),
                corrections.count,
                corrections_store.as_ptr(),
                corrections_store.len(),
                pixel.row,
                pixel.column,
            )
        };
        let given = answer(given.number, given.at, given)?;
        let (source, held) = match given.source {
            0 => (Source::Base, store),
            _ => (Source::Corrections, corrections_store),
        };
        let bytes = &held[given.offset as usize..][..given.length as usize];
        let value = CorrectedTile { source, stored: given.stored, bytes };
        Ok(OnCard { value, blanks: given.blanks })
    }

    /// The three band values of a pixel, corrected first. Refuses as [`Sheet::corrected_tile`].
    pub fn corrected_bands(
        &self,
        tiles: Tiles,
        store: &[u8],
        corrections: Corrections,
        corrections_store: &[u8],
        pixel: Pixel,
    ) -> Result<OnCard<Bands>, Refusal> {
        // SAFETY: each pointer and length are those of one slice, which is only read.
        let given = unsafe {
            raw::fordcask_corrected_bands(
                self.series,
                self.card.as_ptr(),
                self.card.len(),
                tiles.index.as_ptr(),
                tiles.index.len(),
                tiles.count,
                store.as_ptr(),
                store.len(),
                corrections.list.as_ptr(),
                corrections.list.len(),
                corrections.count,
                corrections_store.as_ptr(),
                corrections_store.len(),
                pixel.row,
                pixel.column,
            )
        };
        let value = Bands { red: given.red, green: given.green, blue: given.blue };
        answer(given.number, given.at, OnCard { value, blanks: given.blanks })
    }

    /// The first tile of the window that is neither corrected nor stored, by its number from 0 in
    /// the image, or none.
    ///
    /// Refuses 6 (index or count), 6 (the corrections' list or count), 12, then 15 where an entry
    /// above its count, a correction's or, where none stands, the index's, comes before any missing
    /// tile; with TIF N too.
    pub fn corrected_window(
        &self,
        tiles: Tiles,
        corrections: Corrections,
        window: Window,
    ) -> Result<OnCard<Option<u64>>, Refusal> {
        // SAFETY: each pointer and length are those of one slice, which is only read.
        let given = unsafe {
            raw::fordcask_corrected_window(
                self.series,
                self.card.as_ptr(),
                self.card.len(),
                tiles.index.as_ptr(),
                tiles.index.len(),
                tiles.count,
                corrections.list.as_ptr(),
                corrections.list.len(),
                corrections.count,
                window.top,
                window.left,
                window.height,
                window.width,
            )
        };
        let value = (given.missing != 0).then_some(given.tile);
        answer(given.number, given.at, OnCard { value, blanks: given.blanks })
    }

    /// Sets the correction of one tile, by the tile's number from 0 in the image: `number` is that
    /// of a corrected tile, from 1, or 0 to take a correction back. No other entry is touched.
    ///
    /// Refuses 6 (the list's length, or `count` above the tiles), 12 for a tile outside, then 15 at
    /// the tile for a number above `count`; on a refusal, the card's too, the list stays.
    pub fn set_correction(
        &self,
        list: &mut [u32],
        count: u64,
        tile: u64,
        number: u64,
    ) -> Result<OnCard<()>, Refusal> {
        // SAFETY: each pointer and length are those of one slice; the list is lent for writing.
        let given = unsafe {
            raw::fordcask_set_correction(
                self.series,
                self.card.as_ptr(),
                self.card.len(),
                list.as_mut_ptr(),
                list.len(),
                count,
                tile,
                number,
            )
        };
        answer(given.number, given.at, OnCard { value: (), blanks: given.blanks })
    }
}
