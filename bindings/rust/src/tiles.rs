use crate::card::OnCard;
use crate::position::Pixel;
use crate::raw;
use crate::refusal::{answer, Refusal};
use crate::sheet::Sheet;

/// The length of a tile in bytes: red, green, blue, each 128 rows of 128.
pub const TILE_LENGTH: usize = 49_152;

/// The stored tiles of an image: its index and how many tiles are stored.
#[derive(Clone, Copy, Debug, PartialEq, Eq)]
pub struct Tiles<'i> {
    /// With TIF Y, NFL × NFC numbers in reading order: 0 for a tile not stored, k for the k-th
    /// stored tile. With N, empty.
    pub index: &'i [u32],
    /// The stored count: at most NFL × NFC, and equal to it with N.
    pub count: u64,
}

/// The three band values of a pixel.
#[derive(Clone, Copy, Debug, PartialEq, Eq)]
pub struct Bands {
    /// Red, 0 to 255.
    pub red: u8,
    /// Green, 0 to 255.
    pub green: u8,
    /// Blue, 0 to 255.
    pub blue: u8,
}

/// A window of tiles.
#[derive(Clone, Copy, Debug, PartialEq, Eq)]
pub struct Window {
    /// First tile row; top + height is at most NFL.
    pub top: u64,
    /// First tile column; left + width is at most NFC.
    pub left: u64,
    /// Tile rows, 0 for an empty window.
    pub height: u64,
    /// Tile columns, 0 for an empty window.
    pub width: u64,
}

impl Sheet<'_> {
    /// Checks that each number 1..count occurs exactly once in the index. Refuses 6, 15.
    ///
    /// Mark k - 1 becomes 1 if k occurs before the refused entry (anywhere, if none is refused),
    /// else 0, for k up to the count; with TIF N all of these become 1. Marks beyond stay.
    /// A refusal before the entries are looked at (the card's, or 6) leaves all marks unchanged.
    pub fn index_check(&self, tiles: Tiles, marks: &mut [u8]) -> Result<OnCard<()>, Refusal> {
        // SAFETY: each pointer and length are those of one slice; marks are lent for writing.
        let given = unsafe {
            raw::fordcask_index_check(
                self.series,
                self.card.as_ptr(),
                self.card.len(),
                tiles.index.as_ptr(),
                tiles.index.len(),
                tiles.count,
                marks.as_mut_ptr(),
                marks.len(),
            )
        };
        answer(given.number, given.at, OnCard { value: (), blanks: given.blanks })
    }

    /// The 49,152 bytes of the pixel's tile, a part of `store`, which holds exactly
    /// count × 49,152 bytes. Refuses 6, 12, 13, 14, 15.
    pub fn tile<'s>(
        &self,
        tiles: Tiles,
        store: &'s [u8],
        pixel: Pixel,
    ) -> Result<OnCard<&'s [u8]>, Refusal> {
        let given = self.look_up(tiles, store, pixel)?;
        let value = &store[given.offset as usize..][..given.length as usize];
        Ok(OnCard { value, blanks: given.blanks })
    }

    /// The number of the pixel's tile among the stored ones, from 1. Refuses as [`Sheet::tile`].
    pub fn stored(&self, tiles: Tiles, store: &[u8], pixel: Pixel) -> Result<OnCard<u64>, Refusal> {
        let given = self.look_up(tiles, store, pixel)?;
        Ok(OnCard { value: given.stored, blanks: given.blanks })
    }

    fn look_up(&self, tiles: Tiles, store: &[u8], pixel: Pixel) -> Result<raw::Tile, Refusal> {
        // SAFETY: each pointer and length are those of one slice, which is only read.
        let given = unsafe {
            raw::fordcask_tile(
                self.series,
                self.card.as_ptr(),
                self.card.len(),
                tiles.index.as_ptr(),
                tiles.index.len(),
                tiles.count,
                store.as_ptr(),
                store.len(),
                pixel.row,
                pixel.column,
            )
        };
        answer(given.number, given.at, given)
    }

    /// The three band values of a pixel. Refuses as [`Sheet::tile`].
    pub fn bands(
        &self,
        tiles: Tiles,
        store: &[u8],
        pixel: Pixel,
    ) -> Result<OnCard<Bands>, Refusal> {
        // SAFETY: each pointer and length are those of one slice, which is only read.
        let given = unsafe {
            raw::fordcask_bands(
                self.series,
                self.card.as_ptr(),
                self.card.len(),
                tiles.index.as_ptr(),
                tiles.index.len(),
                tiles.count,
                store.as_ptr(),
                store.len(),
                pixel.row,
                pixel.column,
            )
        };
        let value = Bands { red: given.red, green: given.green, blue: given.blue };
        answer(given.number, given.at, OnCard { value, blanks: given.blanks })
    }

    /// The first tile of the window that isn't stored, by its number from 0 in the image, or none.
    ///
    /// Refuses 6, 12, then 15 where an entry above the count comes before any missing tile.
    pub fn window(&self, tiles: Tiles, window: Window) -> Result<OnCard<Option<u64>>, Refusal> {
        // SAFETY: each pointer and length are those of one slice, which is only read.
        let given = unsafe {
            raw::fordcask_window(
                self.series,
                self.card.as_ptr(),
                self.card.len(),
                tiles.index.as_ptr(),
                tiles.index.len(),
                tiles.count,
                window.top,
                window.left,
                window.height,
                window.width,
            )
        };
        let value = (given.missing != 0).then_some(given.tile);
        answer(given.number, given.at, OnCard { value, blanks: given.blanks })
    }
}
