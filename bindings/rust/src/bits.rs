use crate::card::OnCard;
use crate::position::Pixel;
use crate::raw;
use crate::refusal::{answer, Refusal};
use crate::sheet::Sheet;
use crate::tiles::{Bands, Window};

/// The stored tiles of an image as presence bits: for an index whose non-zero entries are 1, 2, 3
/// and so on in reading order. The stored number of a tile is the count of ones up to and
/// including its bit.
#[derive(Clone, Copy, Debug, PartialEq, Eq)]
pub struct Bits<'i> {
    /// With TIF Y, one bit a tile in reading order, 64 to a word, the first tile lowest: exactly
    /// NFL × NFC / 64 words, rounded up, with no bit set past the last tile. With N, empty.
    pub words: &'i [u64],
    /// The stored count: at most NFL × NFC, and equal to it with N. It need not be the number of
    /// ones; a tile whose number is above it is refused with 15.
    pub count: u64,
}

impl Sheet<'_> {
    /// Writes the presence bits of an index whose non-zero entries are 1, 2, 3 and so on in reading
    /// order. Every word is written.
    ///
    /// Refuses 6 (the length of the index or of the words), then 20 for an index in another order;
    /// on a refusal, the card's too, the words stay.
    pub fn to_bits(&self, index: &[u32], words: &mut [u64]) -> Result<OnCard<()>, Refusal> {
        // SAFETY: each pointer and length are those of one slice; the words are lent for writing.
        let given = unsafe {
            raw::fordcask_to_bits(
                self.series,
                self.card.as_ptr(),
                self.card.len(),
                index.as_ptr(),
                index.len(),
                words.as_mut_ptr(),
                words.len(),
            )
        };
        answer(given.number, given.at, OnCard { value: (), blanks: given.blanks })
    }

    /// Writes the index of presence bits. Every entry is written.
    ///
    /// Refuses 6 (the length of the words or of the index), then 21 for a bit set past the last
    /// tile; on a refusal, the card's too, the index stays.
    pub fn to_list(&self, words: &[u64], index: &mut [u32]) -> Result<OnCard<()>, Refusal> {
        // SAFETY: each pointer and length are those of one slice; the index is lent for writing.
        let given = unsafe {
            raw::fordcask_to_list(
                self.series,
                self.card.as_ptr(),
                self.card.len(),
                words.as_ptr(),
                words.len(),
                index.as_mut_ptr(),
                index.len(),
            )
        };
        answer(given.number, given.at, OnCard { value: (), blanks: given.blanks })
    }

    /// The 49,152 bytes of the pixel's tile, a part of `store`, which holds exactly
    /// count × 49,152 bytes. Refuses 6, 21, 12, 13, 14, 15.
    pub fn bits_tile<'s>(
        &self,
        bits: Bits,
        store: &'s [u8],
        pixel: Pixel,
    ) -> Result<OnCard<&'s [u8]>, Refusal> {
        let given = self.look_up_bits(bits, store, pixel)?;
        let value = &store[given.offset as usize..][..given.length as usize];
        Ok(OnCard { value, blanks: given.blanks })
    }

    /// The number of the pixel's tile among the stored ones, from 1. Refuses as
    /// [`Sheet::bits_tile`].
    pub fn bits_stored(
        &self,
        bits: Bits,
        store: &[u8],
        pixel: Pixel,
    ) -> Result<OnCard<u64>, Refusal> {
        let given = self.look_up_bits(bits, store, pixel)?;
        Ok(OnCard { value: given.stored, blanks: given.blanks })
    }

    fn look_up_bits(&self, bits: Bits, store: &[u8], pixel: Pixel) -> Result<raw::Tile, Refusal> {
        // SAFETY: each pointer and length are those of one slice, which is only read.
        let given = unsafe {
            raw::fordcask_bits_tile(
                self.series,
                self.card.as_ptr(),
                self.card.len(),
                bits.words.as_ptr(),
                bits.words.len(),
                bits.count,
                store.as_ptr(),
                store.len(),
                pixel.row,
                pixel.column,
            )
        };
        answer(given.number, given.at, given)
    }

    /// The three band values of a pixel. Refuses as [`Sheet::bits_tile`].
    pub fn bits_bands(
        &self,
        bits: Bits,
        store: &[u8],
        pixel: Pixel,
    ) -> Result<OnCard<Bands>, Refusal> {
        // SAFETY: each pointer and length are those of one slice, which is only read.
        let given = unsafe {
            raw::fordcask_bits_bands(
                self.series,
                self.card.as_ptr(),
                self.card.len(),
                bits.words.as_ptr(),
                bits.words.len(),
                bits.count,
                store.as_ptr(),
                store.len(),
                pixel.row,
                pixel.column,
            )
        };
        let value = Bands { red: given.red, green: given.green, blue: given.blue };
        answer(given.number, given.at, OnCard { value, blanks: given.blanks })
    }

    /// The first tile of the window that isn't stored, by its number from 0 in the image, or none.
    ///
    /// Refuses 6, 21, 12, then 15 where a tile with a number above the count comes before any
    /// missing tile.
    pub fn bits_window(&self, bits: Bits, window: Window) -> Result<OnCard<Option<u64>>, Refusal> {
        // SAFETY: each pointer and length are those of one slice, which is only read.
        let given = unsafe {
            raw::fordcask_bits_window(
                self.series,
                self.card.as_ptr(),
                self.card.len(),
                bits.words.as_ptr(),
                bits.words.len(),
                bits.count,
                window.top,
                window.left,
                window.height,
                window.width,
            )
        };
        let value = (given.missing != 0).then_some(given.tile);
        answer(given.number, given.at, OnCard { value, blanks: given.blanks })
    }
}
