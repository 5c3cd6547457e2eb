use crate::bits::Bits;
use crate::card::OnCard;
use crate::corrections::{CorrectedTile, Corrections, Source};
use crate::position::Pixel;
use crate::raw;
use crate::refusal::{answer, Refusal};
use crate::sheet::Sheet;
use crate::tiles::{Bands, Window};

impl Sheet<'_> {
    /// The tile of a pixel, corrected first. `store` holds exactly `bits.count` × 49,152 bytes,
    /// `corrections_store` exactly `corrections.count` × 49,152. Where a correction stands, the
    /// bits aren't consulted.
    ///
    /// Refuses 6 (words, count or store), 6 (the corrections' list, count or store), 21, 12, 13, 15
    /// for a correction above its count, then, where none stands, 14, 15 of the bits.
    pub fn corrected_bits_tile<'s>(
        &self,
        bits: Bits,
        store: &'s [u8],
        corrections: Corrections,
        corrections_store: &'s [u8],
        pixel: Pixel,
    ) -> Result<OnCard<CorrectedTile<'s>>, Refusal> {
        // SAFETY: each pointer and length are those of one slice, which is only read.
        let given = unsafe {
            raw::fordcask_corrected_bits_tile(
                self.series,
                self.card.as_ptr(),
                self.card.len(),
                bits.words.as_ptr(),
                bits.words.len(),
                bits.count,
                store.as_ptr(),
                store.len(),
                corrections.list.as_ptr(),
                corrections.list.len(),
                corrections.count,
                corrections_store.as_ptr(),
                corrections_store.len(),
                pixel.row,
                pixel.column,
            )
        };
        let given = answer(given.number, given.at, given)?;
        let (source, held) = match given.source {
            0 => (Source::Base, store),
            _ => (Source::Corrections, corrections_store),
        };
        let bytes = &held[given.offset as usize..][..given.length as usize];
        let value = CorrectedTile { source, stored: given.stored, bytes };
        Ok(OnCard { value, blanks: given.blanks })
    }

    /// The three band values of a pixel, corrected first. Refuses as
    /// [`Sheet::corrected_bits_tile`].
    pub fn corrected_bits_bands(
        &self,
        bits: Bits,
        store: &[u8],
        corrections: Corrections,
        corrections_store: &[u8],
        pixel: Pixel,
    ) -> Result<OnCard<Bands>, Refusal> {
        // SAFETY: each pointer and length are those of one slice, which is only read.
        let given = unsafe {
            raw::fordcask_corrected_bits_bands(
                self.series,
                self.card.as_ptr(),
                self.card.len(),
                bits.words.as_ptr(),
                bits.words.len(),
                bits.count,
                store.as_ptr(),
                store.len(),
                corrections.list.as_ptr(),
                corrections.list.len(),
                corrections.count,
                corrections_store.as_ptr(),
                corrections_store.len(),
                pixel.row,
                pixel.column,
            )
        };
        let value = Bands { red: given.red, green: given.green, blue: given.blue };
        answer(given.number, given.at, OnCard { value, blanks: given.blanks })
    }

    /// The first tile of the window that is neither corrected nor stored, by its number from 0 in
    /// the image, or none.
    ///
    /// Refuses 6 (words or count), 6 (the corrections' list or count), 21, 12, then 15 where a
    /// number above its count, a correction's or, where none stands, the bits', comes before any
    /// missing tile; with TIF N too.
    pub fn corrected_bits_window(
        &self,
        bits: Bits,
        corrections: Corrections,
        window: Window,
    ) -> Result<OnCard<Option<u64>>, Refusal> {
        // SAFETY: each pointer and length are those of one slice, which is only read.
        let given = unsafe {
            raw::fordcask_corrected_bits_window(
                self.series,
                self.card.as_ptr(),
                self.card.len(),
                bits.words.as_ptr(),
                bits.words.len(),
                bits.count,
                corrections.list.as_ptr(),
                corrections.list.len(),
                corrections.count,
                window.top,
                window.left,
                window.height,
                window.width,
            )
        };
        let value = (given.missing != 0).then_some(given.tile);
        answer(given.number, given.at, OnCard { value, blanks: given.blanks })
    }
}
