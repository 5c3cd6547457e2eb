//! The questions on presence bits, put to both sides, and to the library in both forms (02, E7).

use super::BitImage;
use crate::rule;
use crate::support::ask::Answer;
use crate::support::ask_corrections::{look_ups, missing, part, Part};
use crate::support::ask_sheet::{read, shown};
use crate::support::corrections::Image;
use crate::support::Ask;
use fordcask::{Bands, OnCard, Pixel, Sheet, Window};

/// The first missing tile of a window, or none.
type Missing = Answer<OnCard<Option<u64>>>;

/// An image as it is shown in a message.
fn shown_image(image: &BitImage) -> String {
    let (store, second) = (image.store.len(), image.second.len());
    let BitImage { sheet, bits, corrections, .. } = image;
    format!("{} {bits:x?} {store} bytes {corrections:?} {second} bytes", shown(sheet))
}

/// Where the bytes of an answer lie.
fn lies(answer: Answer<OnCard<&[u8]>>) -> Answer<OnCard<(*const u8, usize)>> {
    answer.map(|OnCard { value, blanks }| OnCard { value: (value.as_ptr(), value.len()), blanks })
}

/// What the library alone answers in both corrected look-ups.
pub fn bits_look_ups(
    image: &BitImage,
    pixel: Pixel,
) -> (Answer<OnCard<Part>>, Answer<OnCard<Bands>>) {
    let BitImage { sheet, bits, store, corrections, second } = *image;
    let tile = part(sheet.corrected_bits_tile(bits, store, corrections, second, pixel));
    (tile, sheet.corrected_bits_bands(bits, store, corrections, second, pixel))
}

/// What the library alone answers for a window beside corrections.
pub fn bits_missing(image: &BitImage, window: Window) -> Missing {
    image.sheet.corrected_bits_window(image.bits, image.corrections, window)
}

impl Ask {
    /// The words are compared whole, and are left as the library left them.
    pub fn to_bits(
        &mut self,
        sheet: &Sheet,
        index: &[u32],
        words: &mut [u64],
    ) -> Answer<OnCard<()>> {
        let before = words.to_vec();
        let call = || format!("{} to_bits({index:?}, {before:x?})", shown(sheet));
        let mut right = before.clone();
        let rule = read(sheet).and_then(|card| rule::to_bits(&card, index, &mut right));
        let library = sheet.to_bits(index, words);
        assert!(words == right, "words of {}\n  library {words:x?}\n  rule    {right:x?}", call());
        self.on_card("to_bits", call, library, rule)
    }

    /// The index is compared whole, and is left as the library left it.
    pub fn to_list(
        &mut self,
        sheet: &Sheet,
        words: &[u64],
        index: &mut [u32],
    ) -> Answer<OnCard<()>> {
        let before = index.to_vec();
        let call = || format!("{} to_list({words:x?}, {before:?})", shown(sheet));
        let mut right = before.clone();
        let rule = read(sheet).and_then(|card| rule::to_list(&card, words, &mut right));
        let library = sheet.to_list(words, index);
        assert!(index == right, "index of {}\n  library {index:?}\n  rule    {right:?}", call());
        self.on_card("to_list", call, library, rule)
    }

    /// The stored number, and the very bytes of the store.
    pub fn bits_tile(&mut self, image: &BitImage, pixel: Pixel) -> Answer<OnCard<u64>> {
        let call = || format!("{} bits_tile({pixel:?})", shown_image(image));
        let BitImage { sheet, bits, store, .. } = *image;
        let rule = read(&sheet).and_then(|card| rule::bits_lookup(&card, bits, store, pixel));
        let library = sheet.bits_stored(bits, store, pixel);
        let stored = self.on_card("bits_stored", call, library, rule);
        let rule = rule.map(|OnCard { value: stored, blanks }| {
            let bytes = &store[(stored as usize - 1) * 49_152..];
            OnCard { value: (bytes.as_ptr(), 49_152), blanks }
        });
        let library = lies(sheet.bits_tile(bits, store, pixel));
        self.on_card("bits_tile", call, library, rule)?;
        stored
    }

    pub fn bits_bands(&mut self, image: &BitImage, pixel: Pixel) -> Answer<OnCard<Bands>> {
        let call = || format!("{} bits_bands({pixel:?})", shown_image(image));
        let BitImage { sheet, bits, store, .. } = *image;
        let rule = read(&sheet).and_then(|card| rule::bits_bands(&card, bits, store, pixel));
        self.on_card("bits_bands", call, sheet.bits_bands(bits, store, pixel), rule)
    }

    pub fn bits_window(&mut self, image: &BitImage, window: Window) -> Missing {
        let call = || format!("{} bits_window({window:?})", shown_image(image));
        let BitImage { sheet, bits, .. } = *image;
        let rule = read(&sheet).and_then(|card| rule::bits_window(&card, bits, window));
        self.on_card("bits_window", call, sheet.bits_window(bits, window), rule)
    }

    /// Source, stored number and the very bytes of that store.
    pub fn corrected_bits_tile(&mut self, image: &BitImage, pixel: Pixel) -> Answer<OnCard<Part>> {
        let call = || format!("{} corrected_bits_tile({pixel:?})", shown_image(image));
        let BitImage { sheet, bits, store, corrections, second } = *image;
        let rule = part(read(&sheet).and_then(|card| {
            rule::corrected_bits_tile(&card, bits, store, corrections, second, pixel)
        }));
        self.on_card("corrected_bits_tile", call, bits_look_ups(image, pixel).0, rule)
    }

    pub fn corrected_bits_bands(
        &mut self,
        image: &BitImage,
        pixel: Pixel,
    ) -> Answer<OnCard<Bands>> {
        let call = || format!("{} corrected_bits_bands({pixel:?})", shown_image(image));
        let BitImage { sheet, bits, store, corrections, second } = *image;
        let rule = read(&sheet).and_then(|card| {
            rule::corrected_bits_bands(&card, bits, store, corrections, second, pixel)
        });
        self.on_card("corrected_bits_bands", call, bits_look_ups(image, pixel).1, rule)
    }

    pub fn corrected_bits_window(&mut self, image: &BitImage, window: Window) -> Missing {
        let call = || format!("{} corrected_bits_window({window:?})", shown_image(image));
        let BitImage { sheet, bits, corrections, .. } = *image;
        let rule = read(&sheet)
            .and_then(|card| rule::corrected_bits_window(&card, bits, corrections, window));
        self.on_card("corrected_bits_window", call, bits_missing(image, window), rule)
    }

    /// All look-ups of a pixel.
    pub fn all_look_ups(&mut self, image: &BitImage, pixel: Pixel) {
        let _ = self.bits_tile(image, pixel);
        let _ = self.bits_bands(image, pixel);
        let _ = self.corrected_bits_tile(image, pixel);
        let _ = self.corrected_bits_bands(image, pixel);
    }

    /// Both window questions.
    pub fn all_windows(&mut self, image: &BitImage, window: Window) {
        let _ = self.bits_window(image, window);
        let _ = self.corrected_bits_window(image, window);
    }

    /// Every look-up of a pixel from bits is the library's own from the list.
    pub fn look_ups_as_list(&mut self, image: &BitImage, list: &Image, pixel: Pixel) {
        let call = || format!("{} {:?} {pixel:?}", shown_image(image), list.tiles);
        let BitImage { sheet, bits, store, .. } = *image;
        let right = sheet.stored(list.tiles, list.store, pixel);
        let _ = self.on_card("stored of both", call, sheet.bits_stored(bits, store, pixel), right);
        let found = lies(sheet.bits_tile(bits, store, pixel));
        let right = lies(sheet.tile(list.tiles, list.store, pixel));
        let _ = self.on_card("tile of both", call, found, right);
        let right = sheet.bands(list.tiles, list.store, pixel);
        let _ = self.on_card("bands of both", call, sheet.bits_bands(bits, store, pixel), right);
        let (found, right) = (bits_look_ups(image, pixel), look_ups(list, pixel));
        let _ = self.on_card("corrected tile of both", call, found.0, right.0);
        let _ = self.on_card("corrected bands of both", call, found.1, right.1);
    }

    /// Both window answers from bits are the library's own from the list.
    pub fn windows_as_list(&mut self, image: &BitImage, list: &Image, window: Window) {
        let call = || format!("{} {:?} {window:?}", shown_image(image), list.tiles);
        let found = image.sheet.bits_window(image.bits, window);
        let right = image.sheet.window(list.tiles, window);
        let _ = self.on_card("window of both", call, found, right);
        let (found, right) = (bits_missing(image, window), missing(list, window));
        let _ = self.on_card("corrected window of both", call, found, right);
    }
}
