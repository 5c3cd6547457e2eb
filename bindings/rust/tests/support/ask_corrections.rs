//! The questions on corrections, put to both sides (02, E1).

use super::ask::{Answer, Ask};
use super::ask_sheet::{read, shown};
use super::corrections::Image;
use crate::rule;
use fordcask::{Bands, CorrectedTile, OnCard, Pixel, Sheet, Source, Window};

/// A tile as it is compared: which store holds it, its number there, and where its bytes lie.
#[derive(Clone, Copy, Debug, PartialEq)]
pub struct Part {
    pub source: Source,
    pub stored: u64,
    pub start: *const u8,
    pub length: usize,
}

/// The part of a tile that was answered.
pub fn part(answer: Answer<OnCard<CorrectedTile>>) -> Answer<OnCard<Part>> {
    answer.map(|OnCard { value: CorrectedTile { source, stored, bytes }, blanks }| {
        let value = Part { source, stored, start: bytes.as_ptr(), length: bytes.len() };
        OnCard { value, blanks }
    })
}

/// What the library alone answers in both look-ups.
pub fn look_ups(image: &Image, pixel: Pixel) -> (Answer<OnCard<Part>>, Answer<OnCard<Bands>>) {
    let Image { sheet, tiles, store, corrections, second } = *image;
    let tile = part(sheet.corrected_tile(tiles, store, corrections, second, pixel));
    (tile, sheet.corrected_bands(tiles, store, corrections, second, pixel))
}

/// What the library alone answers for a window.
pub fn missing(image: &Image, window: Window) -> Answer<OnCard<Option<u64>>> {
    image.sheet.corrected_window(image.tiles, image.corrections, window)
}

/// An image as it is shown in a message.
fn shown_image(image: &Image) -> String {
    let (store, second) = (image.store.len(), image.second.len());
    let Image { sheet, tiles, corrections, .. } = image;
    format!("{} {tiles:?} {store} bytes {corrections:?} {second} bytes", shown(sheet))
}

impl Ask {
    /// Source, stored number and the very bytes of that store.
    pub fn corrected_tile(&mut self, image: &Image, pixel: Pixel) -> Answer<OnCard<Part>> {
        let call = || format!("{} corrected_tile({pixel:?})", shown_image(image));
        let Image { sheet, tiles, store, corrections, second } = *image;
        let library = part(sheet.corrected_tile(tiles, store, corrections, second, pixel));
        let rule = part(read(&sheet).and_then(|card| {
            rule::corrected_tile(&card, tiles, store, corrections, second, pixel)
        }));
        self.on_card("corrected_tile", call, library, rule)
    }

    pub fn corrected_bands(&mut self, image: &Image, pixel: Pixel) -> Answer<OnCard<Bands>> {
        let call = || format!("{} corrected_bands({pixel:?})", shown_image(image));
        let Image { sheet, tiles, store, corrections, second } = *image;
        let library = sheet.corrected_bands(tiles, store, corrections, second, pixel);
        let rule = read(&sheet).and_then(|card| {
            rule::corrected_bands(&card, tiles, store, corrections, second, pixel)
        });
        self.on_card("corrected_bands", call, library, rule)
    }

    pub fn corrected_window(
        &mut self,
        image: &Image,
        window: Window,
    ) -> Answer<OnCard<Option<u64>>> {
        let call = || format!("{} corrected_window({window:?})", shown_image(image));
        let Image { sheet, tiles, corrections, .. } = *image;
        let library = sheet.corrected_window(tiles, corrections, window);
        let rule =
            read(&sheet).and_then(|card| rule::corrected_window(&card, tiles, corrections, window));
        self.on_card("corrected_window", call, library, rule)
    }

    /// The list is compared whole, and is left as the library left it.
    pub fn set_correction(
        &mut self,
        sheet: &Sheet,
        list: &mut [u32],
        count: u64,
        tile: u64,
        number: u64,
    ) -> Answer<OnCard<()>> {
        let before = list.to_vec();
        let call = || {
            let sheet = shown(sheet);
            format!("{sheet} set_correction({before:?}, {count}, tile {tile}, number {number})")
        };
        let mut right = before.clone();
        let rule = read(sheet)
            .and_then(|card| rule::set_correction(&card, &mut right, count, tile, number));
        let library = sheet.set_correction(list, count, tile, number);
        assert!(list == right, "list of {}\n  library {list:?}\n  rule    {right:?}", call());
        self.on_card("set_correction", call, library, rule)
    }
}
