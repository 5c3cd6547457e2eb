//! Question h: tile look-up of a pixel, its part of the store and its band values.

use crate::images::{image, Image};
use crate::inputs::pixel;
use crate::plain::tiles::{self, Look};
use crate::plain::{read::read_card, Record, Refusal, CARD, TILE};
use crate::random::Random;
use crate::timing::both;
use fordcask::raw;

pub const SET: usize = 4096;

/// 64 tiles stored of 8 x 10.
pub const NFL: u64 = 8;
pub const NFC: u64 = 10;
pub const MISSING: u64 = 16;

/// Number, place, stored number, offset and length of the part.
type Part = (u32, u64, u64, u64, u64);

/// Number, place, red, green, blue.
pub type Bands = (u32, u64, u8, u8, u8);

pub fn lookup(random: &mut Random) {
    let image = image(random, NFL, NFC, MISSING);
    let store: Vec<u8> = (0..image.count as usize * TILE)
        .map(|_| random.next() as u8)
        .collect();
    let record = record(&image);
    let look = |_| {
        let (row, column) = pixel(random, &record);
        Look {
            index: &image.index,
            count: image.count,
            store: &store,
            row,
            column,
        }
    };
    let looks: Vec<Look> = (0..SET).map(look).collect();
    let sum = |part: &Part| u64::from(part.0) + part.1 + part.2 + part.3 + part.4;
    let plain = |look: &Look| plain_tile(&image, look);
    both(
        "h tile of a pixel",
        &looks,
        plain,
        |look| our_tile(&image, look),
        sum,
    );
    let sum = |bands: &Bands| u64::from(bands.0) + u64::from(bands.2 ^ bands.3 ^ bands.4);
    let plain = |look: &Look| plain_bands(&image, look);
    both(
        "h bands of a pixel",
        &looks,
        plain,
        |look| our_bands(&image, look),
        sum,
    );
}

/// The chart edges, for random pixels.
pub fn record(image: &Image) -> Record {
    let card = read_card(image.card.series, &image.card.bytes).expect("a valid card");
    Record {
        n: card.n,
        m: card.m,
        nul: card.nul as u64,
        nus: card.nus as u64,
        nll: card.nll as u64,
        nls: card.nls as u64,
        nfl: card.nfl as u64,
        nfc: card.nfc as u64,
        bad: card.bad,
        tif: card.tif,
    }
}

fn plain_tile(image: &Image, look: &Look) -> Part {
    let card = &image.card;
    match tiles::tile(card.series, &card.bytes, look) {
        Ok((found, part)) => (0, 0, found.stored, found.offset as u64, part.len() as u64),
        Err(Refusal { number, at }) => (number, at, 0, 0, 0),
    }
}

fn plain_bands(image: &Image, look: &Look) -> Bands {
    let card = &image.card;
    match tiles::bands(card.series, &card.bytes, look) {
        Ok([red, green, blue]) => (0, 0, red, green, blue),
        Err(Refusal { number, at }) => (number, at, 0, 0, 0),
    }
}

fn our_tile(image: &Image, look: &Look) -> Part {
    let card = &image.card;
    // SAFETY: each pointer and length are those of one array or slice, which is only read.
    let found = unsafe {
        raw::fordcask_tile(
            card.series,
            card.bytes.as_ptr(),
            CARD,
            look.index.as_ptr(),
            look.index.len(),
            look.count,
            look.store.as_ptr(),
            look.store.len(),
            look.row,
            look.column,
        )
    };
    (
        found.number,
        found.at,
        found.stored,
        found.offset,
        found.length,
    )
}

fn our_bands(image: &Image, look: &Look) -> Bands {
    let card = &image.card;
    // SAFETY: each pointer and length are those of one array or slice, which is only read.
    let found = unsafe {
        raw::fordcask_bands(
            card.series,
            card.bytes.as_ptr(),
            CARD,
            look.index.as_ptr(),
            look.index.len(),
            look.count,
            look.store.as_ptr(),
            look.store.len(),
            look.row,
            look.column,
        )
    };
    (found.number, found.at, found.red, found.green, found.blue)
}
