//! Question j: look-up by presence bits (02, E7).

use crate::images::Missing;
use crate::inputs::{chart, Written};
use crate::plain::bits::{self, Look};
use crate::plain::corrections::Beside;
use crate::plain::{Refusal, CARD, TILE};
use crate::random::Random;
use crate::timing::both;
use fordcask::raw;

/// The largest image: 998,001 tiles in 15,594 words.
pub const SIDE: u64 = 999;
const SCALE: u64 = 100_000;

/// Number, place, stored number, offset and length of the part.
type Part = (u32, u64, u64, u64, u64);

/// A card with its words and count.
pub struct Image {
    pub card: Written,
    pub words: Vec<u64>,
    pub count: u64,
}

/// An image whose tiles of these numbers are stored.
pub fn image(random: &mut Random, side: u64, stored: impl Iterator<Item = u64>) -> Image {
    let mut words = vec![0; (side * side).div_ceil(64) as usize];
    let mut count = 0;
    for tile in stored {
        words[(tile / 64) as usize] |= 1 << (tile % 64);
        count += 1;
    }
    let card = chart(random, SCALE, 900, -300, side, side).write();
    Image { card, words, count }
}

/// Tile of a pixel: at the last tile, the ones of every word counted, and at random tiles.
pub fn lookup(random: &mut Random) {
    let last = SIDE * SIDE - 1;
    let stored = [0, last / 3, last / 2, last];
    let image = image(random, SIDE, stored.into_iter());
    let store = vec![7; stored.len() * TILE];
    let look = |tile: u64| Look {
        words: &image.words,
        count: image.count,
        store: &store,
        row: (tile / SIDE * 128 + 64) as i64,
        column: (tile % SIDE * 128 + 64) as i64,
    };
    let list = vec![0; (SIDE * SIDE) as usize];
    let beside = Beside {
        list: &list,
        count: 0,
        store: &[],
    };
    tiles("j last tile of 999 x 999, bits", &image, &[look(last)]);
    corrected(
        "j last tile, bits, list of zeros",
        &image,
        &[look(last)],
        &beside,
    );
    tiles("j tiles across 999 x 999, bits", &image, &stored.map(look));
    let missing: Vec<Look> = (0..256).map(|_| look(random.below(last))).collect();
    tiles("j missing tiles of 999 x 999, bits", &image, &missing);
}

fn tiles(question: &str, image: &Image, looks: &[Look]) {
    let sum = |part: &Part| u64::from(part.0) + part.1 + part.2 + part.3 + part.4;
    let plain = |look: &Look| plain_tile(image, look);
    both(question, looks, plain, |look| our_tile(image, look), sum);
}

fn plain_tile(image: &Image, look: &Look) -> Part {
    let card = &image.card;
    match bits::tile(card.series, &card.bytes, look) {
        Ok((found, part)) => (0, 0, found.stored, found.offset as u64, part.len() as u64),
        Err(Refusal { number, at }) => (number, at, 0, 0, 0),
    }
}

fn our_tile(image: &Image, look: &Look) -> Part {
    let card = &image.card;
    // SAFETY: each pointer and length are those of one array or slice, which is only read.
    let found = unsafe {
        raw::fordcask_bits_tile(
            card.series,
            card.bytes.as_ptr(),
            CARD,
            look.words.as_ptr(),
            look.words.len(),
            look.count,
            look.store.as_ptr(),
            look.store.len(),
            look.row,
            look.column,
        )
    };
    (
        found.number,
        found.at,
        found.stored,
        found.offset,
        found.length,
    )
}

fn corrected(question: &str, image: &Image, looks: &[Look], beside: &Beside) {
    let card = &image.card;
    let plain = |look: &Look| match bits::corrected_tile(card.series, &card.bytes, look, beside) {
        Ok((source, found)) => (0, 0, u64::from(source), found.stored),
        Err(Refusal { number, at }) => (number, at, 0, 0),
    };
    let sum = |part: &Missing| u64::from(part.0) + part.1 + part.2 + part.3;
    let ours = |look: &Look| our_corrected(image, look, beside);
    both(question, looks, plain, ours, sum);
}

fn our_corrected(image: &Image, look: &Look, beside: &Beside) -> Missing {
    let card = &image.card;
    // SAFETY: each pointer and length are those of one array or slice, which is only read.
    let found = unsafe {
        raw::fordcask_corrected_bits_tile(
            card.series,
            card.bytes.as_ptr(),
            CARD,
            look.words.as_ptr(),
            look.words.len(),
            look.count,
            look.store.as_ptr(),
            look.store.len(),
            beside.list.as_ptr(),
            beside.list.len(),
            beside.count,
            beside.store.as_ptr(),
            beside.store.len(),
            look.row,
            look.column,
        )
    };
    (found.number, found.at, found.source, found.stored)
}
