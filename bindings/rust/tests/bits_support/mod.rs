//! Images whose index is kept as presence bits, good and wrong (02, E7).
// each test file uses a part of it
#![allow(dead_code)]

pub mod ask;

use super::rule;
use super::support::corrections::{corrections_of, some_list, Held, Image};
use super::support::index::small;
use super::support::make::{all_chart, card, with_edges, Maker};
use super::support::Random;
use fordcask::{Bits, Corrections, Record, Series, Sheet, TILE_LENGTH};

/// An image as it is lent: its card, bits and store, its corrections and their store.
#[derive(Clone, Copy)]
pub struct BitImage<'a> {
    pub sheet: Sheet<'a>,
    pub bits: Bits<'a>,
    pub store: &'a [u8],
    pub corrections: Corrections<'a>,
    pub second: &'a [u8],
}

impl<'a> BitImage<'a> {
    /// The same beside another card.
    pub fn on<'s>(&self, sheet: &Sheet<'s>) -> BitImage<'s>
    where
        'a: 's,
    {
        BitImage { sheet: *sheet, ..*self }
    }
}

/// An image as it is held, in both forms; the index is the list of the tiles that were made
/// present.
#[derive(Clone)]
pub struct BitHeld {
    pub held: Held,
    pub words: Vec<u64>,
}

impl BitHeld {
    /// Lent as bits with these stores.
    pub fn with<'a>(&'a self, store: &'a [u8], second: &'a [u8]) -> BitImage<'a> {
        let Image { sheet, corrections, .. } = self.held.with(store, second);
        let bits = Bits { words: &self.words, count: self.held.count };
        BitImage { sheet, bits, store, corrections, second }
    }

    /// Lent as bits with stores of the right lengths: the first bytes, and the last.
    pub fn lent<'a>(&'a self, bytes: &'a [u8]) -> BitImage<'a> {
        let [first, last] =
            [self.held.count, self.held.corrected].map(|k| k as usize * TILE_LENGTH);
        self.with(&bytes[..first], &bytes[bytes.len() - last..])
    }
}

/// The words of some tiles, first tile lowest.
pub fn words_of(present: &[bool]) -> Vec<u64> {
    let mut words = Vec::new();
    for (tile, there) in present.iter().enumerate() {
        if tile % 64 == 0 {
            words.push(0);
        }
        words[tile / 64] |= u64::from(*there) << (tile % 64);
    }
    words
}

/// The list of some tiles: 1, 2, 3 and so on in reading order.
pub fn list_of(present: &[bool]) -> Vec<u32> {
    let mut last = 0;
    let entry = |there: &bool| {
        last += u32::from(*there);
        if *there {
            last
        } else {
            0
        }
    };
    present.iter().map(entry).collect()
}

/// All tiles, none, one, few, many, half of them, or a run.
pub fn some_present(random: &mut Random, tiles: usize) -> Vec<bool> {
    let (start, one) = (random.below(tiles), random.below(tiles));
    let end = start + random.below(tiles - start + 1);
    let kind = random.below(7);
    let there = |tile: usize| match kind {
        0 => true,
        1 => random.once_in(16),
        2 => !random.once_in(16),
        3 => start <= tile && tile < end,
        4 if random.once_in(8) => tile == one,
        _ => random.once_in(2),
    };
    (0..tiles).map(there).collect()
}

/// Tiles down and across, whose bits end in one word, with it, and in the next.
pub const SIZES: [(i64, i64); 16] = [
    (7, 9),
    (9, 7),
    (21, 3),
    (8, 8),
    (2, 32),
    (32, 2),
    (5, 13),
    (13, 5),
    (1, 127),
    (127, 1),
    (8, 16),
    (16, 8),
    (3, 43),
    (43, 3),
    (10, 12),
    (11, 11),
];

/// A record of few tiles, or of as many as one or two words have bits.
pub fn sized(random: &mut Random, maker: Maker, tif: bool) -> (Series, Record) {
    if random.once_in(2) {
        return small(random, maker, 3, tif);
    }
    let series = maker(random);
    let (a, b) = rule::non_polar(series).expect("a scale, a factor and a non-polar zone");
    let (down, across) = ((b / 512) as i64, (a / 128) as i64);
    let fits = |size: &(i64, i64)| size.0 <= down && size.1 <= across;
    let fitting: Vec<(i64, i64)> = SIZES.into_iter().filter(fits).collect();
    let (nfl, nfc) = random.pick(&fitting);
    let mut record = with_edges(random, nfl, 0, nfl, nfc);
    if random.once_in(2) {
        record = all_chart(nfl, 0, nfl as u64, nfc as u64, tif);
    }
    record.tif = tif;
    (series, record)
}

/// A count for this many ones: theirs mostly, else another.
fn some_count(random: &mut Random, tiles: usize, ones: usize) -> usize {
    match random.below(6) {
        0 => random.below(tiles + 1),
        1 => ones.saturating_sub(1),
        2 => (ones + 1).min(tiles),
        3 => ones / 2,
        _ => ones,
    }
}

/// An image with words and lists of the right lengths and no bit past the last tile; counts are
/// those of the ones or others.
pub fn right_bits(random: &mut Random, maker: Maker) -> BitHeld {
    let tif = !random.once_in(5);
    let (series, record) = sized(random, maker, tif);
    let card = card(series, &record);
    let tiles = (record.nfl * record.nfc) as usize;
    let corrected = random.below(tiles.min(60) + 1);
    let list = some_list(random, tiles, corrected);
    let (mut index, mut words, mut count) = (Vec::new(), Vec::new(), tiles);
    if tif {
        let present = some_present(random, tiles);
        let ones = present.iter().filter(|there| **there).count();
        (index, words) = (list_of(&present), words_of(&present));
        count = some_count(random, tiles, ones);
    }
    let (count, corrected) = (count as u64, corrected as u64);
    let held = Held { series, record, card, index, count, list, corrected };
    BitHeld { held, words }
}

/// Sets a bit past the last tile, where the last word has one.
pub fn stray(random: &mut Random, words: &mut [u64], tiles: usize) {
    if let (Some(last), spare) = (words.last_mut(), tiles % 64) {
        if spare > 0 {
            let any = spare + random.below(64 - spare);
            *last |= 1 << random.pick(&[spare, 63, any]);
        }
    }
}

/// An image with words, lists and counts good and wrong; a bit past the last tile once in eight.
pub fn any_bits(random: &mut Random, maker: Maker) -> BitHeld {
    let BitHeld { mut held, mut words } = right_bits(random, maker);
    let tiles = held.tiles();
    if random.once_in(8) {
        stray(random, &mut words, tiles);
    }
    match random.below(48) {
        0 => words.push(0),
        1 => drop(words.pop()),
        2 => words.clear(),
        3 => words.push(random.next()),
        4 => held.count = random.pick(&[u64::MAX, 1 << 63, 1 << 32, tiles as u64 + 1]),
        5 => held.count = random.below(tiles + 2) as u64,
        _ => (),
    }
    if random.once_in(4) {
        (held.list, held.corrected) = corrections_of(random, &held.record);
    }
    BitHeld { held, words }
}
