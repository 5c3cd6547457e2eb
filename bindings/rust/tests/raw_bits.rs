//! The C answers of the questions on presence bits, field by field: all but number and place is 0
//! in a refusal, the total of blanks too; offset and length are those of the tile (02, E2 and E7).

use crate::{bits_support, rule, support};
use std::collections::BTreeSet;

use bits_support::{any_bits, BitImage};
use fordcask::Window;
use fordcask::{raw, Bands, Bits, Corrections, OnCard, Pixel, Refusal, Series, Sheet, Source};
use support::blank_faults::{refusal, with_faults, FAULTS, STATED};
use support::blanks::{pad_all, pad_some};
use support::corrections::{store_bytes, store_of};
use support::index::any_window;
use support::make::{all_chart, card, chart, overview, pixel, town_chart, Maker};
use support::raw_blocks::{check, Block};
use support::{seeded, WORKED, WORKED_SERIES};

const LENGTH: usize = 49_152;
const MAKERS: [Maker; 3] = [chart, town_chart, overview];

/// A block of a structure that has these fields beside number, place and blanks.
macro_rules! block {
    ($given:expr $(, $field:ident)*) => {{
        let given = $given;
        let rest = vec![$(given.$field as i64),*];
        Block { number: given.number, at: given.at, blanks: given.blanks, rest }
    }};
}

/// What is asked of an image: a pixel, a window, and a list to be converted beside its words.
struct Asked<'a> {
    pixel: Pixel,
    window: Window,
    index: &'a [u32],
}

/// The blocks of all questions; what words and index hold after the conversions, 77 before.
type Found = ([Block; 8], Vec<u64>, Vec<u32>);

fn blocks(image: &BitImage, asked: &Asked) -> Found {
    let (s, c, n) = (image.sheet.series, image.sheet.card.as_ptr(), image.sheet.card.len());
    let (w, count, k) = (image.bits.words.as_ptr(), image.bits.words.len(), image.bits.count);
    let (t, size) = (image.store.as_ptr(), image.store.len());
    let (list, most) = (image.corrections.list, image.corrections.count);
    let (l, length) = (list.as_ptr(), list.len());
    let (u, bytes) = (image.second.as_ptr(), image.second.len());
    let Pixel { row, column } = asked.pixel;
    let Window { top, left, height, width } = asked.window;
    let (i, entries) = (asked.index.as_ptr(), asked.index.len());
    let (mut words, mut index) = (vec![77; count], vec![77; entries]);
    let (x, y) = (words.as_mut_ptr(), index.as_mut_ptr());
    // SAFETY: each pointer and length are those of one slice or vector.
    let blocks = unsafe {
        let tile = raw::fordcask_bits_tile(s, c, n, w, count, k, t, size, row, column);
        let bands = raw::fordcask_bits_bands(s, c, n, w, count, k, t, size, row, column);
        let window = raw::fordcask_bits_window(s, c, n, w, count, k, top, left, height, width);
        let corrected = raw::fordcask_corrected_bits_tile(
            s, c, n, w, count, k, t, size, l, length, most, u, bytes, row, column,
        );
        let values = raw::fordcask_corrected_bits_bands(
            s, c, n, w, count, k, t, size, l, length, most, u, bytes, row, column,
        );
        let missing = raw::fordcask_corrected_bits_window(
            s, c, n, w, count, k, l, length, most, top, left, height, width,
        );
        [
            block!(tile, stored, offset, length),
            block!(bands, red, green, blue),
            block!(window, missing, tile),
            block!(corrected, source, stored, offset, length),
            block!(values, red, green, blue),
            block!(missing, missing, tile),
            block!(raw::fordcask_to_bits(s, c, n, i, entries, x, count)),
            block!(raw::fordcask_to_list(s, c, n, w, count, y, entries)),
        ]
    };
    (blocks, words, index)
}

/// A block of an answer; in a refusal the values are this many zeros.
fn block<T>(
    answer: Result<OnCard<T>, Refusal>,
    zeros: usize,
    values: impl Fn(T) -> Vec<i64>,
) -> Block {
    match answer {
        Ok(OnCard { value, blanks }) => Block { number: 0, at: 0, blanks, rest: values(value) },
        Err(Refusal { number, at }) => Block { number, at, blanks: 0, rest: vec![0; zeros] },
    }
}

/// The blocks and buffers as the rule has them.
fn right_blocks(image: &BitImage, asked: &Asked) -> Found {
    let card = rule::read(image.sheet.series, image.sheet.card);
    let BitImage { bits, store, corrections, second, .. } = *image;
    let Asked { pixel, window, index } = *asked;
    let (mut words, mut entries) = (vec![77; bits.words.len()], vec![77; index.len()]);
    let tile = card.and_then(|c| rule::bits_lookup(&c, bits, store, pixel));
    let bands = card.and_then(|c| rule::bits_bands(&c, bits, store, pixel));
    let missing = card.and_then(|c| rule::bits_window(&c, bits, window));
    let corrected =
        card.and_then(|c| rule::corrected_bits_tile(&c, bits, store, corrections, second, pixel));
    let values =
        card.and_then(|c| rule::corrected_bits_bands(&c, bits, store, corrections, second, pixel));
    let beside = card.and_then(|c| rule::corrected_bits_window(&c, bits, corrections, window));
    let three = |bands: Bands| [bands.red, bands.green, bands.blue].map(i64::from).into();
    let first = |tile: Option<u64>| vec![tile.is_some().into(), tile.unwrap_or(0) as i64];
    let part = |stored: u64| vec![stored as i64, 49_152 * (stored as i64 - 1), 49_152];
    let blocks = [
        block(tile, 3, part),
        block(bands, 3, three),
        block(missing, 2, first),
        block(corrected, 4, |tile| {
            let source = if tile.source == Source::Corrections { 1 } else { 0 };
            [vec![source], part(tile.stored)].concat()
        }),
        block(values, 3, three),
        block(beside, 2, first),
        block(card.and_then(|c| rule::to_bits(&c, index, &mut words)), 0, |_| Vec::new()),
        block(card.and_then(|c| rule::to_list(&c, bits.words, &mut entries)), 0, |_| Vec::new()),
    ];
    (blocks, words, entries)
}

/// Random images of every kind, some with blanks: each field as the rule says.
#[test]
fn every_field() {
    let mut random = seeded("every_field");
    let bytes = store_bytes(&mut random, 131);
    let mut met = vec![BTreeSet::new(); 8];
    for round in 0..40_000 {
        let mut image = any_bits(&mut random, MAKERS[round % 3]);
        let put = match random.below(2) {
            0 => pad_some(&mut random, &mut image.held.card),
            _ => 0,
        };
        let store = store_of(&mut random, &bytes, image.held.count);
        let second = store_of(&mut random, &bytes, image.held.corrected);
        let mut index = image.held.index.clone();
        if random.once_in(3) {
            index.reverse();
        }
        let pixel = pixel(&mut random, &image.held.record);
        let window = any_window(&mut random, &image.held.record);
        let (asked, lent) = (Asked { pixel, window, index: &index }, image.with(store, second));
        let (found, right) = (blocks(&lent, &asked), right_blocks(&lent, &asked));
        assert_eq!(found, right, "{:?} {put} blanks {:x?}", image.held.series, lent.bits);
        for (block, met) in found.0.iter().zip(&mut met) {
            check(block, put);
            met.insert(block.number);
        }
    }
    let (look_up, window) = ([0, 6, 12, 13, 14, 15, 21], [0, 6, 12, 15, 21]);
    let three = [&look_up[..], &look_up, &window];
    let right = three.into_iter().chain(three).chain([&[0, 6, 20][..], &[0, 6, 21]]);
    for (met, right) in met.iter().zip(right) {
        assert!(met.iter().eq(right), "{met:?}, not {right:?}");
    }
}

/// One row of two tiles, the second stored and the first corrected; with blanks and without.
#[test]
fn two_tiles() {
    let (store, second) = ([5; LENGTH], [6; LENGTH]);
    for (scale, padded) in [(5_000, false), (9_999, true), (10_000, true), (1_000_000, false)] {
        let series = Series::chart(scale, 1);
        let mut card = card(series, &all_chart(9, 9, 1, 2, true));
        let put = if padded { pad_all(&mut card) } else { 0 };
        let image = BitImage {
            sheet: Sheet { series, card: &card },
            bits: Bits { words: &[0b10], count: 1 },
            store: &store,
            corrections: Corrections { list: &[1, 0], count: 1 },
            second: &second,
        };
        let window = Window { top: 0, left: 0, height: 1, width: 2 };
        let ask = |column| {
            let asked = Asked { pixel: Pixel { row: 0, column }, window, index: &[1, 2] };
            let (found, words, index) = blocks(&image, &asked);
            found.iter().for_each(|block| check(block, put));
            assert_eq!((words, index), (vec![0b11], vec![0, 1]));
            found.map(|block| (block.number, block.at, block.rest))
        };
        let found = ask(0);
        assert_eq!(found[0], (14, 0, vec![0; 3]));
        assert_eq!(found[1], (14, 0, vec![0; 3]));
        assert_eq!(found[2], (0, 0, vec![1, 0]));
        assert_eq!(found[3], (0, 0, vec![1, 1, 0, 49_152]));
        assert_eq!(found[4], (0, 0, vec![6; 3]));
        assert_eq!(found[5], (0, 0, vec![0, 0]));
        let found = ask(255);
        assert_eq!(found[0], (0, 0, vec![1, 0, 49_152]));
        assert_eq!(found[1], (0, 0, vec![5; 3]));
        assert_eq!(found[3], (0, 0, vec![0, 1, 0, 49_152]));
        assert_eq!(found[4], (0, 0, vec![5; 3]));
        assert_eq!(ask(256)[3], (12, 0, vec![0; 4]));
    }
}

/// Each refusal of a card: every block has its number and place, and zeros; the buffers stay.
#[test]
fn refused_cards() {
    let mut random = seeded("refused_cards");
    let store = [5; 2 * LENGTH];
    let mut cases: Vec<(Series, Vec<u8>, (u32, u64))> = Vec::new();
    for fault in FAULTS {
        let of = refusal(fault);
        let card = || (WORKED_SERIES, with_faults(&mut random, &[fault]), (of.number, of.at));
        cases.extend(std::iter::repeat_with(card).take(3));
    }
    cases.extend(STATED.map(|(series, number)| (series, WORKED.to_vec(), (number, 0))));
    cases.extend([0, 1, 97].map(|n| (WORKED_SERIES, WORKED[..n].to_vec(), (6, 0))));
    for ((series, card, right), length) in cases.iter().flat_map(|case| [(case, 0), (case, 1)]) {
        let image = BitImage {
            sheet: Sheet { series: *series, card },
            bits: Bits { words: &[0b100][..length], count: 2 },
            store: &store,
            corrections: Corrections { list: &[0, 1], count: 1 },
            second: &store[..LENGTH],
        };
        let window = Window { top: 0, left: 0, height: 2, width: 1 };
        let index = &[2, 1][..2 * length];
        let asked = Asked { pixel: Pixel { row: 1, column: 1 }, window, index };
        let (found, words, index) = blocks(&image, &asked);
        for block in found {
            assert_eq!((block.number, block.at), *right, "{}", card.escape_ascii());
            check(&block, 0);
        }
        assert_eq!((words, index), (vec![77; length], vec![77; 2 * length]), "buffers stay");
    }
}
