//! The C answers of the questions on corrections, field by field: all but number and place is 0 in
//! a refusal, the total of blanks too; offset and length are those of the tile (02, E1 and E2).

use crate::{rule, support};
use std::collections::BTreeSet;
use std::mem::{offset_of, size_of};

use fordcask::{raw, Corrections, OnCard, Pixel, Refusal, Series, Sheet, Source, Tiles, Window};
use support::blank_faults::{refusal, with_faults, FAULTS, STATED};
use support::blanks::{pad_all, pad_some};
use support::corrections::{any_held, store_bytes, store_of, Image};
use support::index::any_window;
use support::make::{all_chart, card, chart, overview, pixel, town_chart, Maker};
use support::raw_blocks::{check, corrected_blocks, Block, Corrected};
use support::{seeded, WORKED, WORKED_SERIES};

const LENGTH: usize = 49_152;
const MAKERS: [Maker; 3] = [chart, town_chart, overview];

/// Sizes and places as the header has them.
#[test]
fn layout() {
    assert_eq!((size_of::<raw::CorrectedTile>(), offset_of!(raw::CorrectedTile, at)), (56, 8));
    assert_eq!(offset_of!(raw::CorrectedTile, source), 16);
    assert_eq!(offset_of!(raw::CorrectedTile, stored), 24);
    assert_eq!(offset_of!(raw::CorrectedTile, offset), 32);
    assert_eq!(offset_of!(raw::CorrectedTile, length), 40);
    assert_eq!(offset_of!(raw::CorrectedTile, blanks), 48);
}

/// A block of an answer; in a refusal the values are this many zeros.
fn block<T>(
    answer: Result<OnCard<T>, Refusal>,
    zeros: usize,
    values: impl Fn(T) -> Vec<i64>,
) -> Block {
    match answer {
        Ok(OnCard { value, blanks }) => Block { number: 0, at: 0, blanks, rest: values(value) },
        Err(Refusal { number, at }) => Block { number, at, blanks: 0, rest: vec![0; zeros] },
    }
}

/// The blocks and the list as the rule has them.
fn right_blocks(image: &Image, asked: &Corrected) -> ([Block; 4], Vec<u32>) {
    let card = rule::read(image.sheet.series, image.sheet.card);
    let Image { tiles, store, corrections, second, .. } = *image;
    let tile =
        card.and_then(|c| rule::corrected_tile(&c, tiles, store, corrections, second, asked.pixel));
    let bands = card
        .and_then(|c| rule::corrected_bands(&c, tiles, store, corrections, second, asked.pixel));
    let [top, left, height, width] = asked.window;
    let window = Window { top, left, height, width };
    let window = card.and_then(|c| rule::corrected_window(&c, tiles, corrections, window));
    let mut list = corrections.list.to_vec();
    let set = card.and_then(|c| {
        rule::set_correction(&c, &mut list, corrections.count, asked.tile, asked.number)
    });
    let blocks = [
        block(tile, 4, |tile| {
            let source = if tile.source == Source::Corrections { 1 } else { 0 };
            let stored = tile.stored as i64;
            vec![source, stored, 49_152 * (stored - 1), 49_152]
        }),
        block(bands, 3, |bands| [bands.red, bands.green, bands.blue].map(i64::from).to_vec()),
        block(window, 2, |tile| vec![tile.is_some().into(), tile.unwrap_or(0) as i64]),
        block(set, 0, |_| Vec::new()),
    ];
    (blocks, list)
}

/// Random images of every kind, some with blanks: each field as the rule says.
#[test]
fn every_field() {
    let mut random = seeded("every_field");
    let bytes = store_bytes(&mut random, 13);
    let mut met = vec![BTreeSet::new(); 4];
    for round in 0..40_000 {
        let mut held = any_held(&mut random, MAKERS[round % 3], 3);
        let put = match random.below(2) {
            0 => pad_some(&mut random, &mut held.card),
            _ => 0,
        };
        let store = store_of(&mut random, &bytes, held.count);
        let second = store_of(&mut random, &bytes, held.corrected);
        let Window { top, left, height, width } = any_window(&mut random, &held.record);
        let asked = Corrected {
            pixel: pixel(&mut random, &held.record),
            window: [top, left, height, width],
            tile: random.below(held.tiles() + 1) as u64,
            number: random.below(held.corrected.min(9) as usize + 2) as u64,
        };
        let image = held.with(store, second);
        let (found, right) = (corrected_blocks(&image, &asked), right_blocks(&image, &asked));
        assert_eq!(found, right, "{:?} {put} blanks", held.series);
        for (block, met) in found.0.iter().zip(&mut met) {
            check(block, put);
            met.insert(block.number);
        }
    }
    let look_up = [0, 6, 12, 13, 14, 15];
    for (met, right) in met.iter().zip([&look_up[..], &look_up, &[0, 6, 12, 15], &[0, 6, 12, 15]]) {
        assert!(met.iter().eq(right), "{met:?}, not {right:?}");
    }
}

/// Asks of one row of two tiles, the first of them stored; with blanks in the card and without.
fn two_tiles(list: [u32; 2], ask: impl Fn(&Image)) {
    let (store, second) = ([5; 2 * LENGTH], [6; 2 * LENGTH]);
    for (scale, put_blanks) in [(5_000, false), (9_999, true), (10_000, true), (1_000_000, false)] {
        let series = Series::chart(scale, 1);
        let mut card = card(series, &all_chart(9, 9, 1, 2, true));
        if put_blanks {
            assert!(pad_all(&mut card) > 20, "blanks at 1:{scale}");
        }
        ask(&Image {
            sheet: Sheet { series, card: &card },
            tiles: Tiles { index: &[2, 0], count: 2 },
            store: &store,
            corrections: Corrections { list: &list, count: 2 },
            second: &second,
        });
    }
}

/// A pixel to look up, all of the window, and the second tile to be set to 2.
fn at(row: i64, column: i64) -> Corrected {
    Corrected { pixel: Pixel { row, column }, window: [0, 0, 1, 2], tile: 1, number: 2 }
}

/// Number, place and values of each block.
fn told(image: &Image, asked: &Corrected) -> [(u32, u64, Vec<i64>); 4] {
    corrected_blocks(image, asked).0.map(|block| (block.number, block.at, block.rest))
}

/// None corrected: the first tile is the second of the base store, the other is not stored.
#[test]
fn of_the_base() {
    two_tiles([0, 0], |image| {
        let found = told(image, &at(0, 0));
        assert_eq!(found[0], (0, 0, vec![0, 2, 49_152, 49_152]));
        assert_eq!(found[1], (0, 0, vec![5, 5, 5]));
        assert_eq!(found[2], (0, 0, vec![1, 1]));
        let found = told(image, &at(0, 128));
        assert_eq!(found[0], (14, 0, vec![0; 4]));
        assert_eq!(found[1], (14, 0, vec![0; 3]));
        assert_eq!(corrected_blocks(image, &at(0, 0)).1, [0, 2]);
    });
}

/// Both corrected, the first as 2, the second as 1.
#[test]
fn of_the_corrections() {
    two_tiles([2, 1], |image| {
        let found = told(image, &at(127, 255));
        assert_eq!(found[0], (0, 0, vec![1, 1, 0, 49_152]));
        assert_eq!(found[1], (0, 0, vec![6, 6, 6]));
        assert_eq!(found[2], (0, 0, vec![0, 0]));
        assert_eq!(told(image, &at(0, 0))[0], (0, 0, vec![1, 2, 49_152, 49_152]));
    });
}

/// The second tile's correction is above the count.
#[test]
fn above_the_count() {
    two_tiles([0, 3], |image| {
        let found = told(image, &at(0, 128));
        assert_eq!(found[0], (15, 1, vec![0; 4]));
        assert_eq!(found[1], (15, 1, vec![0; 3]));
        assert_eq!(found[2], (15, 1, vec![0; 2]));
        assert_eq!(found[3], (0, 0, Vec::new()));
        let far = Corrected { tile: 2, ..at(0, -1) };
        assert_eq!(told(image, &far).map(|block| block.0), [12, 12, 15, 12]);
        let many = Corrected { number: 3, window: [1, 0, 1, 1], ..at(i64::MAX, 0) };
        let (found, list) = corrected_blocks(image, &many);
        let found = found.map(|block| (block.number, block.at, block.blanks));
        assert_eq!(found, [(12, 0, 0), (12, 0, 0), (12, 0, 0), (15, 1, 0)]);
        assert_eq!(list, [0, 3], "the list stays");
    });
}

/// Each refusal of a card: every block has its number and place, and zeros; the list stays.
#[test]
fn refused_cards() {
    let mut random = seeded("refused_cards");
    let store = [5; 2 * LENGTH];
    let mut cases: Vec<(Series, Vec<u8>, (u32, u64))> = Vec::new();
    for fault in FAULTS {
        let of = refusal(fault);
        let card = || (WORKED_SERIES, with_faults(&mut random, &[fault]), (of.number, of.at));
        cases.extend(std::iter::repeat_with(card).take(3));
    }
    cases.extend(STATED.map(|(series, number)| (series, WORKED.to_vec(), (number, 0))));
    cases.extend([0, 1, 97].map(|n| (WORKED_SERIES, WORKED[..n].to_vec(), (6, 0))));
    for (series, card, right) in &cases {
        let image = Image {
            sheet: Sheet { series: *series, card },
            tiles: Tiles { index: &[], count: 2 },
            store: &store,
            corrections: Corrections { list: &[0, 1], count: 1 },
            second: &store[..LENGTH],
        };
        let pixel = Pixel { row: 1, column: 1 };
        let asked = Corrected { pixel, window: [0, 0, 2, 1], tile: 0, number: 1 };
        let (found, list) = corrected_blocks(&image, &asked);
        for block in found {
            assert_eq!((block.number, block.at), *right, "{}", card.escape_ascii());
            check(&block, 0);
        }
        assert_eq!(list, [0, 1], "the list stays");
    }
}
