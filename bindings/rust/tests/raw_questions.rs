//! The C answers of the questions on a card, field by field, and lists of odd length; the total of
//! blanks is told in an answer and is 0 in a refusal (02, E2).

use crate::{rule, support};
use fordcask::{raw, Pair, Series};
use support::blanks::pad_all;
use support::make::{all_chart, card, changes, changes_of};
use support::{seeded, PAIRS, WORKED, WORKED_SERIES};

/// What is stated beside a card, and the card.
type Held<'a> = (Series, &'a [u8]);

/// Positions through the C entry point of a pair, with lengths in numbers.
fn positions(
    pair: Pair,
    held: Held,
    pixels: &[i64],
    out: &mut [i64],
    numbers: &mut [u32],
) -> raw::Verdict {
    let (series, card) = held;
    let ask = match pair {
        Pair::Corner => raw::fordcask_corner_positions,
        Pair::Centre => raw::fordcask_positions,
    };
    // SAFETY: each pointer and length are those of one slice.
    unsafe {
        ask(
            series,
            card.as_ptr(),
            card.len(),
            pixels.as_ptr(),
            pixels.len(),
            out.as_mut_ptr(),
            out.len(),
            numbers.as_mut_ptr(),
            numbers.len(),
        )
    }
}

/// Pixels through the C entry point of a pair, with lengths in numbers.
fn pixels(
    pair: Pair,
    held: Held,
    positions: &[i64],
    out: &mut [i64],
    numbers: &mut [u32],
) -> raw::Verdict {
    let (series, card) = held;
    let ask = match pair {
        Pair::Corner => raw::fordcask_corner_pixels,
        Pair::Centre => raw::fordcask_pixels,
    };
    // SAFETY: each pointer and length are those of one slice.
    unsafe {
        ask(
            series,
            card.as_ptr(),
            card.len(),
            positions.as_ptr(),
            positions.len(),
            out.as_mut_ptr(),
            out.len(),
            numbers.as_mut_ptr(),
            numbers.len(),
        )
    }
}

/// Every length of list and outputs to 9, odd ones among them; the card has this many blanks.
fn every_length(pair: Pair, held: Held, right: [i64; 8], blanks: u64) {
    let asked = [0, 0, 1, 1, 256, 0, 255, 127, 5];
    let mut places = [0, 0, 0, 0, 0, 0, 0, 64_800_001, 0];
    places[..4].copy_from_slice(&right[..4]);
    for length in 0..=9usize {
        for out_len in 0..=9 {
            for numbers_len in 0..=9 {
                let (mut out, mut numbers) = (vec![7; out_len], vec![7; numbers_len]);
                let given = positions(pair, held, &asked[..length], &mut out, &mut numbers);
                let good = length % 2 == 0 && out_len >= length && numbers_len >= length / 2;
                let (number, blanks) = if good { (0, blanks) } else { (6, 0) };
                let verdict = raw::Verdict { number, at: 0, blanks };
                assert_eq!(given, verdict, "{length} {out_len} {numbers_len}");
                let written = if good { length } else { 0 };
                assert_eq!(out[..written], right[..written]);
                assert_eq!(numbers[..written / 2], [0, 0, 12, 0][..written / 2]);
                assert!(out[written..].iter().all(|x| *x == 7), "the rest stays");
                assert!(numbers[written / 2..].iter().all(|x| *x == 7), "the rest stays");

                let (mut out, mut numbers) = (vec![7; out_len], vec![7; numbers_len]);
                let given = pixels(pair, held, &places[..length], &mut out, &mut numbers);
                assert_eq!(given, verdict, "{length} {out_len} {numbers_len}");
                assert_eq!(out[..written], [0, 0, 1, 1, 0, 0, 0, 0][..written]);
                assert_eq!(numbers[..written / 2], [0, 0, 12, 5][..written / 2]);
                assert!(out[written..].iter().all(|x| *x == 7), "the rest stays");
                assert!(numbers[written / 2..].iter().all(|x| *x == 7), "the rest stays");
            }
        }
    }
}

/// The worked card, and its record at the ends of the town scales (02, E13), in both pairs.
#[test]
fn odd_lengths() {
    let corner = [4_143_223, -897_507, 4_142_899, -897_156, 0, 0, 4_060_682, -852_982];
    let centre = [4_143_061, -897_332, 4_142_737, -896_981, 0, 0, 4_060_520, -852_807];
    every_length(Pair::Corner, (WORKED_SERIES, WORKED), corner, 0);
    every_length(Pair::Centre, (WORKED_SERIES, WORKED), centre, 0);
    let mut padded = *WORKED;
    assert_eq!(pad_all(&mut padded), 30);
    every_length(Pair::Corner, (WORKED_SERIES, &padded), corner, 30);
    every_length(Pair::Centre, (WORKED_SERIES, &padded), centre, 30);
    let town = [
        (5_000, Pair::Corner, [20_716, -4_488, 20_714, -4_486, 0, 0, 20_303, -4_265]),
        (5_000, Pair::Centre, [20_715, -4_487, 20_714, -4_485, 0, 0, 20_303, -4_264]),
        (9_999, Pair::Corner, [41_428, -8_974, 41_425, -8_971, 0, 0, 40_603, -8_529]),
        (9_999, Pair::Centre, [41_426, -8_972, 41_423, -8_969, 0, 0, 40_601, -8_527]),
    ];
    for (scale, pair, right) in town {
        let series = Series::chart(scale, 1);
        let mut card = card(series, &all_chart(100, -20, 2, 1, false));
        every_length(pair, (series, &card), right, 0);
        let blanks = pad_all(&mut card);
        every_length(pair, (series, &card), right, blanks);
    }
}

/// A refused card leaves every list unchanged, whatever their lengths.
#[test]
fn refused_cards() {
    let mut random = seeded("refused_cards");
    let mut refused = 0;
    let town_series = Series::chart(9_999, 1);
    let town = card(town_series, &all_chart(100, -20, 2, 1, false));
    let mut padded = *WORKED;
    pad_all(&mut padded);
    let worked = changes().chain(changes_of(&padded)).map(|card| (WORKED_SERIES, card));
    let cards = worked.chain(changes_of(&town).map(|card| (town_series, card)));
    for (series, card) in cards.step_by(7) {
        let Err(refusal) = rule::read(series, &card) else {
            continue;
        };
        refused += 1;
        let asked = [1; 9];
        let length = random.below(10);
        let (mut out, mut numbers) = (vec![7; random.below(10)], vec![7; random.below(10)]);
        for pair in PAIRS {
            let (held, asked) = ((series, &card[..]), &asked[..length]);
            let first = positions(pair, held, asked, &mut out, &mut numbers);
            let second = pixels(pair, held, asked, &mut out, &mut numbers);
            let verdict = raw::Verdict { number: refusal.number, at: refusal.at, blanks: 0 };
            assert_eq!(first, verdict);
            assert_eq!(second, verdict);
        }
        assert!(out.iter().all(|x| *x == 7) && numbers.iter().all(|x| *x == 7));
    }
    assert!(refused > 6_000, "{refused} refused");
}

/// Value parts are 0 in each refusal of a question on an accepted card, the total of blanks too.
fn refused_values_of((series, card): Held, blanks: u64) {
    let (c, length) = (card.as_ptr(), card.len());
    let (index, store) = ([0u32, 9], [5u8; 49_152]);
    let (i, s, far) = (index.as_ptr(), store.as_ptr(), i64::MIN);
    // SAFETY: each pointer and length are those of one array or slice.
    unsafe {
        for (column, number, at) in [(0, 14, 0), (128, 15, 1), (256, 12, 0), (far, 12, 0)] {
            let tile = raw::fordcask_tile(series, c, length, i, 2, 1, s, 49_152, 0, column);
            let none = raw::Tile { number, at, stored: 0, offset: 0, length: 0, blanks: 0 };
            assert_eq!(tile, none);
            let bands = raw::fordcask_bands(series, c, length, i, 2, 1, s, 49_152, 0, column);
            assert_eq!(bands, raw::Bands { number, at, red: 0, green: 0, blue: 0, blanks: 0 });
        }
        let place = raw::fordcask_place(series, c, length, far, 0);
        assert_eq!(place, raw::Place { number: 12, at: 0, row: 0, column: 0, blanks: 0 });
        for ask in [raw::fordcask_position, raw::fordcask_corner_position] {
            let position = ask(series, c, length, 0, 256);
            assert_eq!(position, raw::Position { number: 12, at: 0, lat: 0, lon: 0, blanks: 0 });
        }
        for (ask, (lat, lon, number)) in [raw::fordcask_pixel, raw::fordcask_corner_pixel]
            .into_iter()
            .flat_map(|ask| [(0, i64::MAX, 5), (far, far, 4), (0, 0, 12)].map(|at| (ask, at)))
        {
            let pixel = ask(series, c, length, lat, lon);
            assert_eq!(pixel, raw::Pixel { number, at: 0, row: 0, column: 0, blanks: 0 });
        }
        let window = |left, width| {
            let block = raw::fordcask_window(series, c, length, i, 2, 1, 0, left, 1, width);
            (block.number, block.at, block.missing, block.tile, block.blanks)
        };
        assert_eq!(window(1, 1), (15, 1, 0, 0, 0));
        assert_eq!(window(2, 1), (12, 0, 0, 0, 0));
        assert_eq!(window(0, 2), (0, 0, 1, 0, blanks));
        assert_eq!(window(2, 0), (0, 0, 0, 0, blanks));
    }
}

#[test]
fn refused_values() {
    for scale in [5_000, 9_999, 10_000, 1_000_000] {
        let series = Series::chart(scale, 1);
        let mut card = card(series, &all_chart(9, 9, 1, 2, true));
        refused_values_of((series, &card), 0);
        let blanks = pad_all(&mut card);
        assert!(blanks > 20, "{blanks} blanks at 1:{scale}");
        refused_values_of((series, &card), blanks);
    }
}
