//! The order of the refusals of look-ups from presence bits: reading's, the base's 6, the
//! corrections' 6, 21, 12, 13, 15 of the correction, 14, 15 of the bits (02, E7).

use crate::support;
use fordcask::{Bits, Corrections, Pixel, Record, Refusal, Series, Sheet, TILE_LENGTH};
use support::make::{all_chart, card};

const SERIES: Series = Series { scale: 312_500, factor: 2, zone: 14 };

/// A refusal of this number and place where it is there.
fn fault(there: bool, number: u32, at: u64) -> Option<Refusal> {
    there.then_some(Refusal { number, at })
}

/// With Y and with N, every set of this many faults.
fn sets(faults: u32) -> Vec<(bool, u32)> {
    [true, false].into_iter().flat_map(|tif| (0..1 << faults).map(move |set| (tif, set))).collect()
}

/// A card of 2 by 2 tiles, its chart inside them; the same with a wrong byte.
fn cards(tif: bool) -> [Vec<u8>; 2] {
    let mut record: Record = all_chart(9, -3, 2, 2, tif);
    (record.nul, record.nll, record.nls, record.nus) = (20, 200, 30, 220);
    let good = card(SERIES, &record);
    let mut bad = good.clone();
    bad[44] = b'x';
    [good, bad]
}

/// Pixels of the fourth tile and of tiles that are not there, with their refusals.
fn pixels() -> [(Option<Refusal>, Pixel); 6] {
    let at = |row, column| Pixel { row, column };
    let outside = fault(true, 12, 0);
    [
        (None, at(150, 150)),
        (fault(true, 13, 0), at(201, 150)),
        (fault(true, 13, 0), at(150, 255)),
        (outside, at(256, 150)),
        (outside, at(150, -1)),
        (outside, at(i64::MIN, 150)),
    ]
}

/// Words of four tiles, and what the fourth gives with the count 2: clear, and the ones before it
/// at and above the count; present as the first, second, third and fourth.
const WORDS: [(u64, Result<u64, (u32, u64)>); 7] = [
    (0b0000, Err((14, 0))),
    (0b0011, Err((14, 0))),
    (0b0111, Err((14, 0))),
    (0b1000, Ok(1)),
    (0b1010, Ok(2)),
    (0b1101, Err((15, 3))),
    (0b1111, Err((15, 3))),
];

/// The entry of every tile in the corrections, whose count is 2.
const CORRECTIONS: [u32; 5] = [0, 1, 2, 3, u32::MAX];

/// A bit past the fourth.
const PAST: [u64; 3] = [1 << 4, 1 << 63, 1 << 40];

/// The fourth tile's answer from the bits; with N it is the fourth stored.
fn of_bits(tif: bool, right: Result<u64, (u32, u64)>) -> Result<u64, Refusal> {
    match tif {
        true => right.map_err(|(number, at)| Refusal { number, at }),
        false => Ok(4),
    }
}

/// Words in a number that is right, or one less or more where it is wrong; with N none are right.
fn lengths(tif: bool, wrong: bool) -> Vec<usize> {
    match (tif, wrong) {
        (true, true) => vec![0, 2],
        (true, false) => vec![1],
        (false, true) => vec![1, 2],
        (false, false) => vec![0],
    }
}

/// Without corrections: every set of a wrong card, words, count and store and a bit past the last
/// tile, with each pixel and each state of its tile.
#[test]
fn look_up() {
    let bytes = vec![5; 5 * TILE_LENGTH];
    for (tif, set) in sets(5) {
        let has = |bit: u32| set >> bit & 1 == 1;
        let cards = cards(tif);
        let sheet = Sheet { series: SERIES, card: &cards[usize::from(has(0))] };
        let count = if tif { 2 } else { 4 };
        let store = &bytes[..count as usize * TILE_LENGTH - usize::from(has(3))];
        let six = fault(has(1) || has(2) || has(3), 6, 0);
        let past = fault(has(4) && tif, 21, 0);
        for (length, (state, pixel)) in
            lengths(tif, has(1)).into_iter().flat_map(|n| pixels().map(|pixel| (n, pixel)))
        {
            for (i, (word, right)) in WORDS.into_iter().enumerate() {
                let words = [word | if has(4) { PAST[i % 3] } else { 0 }, u64::MAX];
                let words = &words[..length];
                let bits = Bits { words, count: if has(2) { 5 } else { count } };
                let before = fault(has(0), 7, 44).or(six).or(past).or(state);
                let right = before.map_or_else(|| of_bits(tif, right), Err);
                let found = sheet.bits_stored(bits, store, pixel).map(|told| told.value);
                assert_eq!(found, right, "{tif} {set} {words:x?} {pixel:?}");
                let found = sheet.bits_tile(bits, store, pixel).map(|told| told.value.as_ptr());
                let part = right.map(|k| store[(k as usize - 1) * TILE_LENGTH..].as_ptr());
                assert_eq!(found, part, "{tif} {set} {words:x?} {pixel:?}");
                let found = sheet.bits_bands(bits, store, pixel).map(|told| told.value.red);
                assert_eq!(found, right.map(|_| 5), "{tif} {set} {words:x?} {pixel:?}");
            }
        }
    }
}

/// What the fourth tile gives past the pixel's refusals: the source as a number, and the number
/// there.
fn of_tile(tif: bool, entry: u32, right: Result<u64, (u32, u64)>) -> Result<(u8, u64), Refusal> {
    match entry {
        3.. => Err(Refusal { number: 15, at: 3 }),
        1.. => Ok((1, entry.into())),
        0 => of_bits(tif, right).map(|stored| (0, stored)),
    }
}

/// With corrections: every set of a wrong card, words, count, store, list, corrected count and
/// corrections store, and a bit past the last tile.
#[test]
fn corrected_look_up() {
    let bytes = vec![5; 5 * TILE_LENGTH];
    for (tif, set) in sets(8) {
        let has = |bit: u32| set >> bit & 1 == 1;
        let cards = cards(tif);
        let sheet = Sheet { series: SERIES, card: &cards[usize::from(has(0))] };
        let count = if tif { 2 } else { 4 };
        let store = &bytes[..count as usize * TILE_LENGTH - usize::from(has(3))];
        let second = &bytes[..2 * TILE_LENGTH + usize::from(has(6))];
        let six = fault((1..7).any(has), 6, 0);
        let past = fault(has(7) && tif, 21, 0);
        for (length, (state, pixel)) in
            lengths(tif, has(1)).into_iter().flat_map(|n| pixels().map(|pixel| (n, pixel)))
        {
            for (i, (word, right)) in WORDS.into_iter().enumerate() {
                let words = [word | if has(7) { PAST[i % 3] } else { 0 }, u64::MAX];
                let words = &words[..length];
                let bits = Bits { words, count: if has(2) { 5 } else { count } };
                for entry in CORRECTIONS {
                    let list = &[entry; 5][..4 - usize::from(has(4))];
                    let corrections = Corrections { list, count: if has(5) { 5 } else { 2 } };
                    let case = format!("{tif} {set} {words:x?} {pixel:?} {entry}");
                    let found = sheet.corrected_bits_tile(bits, store, corrections, second, pixel);
                    let found = found.map(|told| (told.value.source as u8, told.value.stored));
                    let before = fault(has(0), 7, 44).or(six).or(past).or(state);
                    let right = before.map_or_else(|| of_tile(tif, entry, right), Err);
                    assert_eq!(found, right, "{case}");
                    let ask = Sheet::corrected_bits_bands;
                    let found = ask(&sheet, bits, store, corrections, second, pixel);
                    assert_eq!(found.map(|told| told.value.red), right.map(|_| 5), "{case}");
                }
            }
        }
    }
}
