//! The order of the refusals of windows over presence bits: reading's, the base's 6, the
//! corrections' 6, 21, 12, 15; and of the conversions: reading's, 6, then 20 or 21 (02, E7).

use crate::support;
use fordcask::{Bits, Corrections, Refusal, Series, Sheet, Window};
use support::make::{all_chart, card};
use support::no_blanks;

const SERIES: Series = Series { scale: 312_500, factor: 2, zone: 14 };

/// A refusal of this number and place where it is there.
fn fault(there: bool, number: u32, at: u64) -> Option<Refusal> {
    there.then_some(Refusal { number, at })
}

/// With Y and with N, every set of this many faults.
fn sets(faults: u32) -> Vec<(bool, u32)> {
    [true, false].into_iter().flat_map(|tif| (0..1 << faults).map(move |set| (tif, set))).collect()
}

/// A card of 2 by 2 tiles; the same with a wrong byte.
fn cards(tif: bool) -> [Vec<u8>; 2] {
    let good = card(SERIES, &all_chart(9, -3, 2, 2, tif));
    let mut bad = good.clone();
    bad[97] = b'X';
    [good, bad]
}

/// Windows of tiles 2 and 3, and outside.
fn windows() -> [(Option<Refusal>, Window); 5] {
    let window = |top, left, height, width| Window { top, left, height, width };
    let outside = fault(true, 12, 0);
    [
        (None, window(1, 0, 1, 2)),
        (outside, window(1, 0, 2, 2)),
        (outside, window(1, 1, 1, 2)),
        (outside, window(2, 0, u64::MAX, 2)),
        (outside, window(3, 0, 0, 0)),
    ]
}

type Ends = Result<Option<u64>, (u32, u64)>;

/// Words of four tiles, and what tiles 2 and 3 give with the count 2, one after the other: none
/// where the search goes on.
const WORDS: [(u64, [Option<Ends>; 2]); 8] = [
    (0b0000, [Some(Ok(Some(2))), Some(Ok(Some(3)))]),
    (0b0011, [Some(Ok(Some(2))), Some(Ok(Some(3)))]),
    (0b1011, [Some(Ok(Some(2))), Some(Err((15, 3)))]),
    (0b0111, [Some(Err((15, 2))), Some(Ok(Some(3)))]),
    (0b1111, [Some(Err((15, 2))), Some(Err((15, 3)))]),
    (0b1101, [None, Some(Err((15, 3)))]),
    (0b0110, [None, Some(Ok(Some(3)))]),
    (0b1100, [None, None]),
];

/// A bit past the fourth.
const PAST: [u64; 3] = [1 << 4, 1 << 63, 1 << 40];

/// Words in a number that is right, or one less or more where it is wrong; with N none are right.
fn lengths(tif: bool, wrong: bool) -> Vec<usize> {
    match (tif, wrong) {
        (true, true) => vec![0, 2],
        (true, false) => vec![1],
        (false, true) => vec![1, 2],
        (false, false) => vec![0],
    }
}

/// What the window of tiles 2 and 3 gives, with their entries in the corrections, of count 2; with
/// N the bits never end the search.
fn of_window(
    tif: bool,
    entries: [u32; 2],
    ends: [Option<Ends>; 2],
) -> Result<Option<u64>, Refusal> {
    for tile in [0, 1] {
        let end = match entries[tile] {
            3.. => Some(Err((15, tile as u64 + 2))),
            1.. => None,
            0 if tif => ends[tile],
            0 => None,
        };
        if let Some(end) = end {
            return end.map_err(|(number, at)| Refusal { number, at });
        }
    }
    Ok(None)
}

/// Every set of a wrong card, words, count, list and corrected count and a bit past the last tile,
/// with each window and each state of its two tiles, with corrections and without.
#[test]
fn window() {
    let entries: Vec<[u32; 2]> =
        [0, 1, 3].into_iter().flat_map(|one| [0, 2, u32::MAX].map(|two| [one, two])).collect();
    for (tif, set) in sets(6) {
        let has = |bit: u32| set >> bit & 1 == 1;
        let cards = cards(tif);
        let sheet = Sheet { series: SERIES, card: &cards[usize::from(has(0))] };
        let count = if has(2) {
            5
        } else if tif {
            2
        } else {
            4
        };
        let base = fault(has(1) || has(2), 6, 0);
        let beside = fault(has(3) || has(4), 6, 0);
        let past = fault(has(5) && tif, 21, 0);
        for (length, (state, window)) in
            lengths(tif, has(1)).into_iter().flat_map(|n| windows().map(|window| (n, window)))
        {
            for (i, (word, ends)) in WORDS.into_iter().enumerate() {
                let words = [word | if has(5) { PAST[i % 3] } else { 0 }, u64::MAX];
                let bits = Bits { words: &words[..length], count };
                let before = fault(has(0), 8, 97).or(base).or(past).or(state);
                let right = before.map_or_else(|| of_window(tif, [0, 0], ends), Err);
                let found = sheet.bits_window(bits, window);
                assert_eq!(found, right.map(no_blanks), "{tif} {set} {bits:x?} {window:?}");
                for two in &entries {
                    let list = [3, 3, two[0], two[1], 0];
                    let list = &list[..4 + usize::from(has(3))];
                    let corrections = Corrections { list, count: if has(4) { 5 } else { 2 } };
                    let found = sheet.corrected_bits_window(bits, corrections, window);
                    let before = fault(has(0), 8, 97).or(base).or(beside).or(past).or(state);
                    let right = before.map_or_else(|| of_window(tif, *two, ends), Err);
                    let right = right.map(no_blanks);
                    assert_eq!(found, right, "{tif} {set} {bits:x?} {list:?} {window:?}");
                }
            }
        }
    }
}

/// List to bits: every set of a wrong card, list length, number of words, and another order.
#[test]
fn to_bits() {
    for (tif, set) in sets(4) {
        let has = |bit: u32| set >> bit & 1 == 1;
        let cards = cards(tif);
        let sheet = Sheet { series: SERIES, card: &cards[usize::from(has(0))] };
        let entries = match (tif, has(1)) {
            (true, true) => vec![0, 3, 5],
            (true, false) => vec![4],
            (false, true) => vec![1, 4],
            (false, false) => vec![0],
        };
        for length in entries {
            for words in lengths(tif, has(2)) {
                let list = if has(3) { [2, 0, 1, 3, 4] } else { [1, 0, 2, 3, 4] };
                let mut found = vec![77; words];
                let made = sheet.to_bits(&list[..length], &mut found);
                let order = fault(has(3) && tif, 20, 0);
                let right = fault(has(0), 8, 97).or(fault(has(1) || has(2), 6, 0)).or(order);
                let left = if right.is_none() && tif { vec![0b1101] } else { vec![77; words] };
                assert_eq!((made, found), (right.map_or(Ok(no_blanks(())), Err), left), "{set}");
            }
        }
    }
}

/// Bits to list: every set of a wrong card, number of words, list length, and a bit past the last
/// tile.
#[test]
fn to_list() {
    for (tif, set) in sets(4) {
        let has = |bit: u32| set >> bit & 1 == 1;
        let cards = cards(tif);
        let sheet = Sheet { series: SERIES, card: &cards[usize::from(has(0))] };
        let entries = match (tif, has(2)) {
            (true, true) => vec![0, 3, 5],
            (true, false) => vec![4],
            (false, true) => vec![1, 4],
            (false, false) => vec![0],
        };
        for length in entries {
            for count in lengths(tif, has(1)) {
                let words = [0b1101 | if has(3) { PAST[length % 3] } else { 0 }, u64::MAX];
                let mut found = vec![77; length];
                let made = sheet.to_list(&words[..count], &mut found);
                let past = fault(has(3) && tif, 21, 0);
                let right = fault(has(0), 8, 97).or(fault(has(1) || has(2), 6, 0)).or(past);
                let list = if tif { vec![1, 0, 2, 3] } else { Vec::new() };
                let left = if right.is_none() { list } else { vec![77; length] };
                assert_eq!((made, found), (right.map_or(Ok(no_blanks(())), Err), left), "{set}");
            }
        }
    }
}
