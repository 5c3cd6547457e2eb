//! Windows over lists of every kind, corrected first, compared with the rule (02, E1).

use crate::support;
use fordcask::{Corrections, Record, Series, Sheet, Tiles, Window};
use support::corrections::{any_held, Image};
use support::index::any_window;
use support::make::{all_chart, card, chart, overview, town_chart, Maker};
use support::{seeded, Ask};

/// Windows of small images, with lists good and wrong.
fn random_windows(test: &str, rounds: u32, maker: Maker) {
    let mut random = seeded(test);
    let mut ask = Ask::default();
    let (mut missing, mut none) = (0, 0);
    for _ in 0..rounds {
        let held = any_held(&mut random, maker, 6);
        let image = held.with(&[], &[]);
        let all = Window { top: 0, left: 0, height: held.record.nfl, width: held.record.nfc };
        let top = random.below(held.record.nfl as usize) as u64;
        let lower = Window { top, height: held.record.nfl - top, ..all };
        let [some, other] = [(); 2].map(|_| any_window(&mut random, &held.record));
        for window in [all, lower, some, other] {
            match ask.corrected_window(&image, window).map(|told| told.value) {
                Ok(Some(_)) => missing += 1,
                Ok(None) => none += 1,
                Err(_) => (),
            }
        }
    }
    let least = rounds / 4;
    assert!(missing > least && none > least, "{missing} missing, {none} none");
    ask.met("corrected_window", &[0, 6, 12, 15]);
}

#[test]
fn charts() {
    random_windows("charts", 120_000, chart);
}

#[test]
fn town_charts() {
    random_windows("town_charts", 40_000, town_chart);
}

#[test]
fn overviews() {
    random_windows("overviews", 40_000, overview);
}

/// Every index and list of three tiles with some entries, every window and count.
#[test]
fn every_small_list() {
    let mut ask = Ask::default();
    let entries = [0, 1, 2, u32::MAX];
    let lists: Vec<[u32; 3]> = (0..64)
        .map(|code| [entries[code % 4], entries[code / 4 % 4], entries[code / 16]])
        .collect();
    let series = Series::chart(1_000_000, 1);
    let with_index = lists.iter().map(|index| (true, Tiles { index, count: 1 }));
    for (tif, tiles) in with_index.chain([(false, Tiles { index: &[], count: 3 })]) {
        let card = card(series, &all_chart(9, 9, 1, 3, tif));
        let sheet = Sheet { series, card: &card };
        for (list, count) in lists.iter().flat_map(|list| [0, 1, 2].map(|count| (list, count))) {
            let corrections = Corrections { list, count };
            let image = Image { sheet, tiles, store: &[], corrections, second: &[] };
            for (left, width) in [(0, 3), (0, 1), (1, 2), (2, 1), (1, 1), (0, 0), (3, 0)] {
                let window = Window { top: 0, left, height: 1, width };
                let _ = ask.corrected_window(&image, window);
            }
        }
    }
    ask.met("corrected_window", &[0, 15]);
}

/// Sides at the ends of u64, whose sums are small numbers if 64 bits are kept, and empty windows
/// outside.
#[test]
fn far_windows() {
    let mut ask = Ask::default();
    let ends = [0, 1, 2, 3, 4, 1 << 32, (1 << 32) + 1, 1 << 63, u64::MAX - 1, u64::MAX];
    let series = Series { scale: 312_500, factor: 64, zone: 17 };
    for tif in [true, false] {
        let card = card(series, &all_chart(9, -3, 2, 3, tif));
        let sheet = Sheet { series, card: &card };
        let (index, count): (&[u32], u64) = if tif { (&[1, 0, 2, 0, 0, 3], 3) } else { (&[], 6) };
        let image = Image {
            sheet,
            tiles: Tiles { index, count },
            store: &[],
            corrections: Corrections { list: &[0, 1, 0, 2, 0, 0], count: 2 },
            second: &[],
        };
        for (top, height) in ends.into_iter().flat_map(|top| ends.map(|height| (top, height))) {
            for (left, width) in ends.into_iter().flat_map(|left| ends.map(|width| (left, width))) {
                let window = Window { top, left, height, width };
                let _ = ask.corrected_window(&image, window);
            }
        }
    }
    ask.met("corrected_window", &[0, 12]);
}

/// A list of this many tiles that is 0, or 1, all through.
fn lists(record: &Record) -> [Vec<u32>; 2] {
    [0, 1].map(|entry| vec![entry; (record.nfl * record.nfc) as usize])
}

/// The tiles are numbered in reading order, across first: each tile alone missing, or above.
#[test]
fn each_tile() {
    let mut ask = Ask::default();
    for (nfl, nfc) in [(1, 1), (1, 5), (5, 1), (2, 3), (4, 3)] {
        let record = all_chart(9, 0, nfl, nfc, true);
        let series = Series::chart(9_999, 3);
        let card = card(series, &record);
        let sheet = Sheet { series, card: &card };
        let [zeros, ones] = lists(&record);
        for tile in 0..nfl * nfc {
            let at = tile as usize;
            let (mut one_missing, mut one_above) = (ones.clone(), ones.clone());
            (one_missing[at], one_above[at]) = (0, 2);
            let cases = [
                (&zeros, &one_missing, Ok(Some(tile))),
                (&one_missing, &zeros, Ok(Some(tile))),
                (&zeros, &one_above, Err((15, tile))),
                (&one_above, &zeros, Err((15, tile))),
                (&one_above, &ones, Ok(None)),
                (&one_missing, &ones, Ok(None)),
            ];
            for (index, list, right) in cases {
                let tiles = Tiles { index, count: 1 };
                let corrections = Corrections { list, count: 1 };
                let image = Image { sheet, tiles, store: &[], corrections, second: &[] };
                let all = Window { top: 0, left: 0, height: nfl, width: nfc };
                let found = ask.corrected_window(&image, all);
                let found = found.map(|told| told.value).map_err(|r| (r.number, r.at));
                assert_eq!(found, right, "tile {tile} of {nfl} by {nfc}");
            }
        }
    }
    ask.met("corrected_window", &[0, 15]);
}
