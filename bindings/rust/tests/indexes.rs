//! Index check and windows over indexes of every kind, compared with the rule.

use crate::support;
use fordcask::{Series, Sheet, Tiles, Window};
use support::index::{any_window, good_index, index_of, small};
use support::make::{all_chart, card, chart, overview, town_chart, Maker};
use support::{seeded, Ask};

/// Indexes good and wrong, with marks of every length.
fn random_checks(test: &str, rounds: u32, maker: Maker) {
    let mut random = seeded(test);
    let mut ask = Ask::default();
    for _ in 0..rounds {
        let tif = !random.once_in(6);
        let (series, record) = small(&mut random, maker, 6, tif);
        let card = card(series, &record);
        let sheet = Sheet { series, card: &card };
        let (index, count) = index_of(&mut random, &record);
        let marks_len = match random.below(8) {
            0 => random.below(8),
            1 => (count.min(50) as usize).saturating_sub(1),
            2 => count.min(50) as usize,
            _ => count.min(50) as usize + random.below(4),
        };
        let _ = ask.index_check(&sheet, Tiles { index: &index, count }, marks_len);
    }
    ask.met("index_check", &[0, 6, 15]);
}

#[test]
fn index_check() {
    random_checks("index_check", 300_000, chart);
}

#[test]
fn index_check_town() {
    random_checks("index_check_town", 100_000, town_chart);
}

#[test]
fn index_check_overview() {
    random_checks("index_check_overview", 100_000, overview);
}

/// Every index of three tiles with entries 0..4, every count and some marks.
#[test]
fn every_small_index() {
    let mut ask = Ask::default();
    for tif in [true, false] {
        let record = all_chart(9, 9, 1, 3, tif);
        let series = Series::chart(1_000_000, 1);
        let card = card(series, &record);
        let sheet = Sheet { series, card: &card };
        for code in 0..4 * 125 {
            let entries = [code % 5, code / 5 % 5, code / 25 % 5, 0];
            let index = &entries[..[3, 0, 2, 4][code as usize / 125]];
            for count in [0, 1, 2, 3, 4, 5, u64::MAX] {
                let tiles = Tiles { index, count };
                for marks_len in 0..6 {
                    let _ = ask.index_check(&sheet, tiles, marks_len);
                }
                for left in 0..=4 {
                    for width in 0..=4 {
                        let window = Window { top: 0, left, height: 1, width };
                        let _ = ask.window(&sheet, tiles, window);
                    }
                }
            }
        }
    }
    ask.met("index_check", &[0, 6, 15]);
    ask.met("window", &[0, 6, 12, 15]);
}

/// Windows over indexes good and wrong.
fn random_windows(test: &str, rounds: u32, maker: Maker) {
    let mut random = seeded(test);
    let mut ask = Ask::default();
    let (mut missing, mut none) = (0, 0);
    for _ in 0..rounds {
        let tif = !random.once_in(6);
        let (series, record) = small(&mut random, maker, 7, tif);
        let card = card(series, &record);
        let sheet = Sheet { series, card: &card };
        let (index, count) = index_of(&mut random, &record);
        let window = any_window(&mut random, &record);
        let found = ask.window(&sheet, Tiles { index: &index, count }, window);
        match found.map(|told| told.value) {
            Ok(Some(_)) => missing += 1,
            Ok(None) => none += 1,
            Err(_) => (),
        }
    }
    assert!(missing > 5_000 && none > 5_000, "{missing} missing, {none} none");
    ask.met("window", &[0, 6, 12, 15]);
}

#[test]
fn window() {
    random_windows("window", 300_000, chart);
}

#[test]
fn window_town() {
    random_windows("window_town", 100_000, town_chart);
}

#[test]
fn window_overview() {
    random_windows("window_overview", 100_000, overview);
}

/// The largest image, 999 × 999 tiles, with an index and without.
#[test]
fn largest_image() {
    let mut random = seeded("largest_image");
    let mut ask = Ask::default();
    let total = 999 * 999;
    for (scale, tif) in [(100_000, true), (100_000, false), (9_999, true), (5_000, false)] {
        let record = all_chart(900, -300, 999, 999, tif);
        let series = Series::chart(scale, 3);
        let card = card(series, &record);
        let sheet = Sheet { series, card: &card };
        let mut index = good_index(&mut random, total, total);
        let spoiled = random.below(total);
        for entry in [index[spoiled], 0, 1, total as u32 + 1, u32::MAX] {
            index[spoiled] = entry;
            let held: &[u32] = if tif { &index } else { &[] };
            let tiles = Tiles { index: held, count: total as u64 };
            let _ = ask.index_check(&sheet, tiles, total + 2);
            let all = Window { top: 0, left: 0, height: 999, width: 999 };
            let _ = ask.window(&sheet, tiles, all);
            let _ = ask.window(&sheet, tiles, Window { top: 1, ..all });
            for _ in 0..20 {
                let window = any_window(&mut random, &record);
                let _ = ask.window(&sheet, tiles, window);
            }
        }
    }
    ask.met("index_check", &[0, 15]);
    ask.met("window", &[0, 12, 15]);
}
