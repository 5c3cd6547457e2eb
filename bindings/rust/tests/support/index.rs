//! Indexes and windows of every kind, for images of few tiles.

use super::make::{all_chart, with_edges, Maker};
use super::random::Random;
use fordcask::{Record, Series, Window};

/// An index that is accepted: each of 1..count once, the rest 0, in random order.
pub fn good_index(random: &mut Random, tiles: usize, count: usize) -> Vec<u32> {
    let mut index: Vec<u32> = (1..=tiles).map(|k| if k <= count { k as u32 } else { 0 }).collect();
    for i in (1..tiles).rev() {
        index.swap(i, random.below(i + 1));
    }
    index
}

/// Repeats an entry, or makes one zero, above the count, or anything.
pub fn spoil(random: &mut Random, index: &mut [u32], count: usize) {
    let at = random.below(index.len());
    index[at] = match random.below(6) {
        0 => 0,
        1 => index[random.below(index.len())],
        2 => count as u32 + 1,
        3 => random.next() as u32,
        4 => u32::MAX,
        _ => random.below(count + 2) as u32,
    };
}

/// A record of few tiles; scale, factor and zone do not matter to the tiles.
pub fn small(random: &mut Random, maker: Maker, most: i64, tif: bool) -> (Series, Record) {
    let series = maker(random);
    let (nfl, nfc) = (random.between(1, most), random.between(1, most));
    let mut record = with_edges(random, nfl, 0, nfl, nfc);
    if random.once_in(2) {
        record = all_chart(nfl, 0, nfl as u64, nfc as u64, tif);
    }
    record.tif = tif;
    (series, record)
}

/// An index and a count for a record, good or wrong.
pub fn index_of(random: &mut Random, record: &Record) -> (Vec<u32>, u64) {
    let tiles = (record.nfl * record.nfc) as usize;
    let mut count = match random.below(3) {
        0 => tiles,
        _ => random.below(tiles + 1),
    };
    let mut index = Vec::new();
    if record.tif {
        index = good_index(random, tiles, count);
        for _ in 0..random.below(3) {
            spoil(random, &mut index, count);
        }
    } else {
        count = tiles;
    }
    match random.below(12) {
        0 => index.push(0),
        1 => drop(index.pop()),
        2 => index.clear(),
        3 => return (index, random.pick(&[u64::MAX, 1 << 63, tiles as u64 + 1])),
        4 => count = random.below(tiles + 2),
        _ => (),
    }
    (index, count as u64)
}

/// A window inside the tiles mostly, else with its ends outside or at the end of u64.
pub fn any_window(random: &mut Random, record: &Record) -> Window {
    let ends = [0, 1, u64::MAX, u64::MAX - 1, 1 << 63];
    let mut side = |tiles: u64| {
        let first = match random.below(12) {
            0 => tiles + random.below(2) as u64,
            _ => random.below(tiles as usize) as u64,
        };
        match random.below(24) {
            0 => (random.pick(&ends), random.pick(&ends)),
            1 => (first, random.pick(&ends)),
            2 => (first, tiles),
            _ => (first, random.between(0, tiles.saturating_sub(first) as i64) as u64),
        }
    };
    let ((top, height), (left, width)) = (side(record.nfl), side(record.nfc));
    Window { top, left, height, width }
}
