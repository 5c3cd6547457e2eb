//! Setting one entry, the list compared whole (02, E1).

use crate::support;
use fordcask::{Series, Sheet};
use support::corrections::{any_held, right_held};
use support::make::{all_chart, card, chart, overview, town_chart, Maker};
use support::{seeded, Ask, Random};

const MAKERS: [Maker; 3] = [chart, town_chart, overview];

/// A number and its neighbours, both ends, and numbers that are small if 32 bits are kept.
fn near(number: u64) -> Vec<u64> {
    let mut all = vec![0, 1, 2, number.saturating_sub(1), number, number.saturating_add(1)];
    all.extend([1 << 32, (1 << 32) + 1, (1 << 32) + number % 1_000, 1 << 63]);
    all.extend([u32::MAX.into(), u64::MAX - 1, u64::MAX]);
    all.sort_unstable();
    all.dedup();
    all
}

/// Both ends of the tiles, of the count and of the numbers, over lists of every length near.
#[test]
fn ends() {
    let mut random = seeded("ends");
    let mut ask = Ask::default();
    for (nfl, nfc, tif) in [(1, 1, true), (1, 2, false), (3, 1, true), (2, 3, true), (3, 3, false)]
    {
        let tiles = nfl * nfc;
        let series = Series { scale: 50_000, factor: 3, zone: 5 };
        let card = card(series, &all_chart(9, -3, nfl, nfc, tif));
        let sheet = Sheet { series, card: &card };
        for count in near(tiles) {
            for length in [tiles, tiles, 0, tiles - 1, tiles + 1] {
                for (tile, number) in near(tiles)
                    .into_iter()
                    .flat_map(|tile| near(count).into_iter().map(move |n| (tile, n)))
                {
                    let mut list: Vec<u32> = (0..length).map(|_| any_entry(&mut random)).collect();
                    let _ = ask.set_correction(&sheet, &mut list, count, tile, number);
                }
            }
        }
    }
    ask.met("set_correction", &[0, 6, 12, 15]);
}

/// What a list may hold before: any number, the ends often.
fn any_entry(random: &mut Random) -> u32 {
    match random.below(4) {
        0 => 0,
        1 => u32::MAX,
        2 => random.below(10) as u32,
        _ => random.next() as u32,
    }
}

/// Random images with lists good and wrong.
#[test]
fn random_images() {
    let mut random = seeded("random_images");
    let mut ask = Ask::default();
    for round in 0..150_000 {
        let mut held = any_held(&mut random, MAKERS[round % 3], 5);
        let tiles = held.tiles() as u64;
        let tile = match random.below(8) {
            0 => random.pick(&near(tiles)),
            1 => tiles - 1,
            _ => random.below(tiles as usize) as u64,
        };
        let number = match random.below(4) {
            0 => random.pick(&near(held.corrected)),
            1 => held.corrected,
            _ => random.below(held.corrected.min(30) as usize + 1) as u64,
        };
        let sheet = Sheet { series: held.series, card: &held.card };
        let _ = ask.set_correction(&sheet, &mut held.list, held.corrected, tile, number);
    }
    ask.met("set_correction", &[0, 6, 12, 15]);
}

/// Many settings of one list, one after the other; a plain list keeps what it should hold.
#[test]
fn one_after_the_other() {
    let mut random = seeded("one_after_the_other");
    let mut set = 0;
    for round in 0..600 {
        let held = right_held(&mut random, MAKERS[round % 3], 6);
        let (mut list, mut right) = (held.list.clone(), held.list.clone());
        for _ in 0..100 {
            let tile = random.below(held.tiles() + 1);
            let number = random.below(held.corrected as usize + 2);
            let sheet = held.sheet();
            let found = sheet.set_correction(&mut list, held.corrected, tile as u64, number as u64);
            let good = tile < held.tiles() && number as u64 <= held.corrected;
            if good {
                right[tile] = number as u32;
                set += 1;
            }
            assert_eq!((found.is_ok(), &list), (good, &right), "{tile} {number}");
        }
        // each correction is taken back
        for tile in 0..held.tiles() {
            let taken = held.sheet().set_correction(&mut list, held.corrected, tile as u64, 0);
            assert!(taken.is_ok(), "{taken:?}");
        }
        assert_eq!(list, vec![0; held.tiles()]);
    }
    assert!(set > 30_000, "{set} set");
}

/// A part of a longer list is lent: what lies on either side of it stays.
#[test]
fn lent_part() {
    let mut ask = Ask::default();
    let series = Series::chart(5_000, 17);
    let card = card(series, &all_chart(9, -3, 2, 2, false));
    let sheet = Sheet { series, card: &card };
    for (start, tile, number) in
        (0..=4).flat_map(|start| (0..6).flat_map(move |t| (0..6).map(move |n| (start, t, n))))
    {
        let mut whole = [7; 8];
        let found = ask.set_correction(&sheet, &mut whole[start..start + 4], 3, tile, number);
        let mut right = [7; 8];
        if found.is_ok() {
            right[start + tile as usize] = number as u32;
        }
        assert_eq!(whole, right, "{start} {tile} {number}");
    }
    ask.met("set_correction", &[0, 12, 15]);
}
