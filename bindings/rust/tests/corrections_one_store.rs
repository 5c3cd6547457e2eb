//! Corrections as one list and one store: the corrected tiles first, the base's after them.
//! Document 01's questions on these must answer what the new ones do (02, E1).

use crate::support;
use fordcask::{Sheet, Source, Tiles, TILE_LENGTH};
use support::ask_corrections::{look_ups, missing};
use support::corrections::{every_window, pixel_of_each, right_held, store_bytes, Held};
use support::make::{card, chart, overview, town_chart, Maker};
use support::seeded;

const MAKERS: [Maker; 3] = [chart, town_chart, overview];

/// The base entry of a tile; with N every tile is stored in reading order.
fn base_entry(held: &Held, tile: usize) -> u64 {
    match held.record.tif {
        true => held.index[tile].into(),
        false => tile as u64 + 1,
    }
}

/// One entry for both lists; above every count where the entry that decides is above its own.
fn one_entry(held: &Held, tile: usize) -> u32 {
    let (correction, entry) = (u64::from(held.list[tile]), base_entry(held, tile));
    match correction {
        0 if entry == 0 => 0,
        0 if entry > held.count => u32::MAX,
        0 => (held.corrected + entry) as u32,
        _ if correction > held.corrected => u32::MAX,
        _ => correction as u32,
    }
}

/// The card with TIF Y.
fn with_index(held: &Held) -> Vec<u8> {
    let mut record = held.record;
    record.tif = true;
    card(held.series, &record)
}

/// Look-up and bands in one store, where the two counts together are at most the tiles.
#[test]
fn tiles_and_values() {
    let mut random = seeded("tiles_and_values");
    let bytes = store_bytes(&mut random, 9);
    let (mut met, mut from) = ([0; 16], [0, 0]);
    for round in 0..80_000 {
        let held = right_held(&mut random, MAKERS[round % 3], 3);
        let both = (held.corrected + held.count) as usize;
        if both > held.tiles() {
            continue;
        }
        let index: Vec<u32> = (0..held.tiles()).map(|tile| one_entry(&held, tile)).collect();
        let (one, card) = (&bytes[..both * TILE_LENGTH], with_index(&held));
        let (second, store) = one.split_at(held.corrected as usize * TILE_LENGTH);
        let plain = Sheet { series: held.series, card: &card };
        let (tiles, image) =
            (Tiles { index: &index, count: both as u64 }, held.with(store, second));
        for pixel in pixel_of_each(&mut random, &held.record) {
            let (found, values) = look_ups(&image, pixel);
            let stored = found.map(|told| match told.value.source {
                Source::Corrections => told.value.stored,
                Source::Base => held.corrected + told.value.stored,
            });
            assert_eq!(stored, plain.stored(tiles, one, pixel).map(|told| told.value));
            let part = found.map(|told| told.value.start);
            let right = plain.tile(tiles, one, pixel).map(|told| told.value.as_ptr());
            assert_eq!(part, right, "{pixel:?}");
            assert_eq!(values, plain.bands(tiles, one, pixel), "{pixel:?}");
            met[found.err().map_or(0, |refusal| refusal.number as usize)] += 1;
            from[usize::from(stored.is_ok_and(|stored| stored <= held.corrected))] += 1;
        }
    }
    let rare = [0, 13, 14, 15].into_iter().find(|number| met[*number] < 1_000);
    assert_eq!(rare, None, "{met:?}");
    assert!(from[1] > 3_000, "{from:?}");
}

/// Windows over one list: a corrected tile is as good as a stored one.
#[test]
fn windows() {
    let mut random = seeded("windows");
    let mut met = [0; 3];
    for round in 0..15_000 {
        let held = right_held(&mut random, MAKERS[round % 3], 3);
        let most = held.tiles() as u32;
        let index: Vec<u32> = (0..held.tiles())
            .map(|tile| match one_entry(&held, tile) {
                u32::MAX => u32::MAX,
                entry => entry.min(most),
            })
            .collect();
        let card = with_index(&held);
        let plain = Sheet { series: held.series, card: &card };
        let (tiles, image) = (Tiles { index: &index, count: most.into() }, held.with(&[], &[]));
        for window in every_window(&held.record) {
            let found = missing(&image, window);
            assert_eq!(found, plain.window(tiles, window), "{window:?}");
            met[found.map_or(2, |told| usize::from(told.value.is_some()))] += 1;
        }
    }
    assert!(met.iter().all(|times| *times > 2_000), "{met:?}");
}
