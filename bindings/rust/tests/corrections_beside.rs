//! What the request says of corrections beside the base (02, E1): an all-zero list gives document
//! 01's answers, a correction hides the base entry, and no other entry matters. The library is
//! compared with itself.

use crate::support;
use fordcask::{OnCard, Source, TILE_LENGTH};
use support::ask_corrections::{look_ups, missing};
use support::corrections::{any_held, every_window, has_tile, pixel_of_each, right_held};
use support::corrections::{store_bytes, store_of, Held, Image};
use support::index::any_window;
use support::make::{chart, overview, pixel, town_chart, Maker};
use support::{no_blanks, seeded, Random};

const MAKERS: [Maker; 3] = [chart, town_chart, overview];

/// Any entry: 0, of the count, or above it.
fn any_entry(random: &mut Random, count: u64) -> u32 {
    match random.below(5) {
        0 => 0,
        1 => u32::MAX,
        2 => count as u32 + 1,
        _ => random.below(count as usize + 1) as u32,
    }
}

/// Past the new 6, an all-zero list gives document 01's answers and refusals, whatever is wrong
/// with the base.
#[test]
fn all_zero() {
    let mut random = seeded("all_zero");
    let bytes = store_bytes(&mut random, 13);
    let mut met = [0; 16];
    for round in 0..60_000 {
        let mut held = any_held(&mut random, MAKERS[round % 3], 3);
        held.list = vec![0; held.tiles()];
        held.corrected = random.below(held.tiles() + 1) as u64;
        let store = store_of(&mut random, &bytes, held.count);
        let image = held.with(store, &bytes[..held.corrected as usize * TILE_LENGTH]);
        let Image { sheet, tiles, corrections, second, .. } = image;
        let pixel = pixel(&mut random, &held.record);
        let found = sheet.corrected_tile(tiles, store, corrections, second, pixel);
        let stored = found.map(|told| OnCard { value: told.value.stored, blanks: told.blanks });
        assert_eq!(stored, sheet.stored(tiles, store, pixel), "{pixel:?}");
        let place = |bytes: &[u8]| (bytes.as_ptr(), bytes.len());
        let base = sheet.tile(tiles, store, pixel).map(|told| place(told.value));
        assert_eq!(found.map(|told| place(told.value.bytes)), base, "{pixel:?}");
        assert!(found.is_err() || found.is_ok_and(|told| told.value.source == Source::Base));
        let values = sheet.corrected_bands(tiles, store, corrections, second, pixel);
        assert_eq!(values, sheet.bands(tiles, store, pixel), "{pixel:?}");
        let window = any_window(&mut random, &held.record);
        assert_eq!(missing(&image, window), sheet.window(tiles, window), "{window:?}");
        met[found.err().map_or(0, |refusal| refusal.number as usize)] += 1;
    }
    let rare = [0, 6, 12, 13, 14, 15].into_iter().find(|number| met[*number] < 100);
    assert_eq!(rare, None, "{met:?}");
}

/// Where a correction stands, above its count too, the base entry isn't consulted.
#[test]
fn base_hidden() {
    let mut random = seeded("base_hidden");
    let bytes = store_bytes(&mut random, 18);
    let mut hidden = 0;
    for round in 0..20_000 {
        let held = right_held(&mut random, MAKERS[round % 3], 3);
        let mut other = held.clone();
        for (entry, correction) in other.index.iter_mut().zip(&held.list) {
            if *correction != 0 {
                *entry = any_entry(&mut random, held.count);
            }
        }
        hidden += usize::from(other.index != held.index);
        let (image, other) = (held.lent(&bytes), other.lent(&bytes));
        for pixel in pixel_of_each(&mut random, &held.record) {
            assert_eq!(look_ups(&image, pixel), look_ups(&other, pixel), "{pixel:?}");
        }
        for window in every_window(&held.record) {
            assert_eq!(missing(&image, window), missing(&other, window), "{window:?}");
        }
    }
    assert!(hidden > 5_000, "{hidden} changed");
}

/// A corrected tile isn't missing: none is where all are corrected, whatever the base.
#[test]
fn none_missing() {
    let mut random = seeded("none_missing");
    for round in 0..5_000 {
        let mut held = right_held(&mut random, MAKERS[round % 3], 3);
        held.corrected = random.between(1, held.tiles() as i64) as u64;
        let most = held.corrected as usize;
        held.list = (0..held.tiles()).map(|_| 1 + random.below(most) as u32).collect();
        let image = held.with(&[], &[]);
        for window in every_window(&held.record) {
            assert_eq!(missing(&image, window), Ok(no_blanks(None)), "{window:?}");
        }
    }
}

/// Another image whose lists agree with this one's at the tiles that are kept.
fn agreeing(random: &mut Random, held: &Held, kept: impl Fn(u64) -> bool) -> Held {
    let mut other = held.clone();
    for tile in (0..held.tiles()).filter(|tile| !kept(*tile as u64)) {
        other.list[tile] = any_entry(random, held.corrected);
        if let Some(entry) = other.index.get_mut(tile) {
            *entry = any_entry(random, held.count);
        }
    }
    other
}

/// Lists that agree at the pixel's tile give the same answer there.
#[test]
fn only_that_tile() {
    let mut random = seeded("only_that_tile");
    let bytes = store_bytes(&mut random, 18);
    for round in 0..12_000 {
        let held = right_held(&mut random, MAKERS[round % 3], 3);
        let image = held.lent(&bytes);
        for (tile, pixel) in pixel_of_each(&mut random, &held.record).into_iter().enumerate() {
            let other = agreeing(&mut random, &held, |kept| kept == tile as u64);
            assert_eq!(look_ups(&image, pixel), look_ups(&other.lent(&bytes), pixel), "{pixel:?}");
        }
    }
}

/// Lists that agree in the window, to its first missing tile, give the same answer.
#[test]
fn only_that_window() {
    let mut random = seeded("only_that_window");
    for round in 0..60_000 {
        let held = right_held(&mut random, MAKERS[round % 3], 4);
        let image = held.with(&[], &[]);
        let window = random.pick(&every_window(&held.record));
        let found = missing(&image, window);
        // the window's tiles to the one that ended the search
        let last = match found {
            Ok(told) => told.value.unwrap_or(u64::MAX),
            Err(refusal) => refusal.at,
        };
        let kept = |tile| tile <= last && has_tile(&held.record, window, tile);
        let other = agreeing(&mut random, &held, kept);
        assert_eq!(missing(&other.with(&[], &[]), window), found, "{window:?}");
    }
}

/// The second list may be any of the right length: no check that numbers occur once, or at all.
#[test]
fn repeats() {
    let mut random = seeded("repeats");
    let bytes = store_bytes(&mut random, 18);
    for round in 0..2_000 {
        let mut held = right_held(&mut random, MAKERS[round % 3], 3);
        held.corrected = held.tiles() as u64;
        let one = 1 + random.below(held.tiles()) as u32;
        held.list = vec![one; held.tiles()];
        let image = held.lent(&bytes);
        for pixel in pixel_of_each(&mut random, &held.record) {
            let (found, _) = look_ups(&image, pixel);
            let right = image.sheet.position(pixel).map(|_| (Source::Corrections, u64::from(one)));
            assert_eq!(found.map(|told| (told.value.source, told.value.stored)), right);
        }
    }
}
