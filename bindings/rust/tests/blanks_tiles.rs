//! Index check, look-up, bands and windows on padded cards: as on the cards without blanks, with
//! the total, and no total in 6, 12, 13, 14 and 15 (01, "Tiles"; 02, E2).

use crate::support;
use fordcask::{OnCard, Pixel, Record, Refusal, Series, Tiles, Window};
use support::blanks::Twins;
use support::index::{good_index, index_of, small};
use support::make::{all_chart, chart, overview, pixel, town_chart, Maker};
use support::{seeded, Ask, Random};

const MAKERS: [Maker; 3] = [chart, town_chart, overview];

fn refused<T>(number: u32, at: u64) -> Result<T, Refusal> {
    Err(Refusal { number, at })
}

/// A window inside the tiles mostly, to their end in half of the cases.
fn some_window(random: &mut Random, record: &Record) -> Window {
    let mut side = |tiles: u64| {
        let first = random.below(tiles as usize) as u64;
        let length = match random.below(16) {
            0 => random.pick(&[0, tiles + 1, u64::MAX]),
            1..=8 => tiles - first,
            _ => random.between(1, (tiles - first) as i64) as u64,
        };
        (first, length)
    };
    let ((top, height), (left, width)) = (side(record.nfl), side(record.nfc));
    Window { top, left, height, width }
}

/// Indexes good and wrong, with marks of every length, and windows.
#[test]
fn index_and_windows() {
    let mut random = seeded("index_and_windows");
    let mut ask = Ask::default();
    let (mut missing, mut none) = (0, 0);
    for round in 0..60_000 {
        let tif = !random.once_in(6);
        let (series, record) = small(&mut random, MAKERS[round % 3], 6, tif);
        let twins = Twins::of(&mut random, series, &record);
        let (index, count) = index_of(&mut random, &record);
        let tiles = Tiles { index: &index, count };
        let marks_len = (count.min(50) as usize + random.below(4)).saturating_sub(1);
        let _ = twins.same(|sheet| ask.index_check(sheet, tiles, marks_len));
        let window = some_window(&mut random, &record);
        match twins.same(|sheet| ask.window(sheet, tiles, window)) {
            Ok(OnCard { value: Some(_), .. }) => missing += 1,
            Ok(OnCard { value: None, .. }) => none += 1,
            Err(_) => (),
        }
    }
    assert!(missing > 5_000 && none > 5_000, "{missing} missing, {none} none");
    ask.met("index_check", &[0, 6, 15]);
    ask.met("window", &[0, 6, 12, 15]);
    ask.met_totals("index_check", 0..=28);
    ask.met_totals("window", 0..=28);
}

/// Pixels of small images, with indexes and stores good and wrong.
#[test]
fn look_ups() {
    let mut random = seeded("look_ups");
    let mut ask = Ask::default();
    let bytes: Vec<u8> = (0..12 * 49_152).map(|_| random.byte()).collect();
    for round in 0..30_000 {
        let tif = !random.once_in(4);
        let (series, record) = small(&mut random, MAKERS[round % 3], 3, tif);
        let twins = Twins::of(&mut random, series, &record);
        let (index, count) = index_of(&mut random, &record);
        let tiles = Tiles { index: &index, count };
        let right = count.min(11) as usize * 49_152;
        let length = match random.below(16) {
            0 => right + 1,
            1 => right.saturating_sub(1),
            _ => right,
        };
        let start = random.below(bytes.len() - length + 1);
        let store = &bytes[start..start + length];
        for _ in 0..2 {
            let pixel = pixel(&mut random, &record);
            let _ = twins.same(|sheet| ask.tile(sheet, tiles, store, pixel));
            let _ = twins.same(|sheet| ask.bands(sheet, tiles, store, pixel));
            let _ = twins.same(|sheet| sheet.tile(tiles, store, pixel));
            let _ = twins.same(|sheet| sheet.stored(tiles, store, pixel));
        }
    }
    for question in ["tile", "stored", "bands"] {
        ask.met(question, &[0, 6, 12, 13, 14, 15]);
        ask.met_totals(question, 0..=28);
    }
}

/// Each refusal and answer of one padded image of 2 by 2 tiles, one of them padding in part.
#[test]
fn one_image() {
    let mut random = seeded("one_image");
    let series = Series::chart(1_000_000, 1);
    let mut record = all_chart(100, -20, 2, 2, true);
    (record.nll, record.nus) = (200, 220);
    let twins = Twins::of(&mut random, series, &record);
    // the fourth entry is above the count, the second tile is not stored
    let (index, store) = ([2, 0, 1, 9], [3; 2 * 49_152]);
    let tiles = Tiles { index: &index, count: 2 };
    let at = |row, column| Pixel { row, column };
    let right = [
        (at(0, 0), Ok(2)),
        (at(128, 0), Ok(1)),
        (at(0, 128), refused(14, 0)),
        (at(128, 128), refused(15, 3)),
        (at(201, 0), refused(13, 0)),
        (at(0, 256), refused(12, 0)),
    ];
    for (pixel, right) in right {
        let found = twins.same(|sheet| sheet.stored(tiles, &store, pixel));
        assert_eq!(found, right.map(|value| OnCard { value, blanks: twins.put }));
        let found = twins.same(|sheet| sheet.tile(tiles, &store, pixel));
        let part = found.map(|told| (told.value.as_ptr(), told.value.len(), told.blanks));
        let right = right.map(|k| (store[(k as usize - 1) * 49_152..].as_ptr(), 49_152, twins.put));
        assert_eq!(part, right);
        let found = twins.same(|sheet| sheet.tile(tiles, &store[1..], pixel));
        assert_eq!(found, refused(6, 0));
    }
    let marks = twins.sheets().map(|sheet| {
        let mut marks = [7; 3];
        assert_eq!(sheet.index_check(tiles, &mut marks), refused(15, 3));
        marks
    });
    assert_eq!(marks, [[1, 1, 7]; 2]);
}

/// A large image with many tiles: the index is looked at to its end.
#[test]
fn large_image() {
    let mut random = seeded("large_image");
    let mut ask = Ask::default();
    let total = 300 * 300;
    let record = all_chart(200, -300, 300, 300, true);
    let series = Series { scale: 50_000, factor: 2, zone: 3 };
    let twins = Twins::of(&mut random, series, &record);
    for count in [total, total - 1] {
        let index = good_index(&mut random, total, count);
        for count in [count as u64, count as u64 - 1] {
            let tiles = Tiles { index: &index, count };
            let _ = twins.same(|sheet| ask.index_check(sheet, tiles, total));
            let all = Window { top: 0, left: 0, height: 300, width: 300 };
            let _ = twins.same(|sheet| ask.window(sheet, tiles, all));
        }
    }
    ask.met("index_check", &[0, 15]);
    ask.met("window", &[0, 15]);
}
