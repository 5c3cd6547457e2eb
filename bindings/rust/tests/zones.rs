//! Spacing, basic zone and cover, compared with the rule; the rows of the zone table.

use crate::support;
use fordcask::{Refusal, Series};
use support::angles::{any_latitude, cover_ends, latitudes};
use support::make::{around, scale, BAD_SCALES, BAD_ZONES, SCALES};
use support::{seeded, Ask};

const DEGREE: i64 = 360_000;
const POLE: i64 = 90 * DEGREE;

/// The northern zone, the southern zone, from degree, to degree (02, E5; 01's table).
const ROWS: [(u64, u64, i64, i64); 9] = [
    (1, 10, 0, 32),
    (2, 11, 32, 48),
    (3, 12, 48, 56),
    (4, 13, 56, 64),
    (5, 14, 64, 68),
    (6, 15, 68, 72),
    (7, 16, 72, 76),
    (8, 17, 76, 80),
    (9, 18, 80, 90),
];

#[test]
fn spacing() {
    let mut random = seeded("spacing");
    let mut ask = Ask::default();
    for zone in (1..=18).chain(BAD_ZONES) {
        for scale in SCALES.into_iter().chain(BAD_SCALES) {
            let _ = ask.spacing(Series::chart(scale, zone));
        }
    }
    for scale in (4_990..=20_000).chain(19_999_000..=20_000_010) {
        for zone in 1..=18 {
            let _ = ask.spacing(Series::chart(scale, zone));
        }
    }
    for _ in 0..200_000 {
        let series = Series::chart(scale(&mut random), random.between(0, 19) as u64);
        let _ = ask.spacing(series);
    }
    ask.met("spacing", &[0, 1, 2]);
}

#[test]
fn basic_zone() {
    let mut random = seeded("basic_zone");
    let mut ask = Ask::default();
    for lat in latitudes() {
        let _ = ask.basic_zone(lat);
    }
    for _ in 0..200_000 {
        let _ = ask.basic_zone(any_latitude(&mut random));
    }
    ask.met("basic_zone", &[0, 4]);
}

/// Each limit, north and south, and each whole degree, with neighbours in range (02, E5).
fn row_latitudes() -> Vec<i64> {
    let mut all: Vec<i64> = (-90..=90).map(|degree| degree * DEGREE).collect();
    for (_, _, from, to) in ROWS {
        for limit in [from * DEGREE, to * DEGREE] {
            all.extend([limit, -limit]);
        }
    }
    let mut all = around(&all);
    all.retain(|lat| (-POLE..=POLE).contains(lat));
    all
}

/// One row holds the size, the zone is that row's, the southern one exactly below 0 (02, E5).
fn in_its_row(lat: i64) -> u64 {
    let size = lat.abs();
    let mut holding = Vec::new();
    for (north, south, from, to) in ROWS {
        let pole = to == 90 && size == POLE;
        if (from * DEGREE <= size && size < to * DEGREE) || pole {
            holding.push((north, south));
        }
    }
    assert_eq!(holding.len(), 1, "rows holding {lat}: {holding:?}");
    let (north, south) = holding[0];
    let zone = fordcask::basic_zone(lat).expect("a latitude in range");
    assert!(zone == north || zone == south, "zone {zone} of {lat}, row {north}, {south}");
    assert_eq!(zone == south, lat < 0, "zone {zone} of {lat}, southern exactly below 0");
    zone
}

/// What E5 asks to be proved, on the library's answers (02, E5).
#[test]
fn zone_rows() {
    let mut random = seeded("zone_rows");
    let mut asked = row_latitudes();
    for lat in [POLE, POLE - 1, 1, 0, -1, 1 - POLE, -POLE] {
        assert!(asked.contains(&lat), "{lat} is asked");
    }
    asked.extend((0..200_000).map(|_| random.between(-POLE, POLE)));
    let mut zones: Vec<u64> = asked.iter().map(|lat| in_its_row(*lat)).collect();
    zones.sort_unstable();
    zones.dedup();
    assert_eq!(zones, Vec::from_iter(1..=18), "every zone is met");
    println!("cases zone_rows {}", asked.len());
    for lat in [POLE + 1, -POLE - 1, i64::MIN, i64::MAX] {
        let refused = Err(Refusal { number: 4, at: 0 });
        assert_eq!(fordcask::basic_zone(lat), refused, "latitude {lat}");
    }
}

#[test]
fn cover() {
    let mut random = seeded("cover");
    let mut ask = Ask::default();
    let mut longest = 0;
    for scale in SCALES.into_iter().chain(BAD_SCALES) {
        for lat in latitudes() {
            longest = longest.max(ask.cover(scale, 1, lat).map_or(0, |zones| zones.len()));
        }
    }
    for scale in SCALES {
        for lat in cover_ends(scale) {
            let _ = ask.cover(scale, 1, lat);
        }
    }
    for _ in 0..60_000 {
        let scale = scale(&mut random);
        let _ = ask.cover(scale, 1, any_latitude(&mut random));
        let end = random.pick(&cover_ends(scale));
        let _ = ask.cover(scale, 1, end);
    }
    assert_eq!(longest, 6, "the longest cover list");
    ask.met("cover", &[0, 1, 4]);
}
