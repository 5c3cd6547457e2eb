//! Random cards at every scale and zone: read and written by both, then damaged.

use crate::{rule, support};
use fordcask::Series;
use support::damage::{change_some, damage};
use support::make::{card, chart, overview, record, town_chart, town_overview, Maker};
use support::make::{SCALES, SCALE_BANDS, ZONES};
use support::{seeded, Ask, Random};

/// The bytes of a record read and written back, then damaged (02, E13).
fn there_and_back(ask: &mut Ask, random: &mut Random, series: Series) {
    let record = record(random, series, 999);
    let out_len = 98 + random.below(8);
    let mut card = card(series, &record);
    let read = ask.read(series, &card).expect("a good card is read");
    assert_eq!(read.value.record, record, "reading what was written");
    assert_eq!(read.blanks, 0, "no blanks in what was written");
    ask.write_back(series, &read, &card, out_len);
    for _ in 0..3 {
        damage(random, &mut card);
        if let Ok(read) = ask.read(series, &card) {
            ask.write_back(series, &read, &card, out_len);
        }
    }
}

#[test]
fn every_scale_band_and_zone() {
    let mut random = seeded("every_scale_band_and_zone");
    let mut ask = Ask::default();
    for zone in ZONES {
        for scale in SCALES {
            for _ in 0..40 {
                there_and_back(&mut ask, &mut random, Series::chart(scale, zone));
            }
        }
        for (low, high) in SCALE_BANDS {
            for _ in 0..800 {
                let scale = random.between(low, high) as u64;
                there_and_back(&mut ask, &mut random, Series::chart(scale, zone));
            }
        }
    }
    ask.met("write", &[0, 24]);
    ask.met("read", &[0, 7, 8, 9, 10, 11]);
}

/// Several subfields wrong at once: the order of the refusals. What is read is written back.
fn changed_subfields(test: &str, rounds: u32, maker: Maker, written: &[u32]) {
    let mut random = seeded(test);
    let mut ask = Ask::default();
    for _ in 0..rounds {
        let series = maker(&mut random);
        let record = record(&mut random, series, 20);
        let mut card = card(series, &record);
        change_some(&mut random, &mut card);
        if let Ok(read) = ask.read(series, &card) {
            ask.write_back(series, &read, &card, 98);
        }
    }
    ask.met("write", written);
    ask.met("read", &[0, 7, 8, 9, 10, 11]);
    ask.met_at("read", 9, &[0]);
    ask.met_at("read", 10, &[0]);
    ask.met_at("read", 11, &[0]);
}

#[test]
fn subfields() {
    changed_subfields("subfields", 300_000, chart, &[0, 24]);
}

#[test]
fn subfields_town() {
    changed_subfields("subfields_town", 100_000, town_chart, &[24]);
}

#[test]
fn subfields_overview() {
    changed_subfields("subfields_overview", 150_000, overview, &[0, 24]);
}

#[test]
fn subfields_town_overview() {
    changed_subfields("subfields_town_overview", 50_000, town_overview, &[24]);
}

/// Longitudes in card form; latitudes are these without the first digit.
const ANGLES: [&[u8]; 13] = [
    b"+0000000.00",
    b"-0000000.00",
    b"+1800000.00",
    b"-1800000.00",
    b"+1800000.01",
    b"-1800000.01",
    b"+0006000.00",
    b"+0000060.00",
    b"+0005959.99",
    b"+9995959.99",
    b"+1795959.99",
    b"+0900000.00",
    b"-0900000.00",
];

/// The angles of every kind: ends, minutes and seconds of 60, minus zero, off the grid by one.
#[test]
fn angles() {
    let mut random = seeded("angles");
    let mut ask = Ask::default();
    for zone in ZONES {
        for scale in SCALES {
            let series = Series::chart(scale, zone);
            let record = record(&mut random, series, 3);
            let good = card(series, &record);
            for text in ANGLES {
                let mut card = good.clone();
                card[17..28].copy_from_slice(text);
                let _ = ask.read(series, &card);
                let mut card = good.clone();
                card[28] = text[0];
                card[29..38].copy_from_slice(&text[2..]);
                let _ = ask.read(series, &card);
            }
            for (at, end) in [(28, 38), (17, 28)] {
                let mut card = good.clone();
                card[end - 1] = random.pick(b"0123456789");
                let _ = ask.read(series, &card);
                card[at] = random.pick(b"+-");
                let _ = ask.read(series, &card);
            }
        }
    }
    ask.met("read", &[0, 8, 10, 11]);
    ask.met_at("read", 8, &[17, 28]);
}

/// The origin by a search over every n, for the rule's own sake.
#[test]
fn stored_angles() {
    let mut random = seeded("stored_angles");
    let many = [900_000, 1_000_000, 3_060_000, 20_000_000].map(|scale| (scale, 8, 40));
    let town = [5_000, 9_999].map(|scale| (scale, 2, 3));
    for (scale, zones, rounds) in many.into_iter().chain(town) {
        for zone in &ZONES[..zones] {
            let (a, b) = rule::non_polar(Series::chart(scale, *zone)).expect("a spacing");
            for (spacing, reach) in [(b, b / 512), (a, a / 256)] {
                for _ in 0..rounds {
                    let near = rule::stored_angle(random.between(-9, 9).into(), spacing);
                    let angle = near + i128::from(random.between(-2, 2));
                    let all = (-reach..=reach).filter(|k| rule::stored_angle(*k, spacing) == angle);
                    let all: Vec<i128> = all.collect();
                    let found: Vec<i128> =
                        rule::origin_storing(angle, spacing).into_iter().collect();
                    assert_eq!(found, all, "angle {angle} at spacing {spacing}");
                }
            }
        }
    }
}
