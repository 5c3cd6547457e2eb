//! Writing what was read gives the bytes back exactly where the total of blanks is 0; reading it
//! again gives the record with total 0 (02, E2). From 10,000 up; below there is 24 (02, E13).

use crate::support;
use fordcask::{read_card, write_card, OnCard, Series};
use support::blanks::{total, with_zeros, Twins};
use support::damage::{blank_damage, damage};
use support::make::{card, changes_of, chart, overview, record, town_chart, town_overview, Maker};
use support::{no_blanks, seeded, Ask, Random, RETIRED, WORKED, WORKED_SERIES};

const MAKERS: [Maker; 4] = [chart, town_chart, overview, town_overview];

/// How often the bytes came back, how often not, and how often nothing was written.
#[derive(Default, Debug)]
struct Trips {
    back: u64,
    zeros: u64,
    retired: u64,
}

/// A card read and written, by the library alone.
fn trip(trips: &mut Trips, series: Series, card: &[u8]) {
    let read = read_card(series, card).expect("an accepted card");
    let mut out = [7; 98];
    let written = write_card(series, &read.value.record, &mut out);
    if series.scale < 10_000 {
        trips.retired += 1;
        assert_eq!((written, out), (Err(RETIRED), [7; 98]), "{series:?}");
        return;
    }
    assert_eq!(written, Ok(()), "{series:?} {}", card.escape_ascii());
    match out == card {
        true => trips.back += 1,
        false => trips.zeros += 1,
    }
    assert_eq!(out == card, read.blanks == 0, "{series:?} {}", card.escape_ascii());
    let again = read_card(series, &out);
    assert_eq!(again, Ok(no_blanks(read.value)), "{series:?} {}", card.escape_ascii());
    let mut second = [7; 98];
    assert_eq!(write_card(series, &read.value.record, &mut second), Ok(()));
    assert_eq!(second, out, "writing again");
}

/// Scales round 10,000 and any other, with and without a factor.
fn some_series(random: &mut Random, round: usize) -> Series {
    let series = MAKERS[round % 4](random);
    match round % 5 {
        0 => Series { scale: random.pick(&[9_998, 9_999, 10_000, 10_001]), ..series },
        _ => series,
    }
}

#[test]
fn round_trips() {
    let mut random = seeded("round_trips");
    let mut trips = Trips::default();
    for round in 0..60_000 {
        let series = some_series(&mut random, round);
        let record = record(&mut random, series, 999);
        let twins = Twins::of(&mut random, series, &record);
        trip(&mut trips, series, &twins.plain);
        trip(&mut trips, series, &twins.padded);
    }
    println!("cases round_trips {trips:?}");
    assert!(trips.back > 25_000 && trips.zeros > 20_000, "{trips:?}");
    assert!(trips.retired > 40_000, "{trips:?}");
}

/// What the rule writes for a padded card is the card without blanks, byte by byte.
#[test]
fn zeros_for_blanks() {
    let mut random = seeded("zeros_for_blanks");
    let mut ask = Ask::default();
    for round in 0..30_000 {
        let series = some_series(&mut random, round);
        let record = record(&mut random, series, 999);
        let twins = Twins::of(&mut random, series, &record);
        let read = twins.same(|sheet| ask.read(series, sheet.card)).expect("a card");
        let out_len = 98 + random.below(8);
        ask.write_back(series, &read, &twins.padded, out_len);
        let written = ask.write(series, &read.value.record, out_len);
        let right = if series.scale < 10_000 { Err(RETIRED) } else { Ok(twins.plain) };
        assert_eq!(written, right, "{series:?}");
    }
    ask.met("read", &[0]);
    ask.met("write", &[0, 24]);
    ask.met_totals("read", 0..=28);
}

/// Damaged cards that are still accepted, with blanks put in and taken out.
#[test]
fn damaged_cards() {
    let mut random = seeded("damaged_cards");
    let mut ask = Ask::default();
    let mut trips = Trips::default();
    for round in 0..40_000 {
        let series = some_series(&mut random, round);
        let record = record(&mut random, series, 20);
        let mut card = Twins::of(&mut random, series, &record).padded;
        for _ in 0..4 {
            let before = card.clone();
            match random.below(4) {
                0 => damage(&mut random, &mut card),
                _ => blank_damage(&mut random, &mut card),
            }
            match ask.read(series, &card) {
                Ok(read) => {
                    ask.write_back(series, &read, &card, 98);
                    trip(&mut trips, series, &card);
                }
                Err(_) => card = before,
            }
        }
    }
    println!("cases damaged_cards {trips:?}");
    assert!(trips.back > 1_000 && trips.zeros > 20_000 && trips.retired > 20_000, "{trips:?}");
    ask.met("read", &[0, 7, 8, 9, 10, 11]);
    ask.met("write", &[0, 24]);
}

/// Every one-byte change of the worked card: one blank at most, and then other bytes come back.
#[test]
fn one_byte_changes() {
    let mut trips = Trips::default();
    let mut blanks = 0;
    for card in changes_of(WORKED) {
        let Ok(OnCard { blanks: told, .. }) = read_card(WORKED_SERIES, &card) else {
            continue;
        };
        assert_eq!((told, with_zeros(&card) == *WORKED), (total(&card), told == 1));
        blanks += told;
        trip(&mut trips, WORKED_SERIES, &card);
    }
    // the first byte of each of the ten numbers
    assert_eq!((blanks, trips.zeros), (10, 10), "{trips:?}");
    assert!(trips.back > 300, "{trips:?}");
}

/// A written card read at its own series, padded in each way: nothing of the blanks is kept.
#[test]
fn nothing_is_kept() {
    let mut random = seeded("nothing_is_kept");
    for round in 0..5_000 {
        let series = some_series(&mut random, round);
        if series.scale < 10_000 {
            continue;
        }
        let record = record(&mut random, series, 999);
        let plain = card(series, &record);
        for _ in 0..4 {
            let padded = Twins::of(&mut random, series, &record).padded;
            let read = read_card(series, &padded).expect("a card");
            assert_eq!((read.value.record, read.blanks), (record, total(&padded)));
            let mut out = [7; 98];
            assert_eq!(write_card(series, &read.value.record, &mut out), Ok(()));
            assert_eq!(out[..], plain, "{series:?}");
        }
    }
}
