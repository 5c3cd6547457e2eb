//! Cards at the town scales open and keep their answers; round trips from 10,000 up (02, E13).

use crate::support;
use fordcask::{read_card, write_card, Refusal, Series};
use support::angles::{any_latitude, cover_ends};
use support::make::{card, record, scale, town_scale, SCALES, ZONES};
use support::{seeded, Ask, RETIRED};

/// The makers meet the town scales and their ends often.
#[test]
fn makers() {
    let mut random = seeded("makers");
    let drawn: Vec<u64> = (0..20_000).map(|_| scale(&mut random)).collect();
    let times = |scale: u64| drawn.iter().filter(|drawn| **drawn == scale).count();
    let town = drawn.iter().filter(|scale| (5_000..=9_999).contains(*scale)).count();
    assert!(town > 2_500, "{town} town scales of {}", drawn.len());
    for end in [5_000, 9_999, 10_000] {
        assert!(times(end) > 150, "{} times {end}", times(end));
    }
    let mut town: Vec<u64> = (0..200_000).map(|_| town_scale(&mut random)).collect();
    town.sort_unstable();
    town.dedup();
    assert_eq!(town, Vec::from_iter(5_000..=9_999), "every town scale is drawn");
}

/// Spacing, cover and rectangles at every town scale.
#[test]
fn zone_questions() {
    let mut random = seeded("zone_questions");
    let mut ask = Ask::default();
    let mut two = 0;
    for scale in 5_000..=9_999 {
        for zone in 0..=19 {
            let _ = ask.spacing(Series::chart(scale, zone));
        }
        let ends = cover_ends(scale);
        for _ in 0..10 {
            let (end, any) = (random.pick(&ends), any_latitude(&mut random));
            let _ = ask.cover(scale, 1, any);
            let zones = ask.cover(scale, 1, end).unwrap_or_default();
            two += u64::from(zones.len() == 2);
            let _ = ask.rectangle(scale, 1, end, any);
            let _ = ask.rectangle(scale, 1, any, end);
            let _ = ask.rectangle(scale, 1, end, end + 1);
            let _ = ask.rectangle(scale, 1, end - 1, end);
            let _ = ask.rectangle(scale, 1, end, end);
        }
    }
    assert!(two > 5_000, "{two} latitudes that two zones cover");
    ask.met("spacing", &[0, 2]);
    ask.met("cover", &[0, 4]);
    ask.met("rectangle", &[0, 4, 16]);
}

/// Cards of every town scale and zone open; writing them refuses, and other scales give 9 or 1.
#[test]
fn cards_open() {
    let mut random = seeded("cards_open");
    let mut ask = Ask::default();
    for scale in 5_000..=9_999 {
        for zone in ZONES {
            let series = Series::chart(scale, zone);
            let record = record(&mut random, series, 999);
            let card = card(series, &record);
            let read = ask.read(series, &card).expect("a card that opens");
            assert_eq!((read.value.record, read.blanks), (record, 0), "1:{scale} zone {zone}");
            ask.write_back(series, &read, &card, 98);
            for other in [scale - 1, scale + 1, random.pick(&SCALES)] {
                if other == scale {
                    continue;
                }
                let number = if other < 5_000 { 1 } else { 9 };
                let refused = Err(Refusal { number, at: 0 });
                assert_eq!(
                    ask.read(Series::chart(other, zone), &card),
                    refused,
                    "1:{other} for 1:{scale}"
                );
            }
            for (polar, number) in [(9, 3), (18, 3), (0, 2), (19, 2)] {
                let refused = Err(Refusal { number, at: 0 });
                assert_eq!(
                    ask.read(Series::chart(scale, polar), &card),
                    refused,
                    "1:{scale} zone {polar}"
                );
            }
            assert_eq!(ask.read(series, &card[..97]).map_err(|r| r.number), Err(6));
        }
    }
    ask.met("read", &[0, 1, 2, 3, 6, 9]);
    ask.met("write", &[24]);
}

/// Both round trips of the library alone: there from 10,000 up, and not below.
#[test]
fn round_trips() {
    let mut random = seeded("round_trips");
    let (mut trips, mut none) = (0, 0);
    let near = 9_000..=12_000;
    let drawn: Vec<u64> = (0..60_000).map(|_| scale(&mut random)).collect();
    for scale in near.chain(SCALES).chain(drawn) {
        for _ in 0..4 {
            let zone = random.pick(&ZONES);
            let series = Series::chart(scale, zone);
            let record = record(&mut random, series, 999);
            let mut first = [7; 98];
            let written = write_card(series, &record, &mut first);
            if scale < 10_000 {
                none += 1;
                assert_eq!((written, first), (Err(RETIRED), [7; 98]), "1:{scale}");
                continue;
            }
            trips += 1;
            assert_eq!(written, Ok(()), "1:{scale} zone {zone} {record:?}");
            let read = read_card(series, &first).expect("a written card is read");
            assert_eq!((read.value.record, read.blanks), (record, 0), "reading what was written");
            let mut second = [7; 98];
            assert_eq!(write_card(series, &read.value.record, &mut second), Ok(()));
            assert_eq!(second, first, "writing what was read");
        }
    }
    println!("cases round_trips {trips} {none}");
    assert!(trips > 150_000 && none > 30_000, "{trips} trips, {none} refused");
}
