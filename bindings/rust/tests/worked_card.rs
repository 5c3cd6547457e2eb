//! The worked card of document 01: every one-byte change and every length.

use crate::support;
use fordcask::Series;
use support::make::{all_chart, card, changes, changes_of};
use support::{seeded, Ask, WORKED, WORKED_SERIES};

/// The subfields that can be refused with 7, and with 8.
const SEVENS: [u64; 19] = [0, 1, 9, 17, 28, 38, 44, 50, 56, 62, 65, 68, 74, 80, 81, 82, 83, 84, 85];
const EIGHTS: [u64; 13] = [0, 17, 28, 62, 65, 68, 74, 80, 81, 82, 83, 84, 97];

#[test]
fn one_byte_changes_read() {
    let mut ask = Ask::default();
    let mut cards = 0;
    for card in changes() {
        cards += 1;
        if let Ok(read) = ask.read(WORKED_SERIES, &card) {
            ask.write_back(WORKED_SERIES, &read, &card, 98);
        }
    }
    assert_eq!(cards, 24_990);
    ask.met("write", &[0]);
    ask.met("read", &[0, 7, 8, 9, 10, 11]);
    ask.met_at("read", 7, &SEVENS);
    ask.met_at("read", 8, &EIGHTS);
    // a blank in the first byte of a number, and none more (02, E2)
    ask.met_totals("read", 0..=1);
    ask.met("read_strict", &[0, 7, 8, 9, 10, 11]);
    ask.met_at("read_strict", 7, &SEVENS);
    ask.met_at("read_strict", 8, &EIGHTS);
}

/// Every one-byte change of a card at each end of the town scales, and just above (02, E13).
#[test]
fn one_byte_changes_town() {
    for (scale, zone, written) in [(5_000, 1, 24), (9_999, 17, 24), (10_000, 1, 0)] {
        let mut ask = Ask::default();
        let series = Series::chart(scale, zone);
        let good = card(series, &all_chart(100, -20, 2, 1, false));
        for card in changes_of(&good) {
            if let Ok(read) = ask.read(series, &card) {
                ask.write_back(series, &read, &card, 99);
            }
        }
        ask.met("write", &[written]);
        ask.met("read", &[0, 7, 8, 9, 10, 11]);
        ask.met_at("read", 7, &SEVENS);
        ask.met_at("read", 8, &EIGHTS);
    }
}

/// Scale and zone come first, then the length, then the bytes.
#[test]
fn one_byte_changes_elsewhere() {
    let mut random = seeded("one_byte_changes_elsewhere");
    let mut ask = Ask::default();
    let scales = [0, 4_999, 5_000, 1_000_000, 999_999, 20_000_001, u64::MAX];
    let zones = [0, 1, 2, 9, 10, 18, 19, u64::MAX];
    for mut card in changes() {
        if random.once_in(8) {
            card.truncate(random.below(98));
        }
        let series = Series::chart(random.pick(&scales), random.pick(&zones));
        let _ = ask.read(series, &card);
        let zone = random.pick(&[1, 9, 10, 19]);
        let _ = ask.read(Series { zone, ..WORKED_SERIES }, &card);
    }
    ask.met("read", &[0, 1, 2, 3, 6, 7, 8, 9, 10, 11]);
}

#[test]
fn every_length() {
    let mut random = seeded("every_length");
    let mut ask = Ask::default();
    for length in 0..=200 {
        let repeated: Vec<u8> = WORKED.iter().copied().cycle().take(length).collect();
        let shifted: Vec<u8> = repeated.iter().rev().copied().collect();
        // never a digit, so 7 at 0
        let noise: Vec<u8> = (0..length).map(|_| random.byte() | 0x80).collect();
        for card in [repeated, shifted, noise] {
            let _ = ask.read(WORKED_SERIES, &card);
            let _ = ask.read(Series { zone: 9, ..WORKED_SERIES }, &card);
        }
    }
    ask.met("read", &[0, 3, 6, 7]);
    ask.met_at("read", 7, &[0]);
}
