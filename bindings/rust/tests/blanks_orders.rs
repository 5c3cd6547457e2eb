//! The order of the refusals with blanks about: what is stated, the length, subfields left to right
//! with 7 before 8 in each, then 9, 10, 11 (01, "Numbers given in refusal"; 02, E2).

use crate::support;
use fordcask::{Refusal, Series};
use support::blank_faults::{refusal, some_faults, with_faults, FAULTS, STATED};
use support::blanks::pad_all;
use support::{seeded, Ask, WORKED, WORKED_SERIES};

/// All places of 7, and of 8.
const SEVENS: [u64; 19] = [0, 1, 9, 17, 28, 38, 44, 50, 56, 62, 65, 68, 74, 80, 81, 82, 83, 84, 85];
const EIGHTS: [u64; 13] = [0, 17, 28, 62, 65, 68, 74, 80, 81, 82, 83, 84, 97];

/// The faults alone, in cards with blanks and without: each gives its own number and place.
#[test]
fn single_faults() {
    let mut random = seeded("single_faults");
    let mut ask = Ask::default();
    for fault in FAULTS {
        for _ in 0..40 {
            let card = with_faults(&mut random, &[fault]);
            let found = ask.read(WORKED_SERIES, &card);
            assert_eq!(found, Err(refusal(fault)), "{}", card.escape_ascii());
        }
    }
    ask.met("read", &[7, 8, 9, 10, 11]);
    ask.met_at("read", 7, &SEVENS);
    ask.met_at("read", 8, &EIGHTS);
}

/// Each two faults of two subfields: the first in order is given.
#[test]
fn two_faults() {
    let mut random = seeded("two_faults");
    let mut ask = Ask::default();
    let (mut pairs, mut eight_before_seven) = (0, 0);
    for (i, first) in FAULTS.into_iter().enumerate() {
        for second in FAULTS.into_iter().skip(i + 1).filter(|second| second.2 != first.2) {
            pairs += 1;
            eight_before_seven += u64::from((first.0, second.0) == (8, 7));
            for _ in 0..8 {
                let card = with_faults(&mut random, &[first, second]);
                let found = ask.read(WORKED_SERIES, &card);
                assert_eq!(found, Err(refusal(first)), "{}", card.escape_ascii());
            }
        }
    }
    assert!(pairs > 1_800 && eight_before_seven > 150, "{pairs} and {eight_before_seven}");
    ask.met("read", &[7, 8, 9, 10, 11]);
}

/// Many faults, with what is stated and the length good or refused.
#[test]
fn many_faults() {
    let mut random = seeded("many_faults");
    let mut ask = Ask::default();
    for _ in 0..60_000 {
        let faults = some_faults(&mut random);
        let mut card = with_faults(&mut random, &faults);
        let mut right = faults.first().map(|fault| refusal(*fault));
        if random.once_in(8) {
            card.resize(random.pick(&[0, 1, 97, 99, 196]), b' ');
            right = Some(Refusal { number: 6, at: 0 });
        }
        let mut series = WORKED_SERIES;
        if random.once_in(8) {
            let (stated, number) = random.pick(&STATED);
            (series, right) = (stated, Some(Refusal { number, at: 0 }));
        }
        let found = ask.read(series, &card).err();
        assert_eq!(found, right, "{series:?} {}", card.escape_ascii());
    }
    ask.met("read", &[0, 1, 2, 3, 6, 7, 8, 9, 10, 11, 17]);
    ask.met_at("read", 7, &SEVENS);
    ask.met_at("read", 8, &EIGHTS);
    ask.met_totals("read", 10..=20);
}

/// Texts of NFL and NFC, and of PNC and PNL, of the wrong kind; their digits are a wrong value too.
const TILES: [&[u8]; 8] = [b" 0 ", b"0  ", b" 0x", b"\t 0", b"0 0", b" x0", b"00 ", b"  \t"];
const SIDES: [&[u8]; 8] =
    [b"   12 ", b"  1 27", b"999 99", b" 0 000", b"     x", b"     \t", b" \x00 129", b"0    0"];

/// In one subfield a byte of the wrong kind comes before the wrong value, whatever blanks lead.
#[test]
fn kind_before_value() {
    let mut ask = Ask::default();
    for (at, texts) in [(62, TILES), (65, TILES), (68, SIDES), (74, SIDES)] {
        for text in texts {
            let mut card = *WORKED;
            card[at..at + text.len()].copy_from_slice(text);
            let right = Err(Refusal { number: 7, at: at as u64 });
            assert_eq!(ask.read(WORKED_SERIES, &card), right, "{}", text.escape_ascii());
            pad_before(&mut card, at);
            assert_eq!(ask.read(WORKED_SERIES, &card), right, "{}", card.escape_ascii());
        }
    }
    ask.met("read", &[7]);
    ask.met_at("read", 7, &[62, 65, 68, 74]);
}

/// Blanks in every number that stands before an offset.
fn pad_before(card: &mut [u8], at: usize) {
    let mut padded = card.to_vec();
    pad_all(&mut padded);
    card[..at].copy_from_slice(&padded[..at]);
}

/// What is stated comes first, then the length, on cards of blanks alone.
#[test]
fn before_the_bytes() {
    let mut ask = Ask::default();
    for length in 0..=200 {
        let blanks = vec![b' '; length];
        for (series, number) in STATED {
            let right = Err(Refusal { number, at: 0 });
            assert_eq!(ask.read(series, &blanks), right, "{length}");
        }
        let number = if length == 98 { 7 } else { 6 };
        for series in [WORKED_SERIES, Series::chart(5_000, 17), Series::chart(20_000_000, 8)] {
            assert_eq!(ask.read(series, &blanks), Err(Refusal { number, at: 0 }), "{length}");
        }
    }
    ask.met("read", &[1, 2, 3, 6, 7, 17]);
    ask.met_at("read", 7, &[0]);
}
