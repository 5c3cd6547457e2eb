//! Each number subfield with blanks in every place, and blanks in the other subfields (02, E2).

use crate::support;
use fordcask::{OnCard, Refusal, Series, Sheet};
use support::blanks::{leading_zeros, no_blanks, pad, BLANK, NUMBERS};
use support::make::{all_chart, card, record};
use support::{seeded, Ask, WORKED, WORKED_SERIES};

/// The worked card, and cards of other scales, factors and zones.
fn cards() -> Vec<(Series, Vec<u8>)> {
    let mut random = seeded("cards");
    let mut cards = vec![(WORKED_SERIES, WORKED.to_vec())];
    let stated = [(5_000, 1, 1), (9_999, 64, 5), (250_000, 1, 13), (312_500, 64, 17)];
    for (scale, factor, zone) in stated {
        let series = Series { scale, factor, zone };
        cards.push((series, card(series, &all_chart(9, -3, 2, 1, false))));
        // the last digits of NFL and NFC are 0
        cards.push((series, card(series, &all_chart(30, -3, 20, 10, true))));
        for _ in 0..2 {
            cards.push((series, card(series, &record(&mut random, series, 999))));
        }
    }
    cards
}

/// Blanks over the first bytes of each number, from one to all: those that are zeros keep the
/// record, all are 7, and between the two the digits left give the value.
#[test]
fn leading() {
    let mut ask = Ask::default();
    let mut kept = [0; 10];
    for (series, good) in cards() {
        let right = ask.read(series, &good).expect("a good card");
        for (i, field) in NUMBERS.into_iter().enumerate() {
            let (at, width) = field;
            let zeros = leading_zeros(&good, field);
            for blanks in 1..=width {
                let mut card = good.clone();
                pad(&mut card, field, blanks);
                let found = ask.read(series, &card);
                let told = found.map(|read| read.blanks);
                match at {
                    _ if blanks == width => assert_eq!(found, refused(7, at)),
                    _ if blanks <= zeros => {
                        kept[i] += 1;
                        assert_eq!(found, Ok(OnCard { value: right.value, blanks: blanks as u64 }));
                    }
                    1 | 9 => assert_eq!(found, refused(9, 0)),
                    68 | 74 => assert_eq!(found, refused(8, at)),
                    // fewer tiles, or another edge
                    _ => assert!(told == Ok(blanks as u64) || told.is_err(), "{at} {found:?}"),
                }
            }
        }
    }
    assert!(kept.iter().all(|times| *times >= 8), "{kept:?} kept in each subfield");
    ask.met("read", &[0, 7, 8, 9, 11]);
    ask.met_at("read", 7, &NUMBERS.map(|(at, _)| at as u64));
    ask.met_at("read", 8, &[62, 65, 68, 74]);
    ask.met_totals("read", 0..=5);
}

fn refused<T>(number: u32, at: usize) -> Result<T, Refusal> {
    Err(Refusal { number, at: at as u64 })
}

/// A blank alone in each place of the subfields that do not take one: 7, and 8 in TIF.
#[test]
fn other_subfields() {
    let mut ask = Ask::default();
    let numbers: Vec<usize> = NUMBERS.iter().flat_map(|(at, width)| *at..at + width).collect();
    let places: Vec<usize> = (0..98).filter(|at| !numbers.contains(at)).collect();
    // STR, both angles, five of one digit, BAD and TIF
    assert_eq!(places.len(), 1 + 11 + 10 + 5 + 12 + 1);
    for (series, good) in cards() {
        for place in &places {
            let mut card = good.clone();
            card[*place] = BLANK;
            let right = match place {
                17..=27 => refused(7, 17),
                28..=37 => refused(7, 28),
                85..=96 => refused(7, 85),
                97 => refused(8, 97),
                _ => refused(7, *place),
            };
            assert_eq!(ask.read(series, &card), right, "{series:?} {place}");
            support::blanks::pad_all(&mut card);
            assert_eq!(ask.read(series, &card), right, "{series:?} {place}, padded");
        }
    }
    ask.met("read", &[7, 8]);
    ask.met_at("read", 7, &[0, 17, 28, 80, 81, 82, 83, 84, 85]);
    ask.met_at("read", 8, &[97]);
}

/// Every set of places of a number turned into blanks: 7 unless they lead it and leave a digit.
#[test]
fn every_set_of_places() {
    let mut ask = Ask::default();
    let (mut leading, mut others) = (0, 0);
    for (series, good) in cards() {
        for (at, width) in NUMBERS {
            for set in 0..1u32 << width {
                let mut card = good.clone();
                for place in (0..width).filter(|place| set >> place & 1 == 1) {
                    card[at + place] = BLANK;
                }
                let found = ask.read(series, &card);
                let count = set.trailing_ones() as usize;
                if count < width && set >> count == 0 {
                    leading += 1;
                    assert_ne!(found.err(), Some(Refusal { number: 7, at: at as u64 }));
                } else {
                    others += 1;
                    assert_eq!(found, refused(7, at), "{}", card.escape_ascii());
                }
            }
        }
    }
    assert_eq!((leading, others), (17 * 58, 17 * (2 * 256 + 6 * 64 + 2 * 8 - 58)));
    ask.met("read", &[0, 7, 8, 9, 11]);
}

/// Each two numbers of the worked card with each count of blanks: the total is that of both.
#[test]
fn two_subfields() {
    let mut ask = Ask::default();
    let plain = ask.read(WORKED_SERIES, WORKED).expect("the worked card").value;
    for first in NUMBERS {
        for second in NUMBERS.into_iter().filter(|second| second.0 > first.0) {
            for one in 0..=leading_zeros(WORKED, first) {
                for two in 0..=leading_zeros(WORKED, second) {
                    let mut card = *WORKED;
                    pad(&mut card, first, one);
                    pad(&mut card, second, two);
                    let right = OnCard { value: plain, blanks: (one + two) as u64 };
                    assert_eq!(ask.read(WORKED_SERIES, &card), Ok(right));
                    let sheet = Sheet { series: WORKED_SERIES, card: &card };
                    assert_eq!(sheet.read(), Ok(right));
                }
            }
        }
    }
    assert_eq!(ask.read(WORKED_SERIES, WORKED), Ok(no_blanks(plain)));
    ask.met("read", &[0]);
    ask.met_totals("read", 0..=10);
}
