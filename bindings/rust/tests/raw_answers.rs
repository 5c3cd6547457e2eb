//! The C answers field by field: value parts are 0 in a refusal, the total of blanks too (02, E2),
//! and unused slots are 0.

use crate::{rule, support};
use fordcask::{raw, Card, OnCard, Refusal, Series};
use support::blanks::pad_all;
use support::make::{all_chart, card, changes_of, scale, town_scale};
use support::{no_blanks, seeded, WORKED};

/// The answer of a refusal: everything but number and place is 0.
fn refused_card(number: u32, at: u64) -> raw::Card {
    raw::Card {
        number,
        at,
        a: 0,
        b: 0,
        n: 0,
        m: 0,
        nul: 0,
        nus: 0,
        nll: 0,
        nls: 0,
        nfl: 0,
        nfc: 0,
        bad: [0; 12],
        tif: 0,
        blanks: 0,
    }
}

#[test]
fn refused_values() {
    let spacing = raw::fordcask_spacing(Series::chart(4_999, 1));
    assert_eq!(spacing, raw::Spacing { number: 1, at: 0, a: 0, b: 0 });
    let zone = raw::fordcask_basic_zone(i64::MIN);
    assert_eq!(zone, raw::Zone { number: 4, at: 0, zone: 0 });
    let cover = raw::fordcask_cover(1_000_000, 1, i64::MAX);
    assert_eq!(cover, raw::Cover { number: 4, at: 0, length: 0, zones: [0; 6] });
    let none = raw::Rectangle { number: 16, at: 0, length: 0, zones: [0; 18] };
    assert_eq!(raw::fordcask_rectangle(1_000_000, 1, 1, 0), none);
    assert_eq!(raw::fordcask_rectangle(1_000_000, 1, 0, 0), none);
    let origin = raw::fordcask_align(Series::chart(1_000_000, 9), 0, 0);
    assert_eq!(origin, raw::Origin { number: 3, at: 0, n: 0, m: 0, pso: 0, lso: 0 });
    for (scale, zone) in [(5_000, 1), (9_999, 9), (9_999, 18), (9_999, 19)] {
        let origin = raw::fordcask_align(Series::chart(scale, zone), 41_432, -8_975);
        assert_eq!(origin, raw::Origin { number: 24, at: 0, n: 0, m: 0, pso: 0, lso: 0 });
    }
    let offset = raw::fordcask_offset(0, 64_800_001, 0, 0);
    assert_eq!((offset.number, offset.at), (5, 0));
    assert_eq!((offset.lat.to_bits(), offset.lon.to_bits()), (0, 0));
}

/// Reads through the C entry point.
fn read(series: Series, card: &[u8]) -> raw::Card {
    // SAFETY: the pointer and length are those of one slice.
    unsafe { raw::fordcask_read_card(series, card.as_ptr(), card.len()) }
}

/// Reads as 01 has it through the C entry point.
fn read_strict(series: Series, card: &[u8]) -> raw::Card {
    // SAFETY: the pointer and length are those of one slice.
    unsafe { raw::fordcask_read_strict(series, card.as_ptr(), card.len()) }
}

/// The worked card, and the card of its record at the ends of the town scales (02, E13).
fn cards() -> Vec<(u64, Vec<u8>)> {
    let mut cards = vec![(1_000_000, WORKED.to_vec())];
    for scale in [5_000, 9_999, 10_000] {
        cards.push((scale, card(Series::chart(scale, 1), &all_chart(100, -20, 2, 1, false))));
    }
    cards
}

/// A card that is read or refused, field by field.
fn read_as(answer: Result<OnCard<Card>, Refusal>) -> raw::Card {
    let read = match answer {
        Ok(read) => read,
        Err(refusal) => return refused_card(refusal.number, refusal.at),
    };
    let (spacing, record) = (read.value.spacing, read.value.record);
    raw::Card {
        number: 0,
        at: 0,
        a: spacing.a,
        b: spacing.b,
        n: record.n,
        m: record.m,
        nul: record.nul,
        nus: record.nus,
        nll: record.nll,
        nls: record.nls,
        nfl: record.nfl,
        nfc: record.nfc,
        bad: record.bad,
        tif: u8::from(record.tif),
        blanks: read.blanks,
    }
}

/// Each one-byte change that is refused has zeros, and TIF is 0 or 1; read as 01 has it the total
/// of blanks is 0 in each answer. The good card goes as it stands and with all its blanks (02, E2).
#[test]
fn refused_cards() {
    for (scale, good) in cards() {
        let series = Series::chart(scale, 1);
        let mut padded = good.clone();
        let put = pad_all(&mut padded);
        for (good, blanks) in [(good, 0), (padded, put)] {
            let (mut refused, mut told) = ([0, 0], 0);
            for card in changes_of(&good) {
                let (found, right) = (read(series, &card), rule::read(series, &card));
                assert_eq!(found, read_as(right), "1:{scale}");
                refused[0] += u64::from(found.number > 0);
                told = told.max(found.blanks);
                let (found, right) = (read_strict(series, &card), rule::read_strict(series, &card));
                assert_eq!(found, read_as(right.map(no_blanks)), "1:{scale}");
                refused[1] += u64::from(found.number > 0);
            }
            assert!(refused[0] > 20_000 && refused[1] > 20_000, "{refused:?} at 1:{scale}");
            assert_eq!(refused[1] == 24_990, blanks > 1, "none read as 01 has it at 1:{scale}");
            assert!(told >= blanks && told > 0, "{told} told of {blanks} at 1:{scale}");
        }
    }
}

/// Any TIF but 0 is written as Y; none is at the town scales (02, E13).
#[test]
fn tif_of_a_record() {
    for (scale, good) in cards() {
        let series = Series::chart(scale, 1);
        let card = read(series, &good);
        for tif in 0..=255 {
            let record = raw::Record {
                n: card.n,
                m: card.m,
                nul: card.nul,
                nus: card.nus,
                nll: card.nll,
                nls: card.nls,
                nfl: card.nfl,
                nfc: card.nfc,
                bad: card.bad,
                tif,
            };
            let mut out = [7; 98];
            let lent = out.as_mut_ptr();
            // SAFETY: the pointer and length are those of one array.
            let given = unsafe { raw::fordcask_write_card(series, record, lent, 98) };
            if scale < 10_000 {
                assert_eq!((given, out), (raw::Refusal { number: 24, at: 0 }, [7; 98]));
                continue;
            }
            assert_eq!(given, raw::Refusal { number: 0, at: 0 });
            assert_eq!(out[97], if tif == 0 { b'N' } else { b'Y' });
            assert_eq!(out[..97], good[..97]);
        }
    }
}

/// The slots past the length are 0.
#[test]
fn unused_slots() {
    let mut random = seeded("unused_slots");
    for round in 0..25_000 {
        let scale = if round < 20_000 { scale(&mut random) } else { town_scale(&mut random) };
        let south = random.between(-32_400_000, 32_399_999);
        let north = random.between(south + 1, 32_400_000);
        let cover = raw::fordcask_cover(scale, 1, south);
        let mut slots = rule::cover(scale, 1, south).expect("a cover");
        assert_eq!(cover.length, slots.len() as u64);
        slots.resize(6, 0);
        assert_eq!(cover.zones[..], slots, "cover({scale}, {south})");
        let rectangle = raw::fordcask_rectangle(scale, 1, south, north);
        let mut slots = rule::rectangle(scale, 1, south, north).expect("a rectangle");
        assert_eq!(rectangle.length, slots.len() as u64);
        slots.resize(18, 0);
        assert_eq!(rectangle.zones[..], slots, "rectangle({scale}, {south}, {north})");
    }
}
