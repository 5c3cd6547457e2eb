//! Random cards of every scale, factor and zone with any number of their leading zeros turned into
//! blanks: the same record, and the total is the number put in (02, E2). Then damaged.

use crate::{rule, support};
use fordcask::{read_card, OnCard, Record, Refusal, Series};
use support::blanks::{leading_zeros, pad, pad_all, pad_some, total, Twins, NUMBERS};
use support::damage::{blank_damage, change_some, damage};
use support::edges::greatest_scale;
use support::make::{all_chart, card, chart, overview, record, scale, town_chart, town_overview};
use support::make::{Maker, SCALES, SCALE_BANDS, ZONES};
use support::{seeded, Ask, Random, WORKED_SERIES};

const MAKERS: [Maker; 4] = [chart, town_chart, overview, town_overview];

/// Both cards of a record are read as the record, the padded one with the blanks put in.
fn ask_twins(ask: &mut Ask, random: &mut Random, series: Series) {
    let most = random.pick(&[1, 9, 99, 999]);
    let record = record(random, series, most);
    let twins = Twins::of(random, series, &record);
    let read = twins.same(|sheet| ask.read(sheet.series, sheet.card));
    let told = read.map(|told| (told.value.record, told.blanks));
    assert_eq!(told, Ok((record, twins.put)), "{series:?}");
    assert!(twins.put <= 37 && total(&twins.padded) == twins.put, "{series:?}");
}

#[test]
fn every_scale_band_and_zone() {
    let mut random = seeded("every_scale_band_and_zone");
    let mut ask = Ask::default();
    for zone in ZONES {
        for scale in SCALES {
            for _ in 0..30 {
                ask_twins(&mut ask, &mut random, Series::chart(scale, zone));
            }
        }
        for (low, high) in SCALE_BANDS {
            for _ in 0..300 {
                let scale = random.between(low, high) as u64;
                ask_twins(&mut ask, &mut random, Series::chart(scale, zone));
            }
        }
    }
    ask.met("read", &[0]);
    ask.met_totals("read", 0..=33);
}

#[test]
fn every_factor_and_zone() {
    let mut random = seeded("every_factor_and_zone");
    let mut ask = Ask::default();
    for factor in 1..=64 {
        let greatest = greatest_scale(factor);
        for zone in ZONES {
            for round in 0..20 {
                let scale = match round % 4 {
                    0 => greatest,
                    1 => random.pick(&[5_000, 9_999, 10_000]),
                    _ => scale(&mut random).min(greatest),
                };
                ask_twins(&mut ask, &mut random, Series { scale, factor, zone });
            }
        }
    }
    ask.met("read", &[0]);
    ask.met_totals("read", 0..=33);
}

/// A record of single digits only.
fn of_digits(random: &mut Random) -> Record {
    let (nul, nls) = (random.below(10) as u64, random.below(10) as u64);
    let (nll, nus) = (random.between(nul as i64, 9) as u64, random.between(nls as i64, 9) as u64);
    let (nfl, nfc) = (random.between(1, 9) as u64, random.between(1, 9) as u64);
    Record { nul, nus, nll, nls, ..all_chart(9, -3, nfl, nfc, random.once_in(2)) }
}

/// 37 is reached where A has 4 digits and all else is least, and never passed; every total is met.
#[test]
fn every_total() {
    let mut random = seeded("every_total");
    let mut ask = Ask::default();
    let mut most = [0; 3];
    for round in 0..6_000 {
        let series = match round % 3 {
            0 => Series::chart(20_000_000, random.pick(&[8, 17])),
            1 => Series { scale: 312_500, factor: 64, zone: random.pick(&ZONES) },
            _ => MAKERS[round % 4](&mut random),
        };
        let (a, b) = rule::non_polar(series).expect("a spacing");
        assert!(a >= 4_608 && b >= 20_480, "{series:?}");
        let record = of_digits(&mut random);
        let mut card = card(series, &record);
        let put =
            if random.once_in(2) { pad_all(&mut card) } else { pad_some(&mut random, &mut card) };
        let read = ask.read(series, &card).expect("a padded card");
        assert_eq!((read.value.record, read.blanks), (record, put), "{series:?}");
        most[round % 3] = read.blanks.max(most[round % 3]);
    }
    assert_eq!(most[..2], [37, 37]);
    assert!(most[2] <= 37, "{most:?}");
    // one blank more each time, from the left
    let series = Series::chart(20_000_000, 8);
    let mut bytes = card(series, &Record { nll: 0, nus: 0, ..all_chart(9, -3, 1, 1, true) });
    let plain = read_card(series, &bytes).expect("a card").value;
    let mut put = 0;
    for field in NUMBERS {
        for blanks in 1..=leading_zeros(&bytes, field) {
            pad(&mut bytes, field, blanks);
            put += 1;
            assert_eq!(ask.read(series, &bytes), Ok(OnCard { value: plain, blanks: put }));
        }
    }
    assert_eq!(put, 37);
    ask.met("read", &[0]);
    ask.met_totals("read", 0..=37);
}

/// Padded cards with one to five bytes damaged, mostly in and round their blanks.
#[test]
fn bytes_damaged() {
    let mut random = seeded("bytes_damaged");
    let mut ask = Ask::default();
    for round in 0..60_000 {
        let series = MAKERS[round % 4](&mut random);
        let record = record(&mut random, series, 20);
        let mut card = Twins::of(&mut random, series, &record).padded;
        for _ in 0..5 {
            match random.below(3) {
                0 => damage(&mut random, &mut card),
                _ => blank_damage(&mut random, &mut card),
            }
            let read = ask.read(series, &card);
            let right = read.map(|_| total(&card));
            assert_eq!(read.map(|told| told.blanks), right, "{}", card.escape_ascii());
        }
    }
    ask.met("read", &[0, 7, 8, 9, 10, 11]);
    ask.met_totals("read", 0..=24);
}

/// Padded cards with one to three subfields changed: the order of the refusals.
#[test]
fn subfields_damaged() {
    let mut random = seeded("subfields_damaged");
    let mut ask = Ask::default();
    for round in 0..120_000 {
        let series = MAKERS[round % 4](&mut random);
        let record = record(&mut random, series, 20);
        let mut card = Twins::of(&mut random, series, &record).padded;
        change_some(&mut random, &mut card);
        let _ = ask.read(series, &card);
    }
    ask.met("read", &[0, 7, 8, 9, 10, 11]);
    for number in [9, 10, 11] {
        ask.met_at("read", number, &[0]);
    }
    ask.met_totals("read", 0..=24);
}

/// Padded cards of every length to 200: 6 but for 98.
#[test]
fn lengths() {
    let mut random = seeded("lengths");
    let mut ask = Ask::default();
    let mut worked = support::WORKED.to_vec();
    pad_all(&mut worked);
    for length in 0..=200 {
        let cycled: Vec<u8> = worked.iter().copied().cycle().take(length).collect();
        let mut longer = worked.clone();
        longer.resize(length, b' ');
        for card in [cycled, longer] {
            let found = ask.read(WORKED_SERIES, &card).map(|told| told.blanks);
            let right = if length == 98 { Ok(30) } else { Err(Refusal { number: 6, at: 0 }) };
            assert_eq!(found, right, "{length}");
            let series = random.pick(&MAKERS)(&mut random);
            let _ = ask.read(Series { zone: 9, ..series }, &card);
        }
    }
    ask.met("read", &[0, 3, 6]);
    ask.met_totals("read", 30..=30);
}
