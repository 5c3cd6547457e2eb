//! Cards of factors other than 1: read, written, both round trips, and 9 where the factor stated
//! is another one (02, E4).

use crate::{rule, support};
use fordcask::{read_card, write_card, Refusal, Series};
use support::edges::greatest_scale;
use support::make::{all_chart, card, changes_of, overview, record, scale, town_overview};
use support::make::{BAD_FACTORS, ZONES};
use support::{seeded, Ask, Random, RETIRED};

/// A scale that a factor allows, its greatest or one of every band.
fn scale_of(random: &mut Random, factor: u64) -> u64 {
    let greatest = greatest_scale(factor);
    match random.below(4) {
        0 => greatest,
        1 => random.between(10_000, greatest as i64) as u64,
        _ => scale(random).min(greatest),
    }
}

/// The makers meet every factor, the town scales, and products at their end.
#[test]
fn makers() {
    let mut random = seeded("makers");
    let drawn: Vec<Series> = (0..60_000).map(|_| overview(&mut random)).collect();
    let times = |is: fn(&Series) -> bool| drawn.iter().filter(|series| is(series)).count();
    for factor in 2..=64 {
        let met = drawn.iter().filter(|series| series.factor == factor).count();
        assert!(met > 200, "factor {factor}: {met} times");
    }
    assert!(times(|s| s.factor == 64) > 8_000, "the end of the factors");
    assert!(times(|s| s.scale < 10_000) > 10_000, "town scales");
    assert!(times(|s| s.scale * s.factor > 19_999_900) > 5_000, "the end of the products");
    assert!(drawn.iter().all(|series| rule::non_polar(*series).is_ok()));
    let town: Vec<Series> = (0..60_000).map(|_| town_overview(&mut random)).collect();
    assert!(town.iter().all(|s| (5_000..=9_999).contains(&s.scale) && s.factor > 1));
}

/// Every factor and zone at scales of every band: read, and written back (02, E13).
#[test]
fn every_factor_and_zone() {
    let mut random = seeded("every_factor_and_zone");
    let mut ask = Ask::default();
    for factor in 1..=64 {
        for zone in ZONES {
            for _ in 0..60 {
                let scale = scale_of(&mut random, factor);
                let series = Series { scale, factor, zone };
                let record = record(&mut random, series, 999);
                let card = card(series, &record);
                let read = ask.read(series, &card).expect("a good card is read");
                assert_eq!((read.value.record, read.blanks), (record, 0), "{series:?}");
                assert_eq!(Ok(read.value.spacing), ask.spacing(series), "{series:?}");
                let out_len = 98 + random.below(8);
                ask.write_back(series, &read, &card, out_len);
            }
        }
    }
    ask.met("read", &[0]);
    ask.met("write", &[0, 24]);
}

/// Both round trips of the library alone: there from 10,000 up whatever the factor, not below.
#[test]
fn round_trips() {
    let mut random = seeded("round_trips");
    let (mut trips, mut none) = (0, 0);
    for round in 0..120_000 {
        let mut series = overview(&mut random);
        if round % 4 == 0 {
            series.scale = random.pick(&[9_998, 9_999, 10_000, 10_001]);
        }
        let record = record(&mut random, series, 999);
        let mut first = [7; 98];
        let written = write_card(series, &record, &mut first);
        if series.scale < 10_000 {
            none += 1;
            assert_eq!((written, first), (Err(RETIRED), [7; 98]), "{series:?}");
            continue;
        }
        trips += 1;
        assert_eq!(written, Ok(()), "{series:?} {record:?}");
        let read = read_card(series, &first).expect("a written card is read");
        assert_eq!((read.value.record, read.blanks), (record, 0), "reading what was written");
        let mut second = [7; 98];
        assert_eq!(write_card(series, &read.value.record, &mut second), Ok(()));
        assert_eq!(second, first, "writing what was read");
    }
    println!("cases round_trips {trips} {none}");
    assert!(trips > 60_000 && none > 20_000, "{trips} trips, {none} refused");
}

/// A card read with each factor: 9 exactly where A or B is another, 1 where the product is too
/// large, else accepted.
#[test]
fn other_factors() {
    let mut random = seeded("other_factors");
    let mut ask = Ask::default();
    let mut alike = 0;
    for _ in 0..6_000 {
        let series = overview(&mut random);
        let record = record(&mut random, series, 20);
        let card = card(series, &record);
        let own = rule::spacing(series).expect("a spacing");
        for factor in (1..=64).chain(BAD_FACTORS) {
            let stated = Series { factor, ..series };
            let right = match rule::spacing(stated) {
                Ok(other) if other == own => None,
                Ok(_) => Some(Refusal { number: 9, at: 0 }),
                Err(refusal) => Some(refusal),
            };
            let found = ask.read(stated, &card);
            assert_eq!(found.err(), right, "{stated:?} for {series:?}");
            alike += u64::from(right.is_none() && factor != series.factor);
        }
    }
    assert!(alike > 100, "{alike} other factors of the same A and B");
    ask.met("read", &[0, 1, 9, 17]);
    ask.met_at("read", 9, &[0]);
}

/// A card of one pair, read and written at another pair of the same product, is the same card.
#[test]
fn equal_products() {
    let mut random = seeded("equal_products");
    let mut same = 0;
    for _ in 0..20_000 {
        let series = overview(&mut random);
        let product = series.scale * series.factor;
        let record = record(&mut random, series, 50);
        let bytes = card(series, &record);
        let first = read_card(series, &bytes).expect("a card");
        for factor in (1..=64).filter(|k| product % k == 0 && product / k >= 5_000) {
            let other = Series { scale: product / factor, factor, ..series };
            assert_eq!(read_card(other, &bytes), Ok(first), "{other:?} for {series:?}");
            let mut out = [7; 98];
            if other.scale >= 10_000 {
                assert_eq!(write_card(other, &record, &mut out), Ok(()), "{other:?}");
                assert_eq!(out[..], bytes, "{other:?} for {series:?}");
                same += 1;
            } else {
                assert_eq!(write_card(other, &record, &mut out), Err(RETIRED), "{other:?}");
            }
        }
    }
    assert!(same > 60_000, "{same} written");
}

/// ARV and BRV one step from those of S × k, and those of S alone: 9.
#[test]
fn near_spacing() {
    let mut random = seeded("near_spacing");
    let mut ask = Ask::default();
    for _ in 0..40_000 {
        let series = overview(&mut random);
        let good = card(series, &record(&mut random, series, 20));
        let own = rule::spacing(series).expect("a spacing");
        let chart = rule::spacing(Series { factor: 1, ..series }).expect("a spacing");
        let step = random.pick(&[1, 512, series.factor, 512 * series.factor]);
        let arvs = [own.a + step, own.a.saturating_sub(step), chart.a, chart.a / series.factor];
        let brvs = [own.b + step, own.b.saturating_sub(step), chart.b, chart.b / series.factor];
        let (arv, brv) = (random.pick(&arvs), random.pick(&brvs));
        for (arv, brv) in [(arv, own.b), (own.a, brv), (arv, brv), (own.b, own.a)] {
            let mut card = good.clone();
            card[1..9].copy_from_slice(format!("{arv:08}").as_bytes());
            card[9..17].copy_from_slice(format!("{brv:08}").as_bytes());
            let found = ask.read(series, &card).map_err(|refusal| refusal.number);
            let same = arv == own.a && brv == own.b;
            assert_eq!(found.err(), (!same).then_some(9), "{series:?} {arv} {brv}");
        }
    }
    ask.met("read", &[0, 9]);
}

/// Every one-byte change of an overview card is read as the rule reads it, and written back.
#[test]
fn one_byte_changes() {
    let written =
        [(10_000, 64, 1, 0), (312_500, 64, 17, 0), (9_999, 63, 4, 24), (50_000, 20, 1, 0)];
    for (scale, factor, zone, number) in written {
        let mut ask = Ask::default();
        let series = Series { scale, factor, zone };
        let good = card(series, &all_chart(20, -10, 2, 1, false));
        for card in changes_of(&good) {
            if let Ok(read) = ask.read(series, &card) {
                ask.write_back(series, &read, &card, 99);
            }
        }
        ask.met("write", &[number]);
        ask.met("read", &[0, 7, 8, 9, 10, 11]);
    }
}

/// At the town scales every factor opens its card; 24 in writing and alignment whatever it is.
#[test]
fn town_scales() {
    let mut random = seeded("town_scales");
    let mut ask = Ask::default();
    for scale in (5_000..=9_999).step_by(7).chain([5_001, 9_998, 9_999]) {
        for factor in 1..=64 {
            let series = Series { scale, factor, zone: random.pick(&ZONES) };
            let record = record(&mut random, series, 999);
            let card = card(series, &record);
            let read = ask.read(series, &card).expect("a card that opens");
            assert_eq!((read.value.record, read.blanks), (record, 0), "{series:?}");
            assert_eq!(ask.write(series, &record, 98), Err(RETIRED), "{series:?}");
            let lon = random.between(-64_800_000, 64_800_000);
            assert_eq!(ask.align(series, lon / 2, lon), Err(RETIRED), "{series:?}");
        }
        for factor in BAD_FACTORS {
            let series = Series { scale, factor, zone: random.pick(&[1, 9, 18, 19]) };
            let record = all_chart(9, -3, 2, 2, true);
            assert_eq!(ask.write(series, &record, 5), Err(RETIRED), "{series:?}");
            assert_eq!(ask.align(series, i64::MIN, 0), Err(RETIRED), "{series:?}");
            let refused = Err(Refusal { number: 17, at: 0 });
            assert_eq!(ask.read(series, &[]), refused, "{series:?}");
        }
    }
    ask.met("read", &[0, 17]);
    ask.met("write", &[24]);
    ask.met("align", &[24]);
}
