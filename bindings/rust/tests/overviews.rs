//! The spacing of an overview, that of scale 1:(S × k), and what is read from it (02, E4).

use crate::{rule, support};
use fordcask::{align, cover, rectangle, spacing, Series, Spacing};
use support::angles::{any_latitude, any_longitude, cover_ends};
use support::edges::greatest_scale;
use support::make::{overview, scale, SCALES, ZONES};
use support::{seeded, Ask, Random};

const POLE: i64 = 32_400_000;

/// Scales that a factor allows: its greatest, the named ones and some of every band.
fn scales_of(random: &mut Random, factor: u64) -> Vec<u64> {
    let greatest = greatest_scale(factor);
    let mut all = vec![5_000, 9_999, 10_000, greatest - 1, greatest];
    all.extend(SCALES);
    all.extend((0..40).map(|_| scale(random)));
    all.extend((0..20).map(|_| random.between(5_000, greatest as i64) as u64));
    all.retain(|scale| *scale <= greatest);
    all
}

/// The unit of a zone's A (01, "Units and the zone table").
fn unit(zone: u64) -> i128 {
    let row = (zone - 1) % 9;
    [722, 591, 480, 389, 319, 268, 215, 161, 782][row as usize]
}

/// 512 times the smallest whole number not below unit × 1,000,000 / (S × k).
fn is_smallest(found: u64, unit: i128, product: i128) {
    assert_eq!(found % 512, 0, "{found} is a multiple of 512");
    let whole = found as i128 / 512;
    assert!(whole * product >= unit * 1_000_000, "{whole} for {unit} at 1:{product}");
    assert!((whole - 1) * product < unit * 1_000_000, "{whole} for {unit} at 1:{product}");
}

/// Every factor at many scales, in all 18 zones: the ceiling is taken at S × k, once.
#[test]
fn every_factor() {
    let mut random = seeded("every_factor");
    let mut ask = Ask::default();
    let (mut divided, mut not_divided) = (0, 0);
    for factor in 1..=64 {
        for scale in scales_of(&mut random, factor) {
            for zone in 1..=18 {
                let series = Series { scale, factor, zone };
                let found = ask.spacing(series).expect("a spacing");
                let product = scale as i128 * factor as i128;
                is_smallest(found.a, unit(zone), product);
                is_smallest(found.b, 782, product);
                let chart = ask.spacing(Series::chart(scale, zone)).expect("a spacing");
                match chart.a == found.a * factor {
                    true => divided += 1,
                    false => not_divided += 1,
                }
            }
        }
    }
    println!("cases every_factor {divided} {not_divided}");
    assert!(divided > 3_000 && not_divided > 30_000, "{divided} and {not_divided}");
    ask.met("spacing", &[0]);
}

/// Factor 1 is document 01 as it stands: 512 × the ceiling at S.
#[test]
fn factor_one() {
    let mut random = seeded("factor_one");
    let drawn: Vec<u64> = (0..20_000).map(|_| scale(&mut random)).collect();
    for scale in (5_000..=10_100).chain(SCALES).chain(drawn) {
        for zone in 1..=18 {
            let found = spacing(Series { scale, factor: 1, zone }).expect("a spacing");
            is_smallest(found.a, unit(zone), scale.into());
            is_smallest(found.b, 782, scale.into());
            assert_eq!(Ok(found), spacing(Series::chart(scale, zone)));
        }
    }
    for scale in [0, 4_999, 20_000_001, u64::MAX] {
        assert_eq!(spacing(Series::chart(scale, 1)).map_err(|r| r.number), Err(1));
    }
}

/// Two pairs of one product: a random one, and one of its other factors.
fn equal_pair(random: &mut Random) -> Option<((u64, u64), (u64, u64))> {
    let first = overview(random);
    let product = first.scale * first.factor;
    let others = (1..=64).filter(|k| product % k == 0 && product / k >= 5_000);
    let others: Vec<u64> = others.filter(|k| *k != first.factor).collect();
    if others.is_empty() {
        return None;
    }
    let factor = random.pick(&others);
    Some(((first.scale, first.factor), (product / factor, factor)))
}

/// Pairs of one product give one spacing, one cover, one list and one origin.
#[test]
fn equal_products() {
    let mut random = seeded("equal_products");
    let (mut pairs, mut aligned) = (0, 0);
    for _ in 0..40_000 {
        let Some(((scale, factor), (other_scale, other_factor))) = equal_pair(&mut random) else {
            continue;
        };
        pairs += 1;
        let zone = random.between(1, 18) as u64;
        let series = Series { scale, factor, zone };
        let other = Series { scale: other_scale, factor: other_factor, zone };
        assert_eq!(spacing(series), spacing(other), "{series:?} {other:?}");
        let product = scale * factor;
        assert_eq!(spacing(series), spacing(Series::chart(product, zone)), "{series:?}");
        let ends = cover_ends(product);
        let (lat, lon) = (any_latitude(&mut random), any_longitude(&mut random));
        for lat in [lat, random.pick(&ends)] {
            let (one, two) = (cover(scale, factor, lat), cover(other_scale, other_factor, lat));
            assert_eq!(one, two, "{series:?} {other:?} {lat}");
            let south = random.pick(&ends);
            let one = rectangle(scale, factor, south, lat);
            let two = rectangle(other_scale, other_factor, south, lat);
            assert_eq!(one, two, "{series:?} {other:?} {south} {lat}");
        }
        if scale >= 10_000 && other_scale >= 10_000 {
            aligned += 1;
            assert_eq!(align(series, lat, lon), align(other, lat, lon), "{series:?} {other:?}");
        }
    }
    println!("cases equal_products {pairs} {aligned}");
    assert!(pairs > 20_000 && aligned > 12_000, "{pairs} pairs, {aligned} aligned");
}

/// Cover and rectangles at the ends of each zone's overlap, which goes by S × k.
#[test]
fn cover_and_rectangles() {
    let mut random = seeded("cover_and_rectangles");
    let mut ask = Ask::default();
    let (mut longest, mut other) = (0, 0);
    for _ in 0..40_000 {
        let Series { scale, factor, .. } = overview(&mut random);
        let ends = cover_ends(scale * factor);
        let (end, any) = (random.pick(&ends), any_latitude(&mut random));
        for lat in [end, any] {
            let zones = ask.cover(scale, factor, lat).unwrap_or_default();
            longest = longest.max(zones.len());
            let chart = ask.cover(scale, 1, lat).unwrap_or_default();
            other += u64::from(chart != zones);
        }
        let _ = ask.rectangle(scale, factor, end, any);
        let _ = ask.rectangle(scale, factor, any, end);
        let _ = ask.rectangle(scale, factor, end, end + 1);
        let _ = ask.rectangle(scale, factor, end - 1, end);
        let _ = ask.rectangle(scale, factor, end, end);
        let _ = ask.rectangle(scale, factor, -POLE, POLE);
    }
    assert_eq!(longest, 6, "the longest cover list");
    assert!(other > 10_000, "{other} cover lists that the chart does not have");
    ask.met("cover", &[0, 4]);
    ask.met("rectangle", &[0, 4, 16]);
}

/// Alignment at the origins of S × k and round them, and anywhere.
#[test]
fn alignment() {
    let mut random = seeded("alignment");
    let mut ask = Ask::default();
    for _ in 0..60_000 {
        let series = overview(&mut random);
        let (a, b) = rule::non_polar(series).expect("a spacing");
        let n = random.between(-(b / 512) as i64, (b / 512) as i64);
        let m = random.between(-(a / 256) as i64, (a / 256) as i64);
        let lat = rule::stored_angle(n.into(), b) as i64 + random.between(-1, 1);
        let lon = rule::stored_angle(m.into(), a) as i64 + random.between(-1, 1);
        let _ = ask.align(series, lat, lon);
        let _ = ask.align(series, any_latitude(&mut random), any_longitude(&mut random));
    }
    ask.met("align", &[0, 4, 5, 24]);
}

/// Alignment's n and m by their meaning: the next tile to the south or east does not hold them.
#[test]
fn alignment_meaning() {
    let mut random = seeded("alignment_meaning");
    for _ in 0..60_000 {
        let series = Series { zone: random.pick(&ZONES), ..overview(&mut random) };
        let (lat, lon) = (random.between(-POLE, POLE), random.between(-2 * POLE, 2 * POLE));
        let Ok(origin) = align(series, lat, lon) else {
            assert!(series.scale < 10_000, "{series:?}");
            continue;
        };
        let Spacing { a, b } = spacing(series).expect("a spacing");
        let (north, east) = (i128::from(lat) * b as i128, i128::from(lon) * a as i128);
        let tile = 128 * rule::H;
        let (n, m) = (i128::from(origin.n), i128::from(origin.m));
        assert!(tile * n >= north && tile * (n - 1) < north, "{series:?} {lat} {origin:?}");
        assert!(tile * m <= east && tile * (m + 1) > east, "{series:?} {lon} {origin:?}");
    }
}
