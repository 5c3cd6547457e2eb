//! Demand 3 for cards of one scale, one zone and one factor other than 1, in each pair alone
//! (02, E4 and E8).

use crate::support;
use fordcask::{Series, Sheet};
use support::cuts::{common_pixels, list, Ends};
use support::edges::greatest_scale;
use support::make::{all_chart, card, overview, scale, town_overview, ZONES};
use support::{seeded, PAIRS};

/// Every factor in every zone, at its greatest scale, both ends of the town scales and others.
#[test]
fn demand_3_every_factor() {
    let mut random = seeded("demand_3_every_factor");
    let mut ends = Ends::default();
    for factor in 2..=64 {
        let greatest = greatest_scale(factor);
        for zone in ZONES {
            for round in 0..60 {
                let scale = match round % 6 {
                    0 => greatest,
                    1 => random.pick(&[greatest - 1, 5_000, 9_999, 10_000]),
                    2 => random.between(5_000, greatest as i64) as u64,
                    _ => scale(&mut random).min(greatest),
                };
                list(&mut random, Series { scale, factor, zone }, &mut ends);
            }
        }
    }
    println!("cases demand_3_every_factor {ends:?}");
    assert!(ends.lists > 30_000 && ends.answered > 40_000, "{ends:?}");
    assert!(ends.outside > 15_000 && ends.padding > 15_000, "{ends:?}");
}

/// Overviews of any scale, and those of the town scales.
#[test]
fn demand_3_overviews() {
    let mut random = seeded("demand_3_overviews");
    let mut ends = Ends::default();
    for round in 0..100_000 {
        let maker = if round % 4 == 0 { town_overview } else { overview };
        let series = maker(&mut random);
        list(&mut random, series, &mut ends);
    }
    println!("cases demand_3_overviews {ends:?}");
    assert!(ends.lists > 50_000 && ends.answered > 80_000, "{ends:?}");
    assert!(ends.outside > 30_000 && ends.padding > 30_000, "{ends:?}");
}

#[test]
fn common_part() {
    let mut common = [0, 0];
    let series = [(5_000, 64, 1), (9_999, 2, 13), (10_000, 63, 8), (50_000, 20, 2)];
    let larger = [(312_500, 64, 17), (317_460, 63, 3), (10_000_000, 2, 5), (6_666_666, 3, 16)];
    for (scale, factor, zone) in series.into_iter().chain(larger) {
        let series = Series { scale, factor, zone };
        let head = card(series, &all_chart(9, -3, 4, 5, false));
        let other = card(series, &all_chart(8, -1, 4, 4, true));
        let head = Sheet { series, card: &head };
        let other = Sheet { series, card: &other };
        for (pair, common) in PAIRS.into_iter().zip(&mut common) {
            *common += common_pixels(pair, &head, &other);
        }
    }
    assert_eq!(common, [8 * 384 * 384; 2]);
}
