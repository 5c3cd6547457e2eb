//! Demand 3 by running, and the part two cards have in common, in each pair alone (02, E8).

use crate::{rule, support};
use fordcask::{OnCard, Series, Sheet};
use support::cuts::{common_pixels, cut, list, pixel_with, Ends};
use support::make::{all_chart, card, chart, overview, pixel, record, scale, town_chart};
use support::make::{Maker, SCALES, ZONES};
use support::{seeded, PAIRS};

#[test]
fn demand_3() {
    let mut random = seeded("demand_3");
    let mut ends = Ends::default();
    for zone in ZONES {
        for scale in SCALES {
            for _ in 0..200 {
                list(&mut random, Series::chart(scale, zone), &mut ends);
            }
        }
        for _ in 0..15_000 {
            let scale = scale(&mut random);
            list(&mut random, Series::chart(scale, zone), &mut ends);
        }
    }
    println!("cases demand_3 {ends:?}");
    assert_eq!(ends.with_blanks, 0, "no blanks in these lists");
    assert!(ends.lists > 150_000 && ends.answered > 200_000, "{ends:?}");
    assert!(ends.outside > 100_000 && ends.padding > 100_000, "{ends:?}");
}

/// Demand 3 holds at the town scales: each of them, and both ends in every zone (02, E13).
#[test]
fn demand_3_town() {
    let mut random = seeded("demand_3_town");
    let mut ends = Ends::default();
    for scale in 5_000..=9_999 {
        for _ in 0..16 {
            let zone = random.pick(&ZONES);
            list(&mut random, Series::chart(scale, zone), &mut ends);
        }
    }
    for zone in ZONES {
        for scale in [5_000, 5_001, 9_998, 9_999] {
            for _ in 0..300 {
                list(&mut random, Series::chart(scale, zone), &mut ends);
            }
        }
    }
    println!("cases demand_3_town {ends:?}");
    assert!(ends.lists > 50_000 && ends.answered > 70_000, "{ends:?}");
    assert!(ends.outside > 30_000 && ends.padding > 30_000, "{ends:?}");
}

/// The place's pixel found by trying every row and column gives the same as `pixel_with`.
#[test]
fn place_by_trying() {
    let mut random = seeded("place_by_trying");
    let mut found = 0;
    for _ in 0..6_000 {
        let maker: Maker = random.pick(&[chart, chart, chart, town_chart, overview, overview]);
        let series = maker(&mut random);
        let record = record(&mut random, series, 4);
        let head = rule::read(series, &card(series, &record)).expect("a card");
        let Ok(OnCard { value: place, .. }) = rule::place(&head, pixel(&mut random, &record))
        else {
            continue;
        };
        let bytes = cut(&mut random, series, place);
        let other = rule::read(series, &bytes).expect("an accepted card").value;
        let tried = rule::has_place(&other, place);
        assert_eq!(tried, pixel_with(&other, place), "{place:?} {other:?}");
        found += u64::from(tried.is_some());
    }
    assert!(found > 500, "{found} found");
}

#[test]
fn common_part() {
    let mut common = [0, 0];
    let town = [(5_000, 1), (7_321, 13), (9_999, 8), (9_999, 17)];
    let printed = [(10_000, 1), (1_000_000, 1), (20_000_000, 8), (20_000_000, 17)];
    for (scale, zone) in town.into_iter().chain(printed) {
        let series = Series::chart(scale, zone);
        let head = all_chart(9, -3, 4, 5, false);
        let other = all_chart(8, -1, 4, 4, true);
        let (head, other) = (card(series, &head), card(series, &other));
        let head = Sheet { series, card: &head };
        let other = Sheet { series, card: &other };
        for (pair, common) in PAIRS.into_iter().zip(&mut common) {
            *common += common_pixels(pair, &head, &other);
        }
    }
    assert_eq!(common, [8 * 384 * 384; 2]);
}
