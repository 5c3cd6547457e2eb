//! Demand 3 down lists of cards with blanks and without, in each pair alone: a pixel's position
//! goes from card to card with no drift (01, "Origins and the zone grid"; 02, E2, E4 and E8).

use crate::{rule, support};
use fordcask::{Pixel, Series, Sheet};
use support::blanks::{pad_all, pad_some, total};
use support::cuts::{common_pixels, cut, padded_list, walk, Ends};
use support::edges::greatest_scale;
use support::make::{all_chart, card, chart, overview, record, scale, town_chart, town_overview};
use support::make::{Maker, SCALES, ZONES};
use support::{seeded, Random, PAIRS};

const MAKERS: [Maker; 4] = [chart, town_chart, overview, town_overview];

/// The named scales and others, in every zone.
#[test]
fn demand_3() {
    let mut random = seeded("demand_3");
    let mut ends = Ends::default();
    for zone in ZONES {
        for scale in SCALES {
            for _ in 0..20 {
                padded_list(&mut random, Series::chart(scale, zone), &mut ends);
            }
        }
        for _ in 0..1_500 {
            let scale = scale(&mut random);
            padded_list(&mut random, Series::chart(scale, zone), &mut ends);
        }
    }
    println!("cases demand_3 {ends:?}");
    assert!(ends.lists > 15_000 && ends.answered > 20_000, "{ends:?}");
    assert!(ends.outside > 10_000 && ends.padding > 10_000, "{ends:?}");
    assert!(ends.with_blanks > 15_000 && ends.with_blanks + 2_000 < ends.answered, "{ends:?}");
}

/// Town scales and overviews of every factor.
#[test]
fn demand_3_factors() {
    let mut random = seeded("demand_3_factors");
    let mut ends = Ends::default();
    for factor in 1..=64 {
        for zone in ZONES {
            for round in 0..10 {
                let scale = match round % 5 {
                    0 => greatest_scale(factor),
                    1 => random.between(5_000, 9_999) as u64,
                    _ => scale(&mut random).min(greatest_scale(factor)),
                };
                padded_list(&mut random, Series { scale, factor, zone }, &mut ends);
            }
        }
    }
    println!("cases demand_3_factors {ends:?}");
    assert!(ends.lists > 5_000 && ends.answered > 7_000, "{ends:?}");
    assert!(ends.outside > 3_000 && ends.padding > 3_000, "{ends:?}");
    assert!(ends.with_blanks > 5_000, "{ends:?}");
}

/// A hundred cards round one pixel, each cut twice: with blanks and without.
fn long_list(random: &mut Random, series: Series) -> Ends {
    let record = record(random, series, 3);
    let row = random.between(record.nul as i64, record.nll as i64);
    let first = Pixel { row, column: random.between(record.nls as i64, record.nus as i64) };
    let head = card(series, &record);
    let read = rule::read(series, &head).expect("an accepted card");
    let place = rule::place(&read, first).expect("a pixel of the tiles").value;
    let mut cards = vec![head];
    for _ in 0..100 {
        let plain = cut(random, series, place);
        let mut padded = plain.clone();
        pad_some(random, &mut padded);
        cards.extend([plain, padded]);
    }
    if random.once_in(2) {
        pad_all(&mut cards[0]);
    }
    let [corner, centre] = PAIRS.map(|pair| walk(pair, series, &cards, first));
    assert_eq!(corner, centre, "the place alone tells how each call ends");
    corner
}

#[test]
fn long_lists() {
    let mut random = seeded("long_lists");
    let (mut answered, mut with_blanks) = (0, 0);
    for round in 0..200 {
        let series = MAKERS[round % 4](&mut random);
        let ends = long_list(&mut random, series);
        assert_eq!(ends.lists, 1);
        assert_eq!(ends.answered % 2 + ends.outside % 2 + ends.padding % 2, 0, "{ends:?}");
        answered += ends.answered;
        with_blanks += ends.with_blanks;
    }
    println!("cases long_lists {answered} answered, {with_blanks} with blanks");
    assert!(answered > 12_000 && with_blanks > 5_000, "{answered} and {with_blanks}");
}

/// The part two cards have in common, with blanks in the one, in the other and in both.
#[test]
fn common_part() {
    let mut random = seeded("common_part");
    let mut common = [0, 0];
    for (round, (scale, factor, zone)) in
        [(5_000, 1, 1), (312_500, 64, 17), (1_000_000, 1, 1)].into_iter().enumerate()
    {
        let series = Series { scale, factor, zone };
        let mut cards = [
            card(series, &all_chart(9, -3, 4, 5, false)),
            card(series, &all_chart(8, -1, 4, 4, true)),
        ];
        for (i, card) in cards.iter_mut().enumerate() {
            while (round + 1) >> i & 1 == 1 && pad_some(&mut random, card) == 0 {}
        }
        let padded = [0, 1].map(|i| total(&cards[i]) > 0);
        assert_eq!(padded, [[true, false], [false, true], [true, true]][round]);
        let [head, other] = [0, 1].map(|i| Sheet { series, card: &cards[i] });
        for (pair, common) in PAIRS.into_iter().zip(&mut common) {
            *common += common_pixels(pair, &head, &other);
        }
    }
    assert_eq!(common, [3 * 384 * 384; 2]);
}
