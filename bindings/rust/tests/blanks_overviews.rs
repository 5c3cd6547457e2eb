//! The overview question reads two cards and tells the total of each; with blanks in neither, one
//! or both it gives one pixel or one refusal (02, E2 and E4).

use crate::support;
use fordcask::{OverviewPixel, Pair, Pixel, Refusal, Series, Sheet};
use support::blank_faults::{refusal, some_faults, with_faults};
use support::blanks::{pad_some, total, Twins};
use support::cuts::over;
use support::edges::greatest_scale;
use support::make::{all_chart, ZONES};
use support::make::{card, chart, overview, pixel, record, town_chart, town_overview, Maker};
use support::{or_zero, seeded, Ask, Random, WORKED, WORKED_SERIES};

const MAKERS: [Maker; 4] = [chart, town_chart, overview, town_overview];

/// A card padded, beside itself as it was.
fn padded(random: &mut Random, series: Series, plain: Vec<u8>) -> Twins {
    let mut padded = plain.clone();
    let put = pad_some(random, &mut padded);
    Twins { series, plain, padded, put }
}

/// Asks with each combination of the two cards; how often each was answered is counted.
fn ask_each(ask: &mut Ask, two: [&Twins; 2], pixel: Pixel, met: &mut [u64; 4]) {
    let [charts, overviews] = two;
    let first = charts.sheets()[0].overview_pixel(&overviews.sheets()[0], pixel);
    for (i, chart) in charts.sheets().into_iter().enumerate() {
        for (j, overview) in overviews.sheets().into_iter().enumerate() {
            let found = ask.overview_pixel(&chart, &overview, pixel);
            let right = first.map(|told| OverviewPixel {
                pixel: told.pixel,
                blanks: charts.put * i as u64,
                overview_blanks: overviews.put * j as u64,
            });
            assert_eq!(found, right, "{:?} {:?} {pixel:?}", charts.series, overviews.series);
            let both = |told: OverviewPixel| [told.blanks > 0, told.overview_blanks > 0];
            let [one, two] = found.map_or([false; 2], both).map(usize::from);
            met[2 * one + two] += u64::from(found.is_ok());
        }
    }
}

/// A chart and an overview round one of its pixels.
fn ask_two(ask: &mut Ask, random: &mut Random, two: [Series; 2], met: &mut [u64; 4]) {
    let record = record(random, two[0], 6);
    let asked = pixel(random, &record);
    let charts = Twins::of(random, two[0], &record);
    let there = or_zero(charts.sheets()[0].position_in(Pair::Corner, asked));
    let over_card = over(random, two[1], there);
    let overviews = padded(random, two[1], over_card);
    ask_each(ask, [&charts, &overviews], asked, met);
}

/// Every factor and zone: a chart of factor 1 and an overview of its scale and zone.
#[test]
fn every_factor() {
    let mut random = seeded("every_factor");
    let mut ask = Ask::default();
    let mut met = [0; 4];
    for factor in 1..=64 {
        for zone in ZONES {
            for _ in 0..10 {
                let scale = support::make::scale(&mut random).min(greatest_scale(factor));
                let series = Series::chart(scale, zone);
                let two = [series, Series { factor, ..series }];
                ask_two(&mut ask, &mut random, two, &mut met);
            }
        }
    }
    println!("cases every_factor {met:?}");
    assert!(met.iter().all(|times| *times > 1_200), "{met:?} neither, one, the other, both");
    ask.met("overview_pixel", &[0, 12, 13]);
    ask.met_totals("overview_pixel", 0..=28);
    ask.met_totals("overview of a chart", 0..=28);
}

/// Any two cards, of other scales, zones and factors.
#[test]
fn any_two_cards() {
    let mut random = seeded("any_two_cards");
    let mut ask = Ask::default();
    let mut met = [0; 4];
    for round in 0..10_000 {
        let two = [MAKERS[round % 4](&mut random), MAKERS[round / 4 % 4](&mut random)];
        ask_two(&mut ask, &mut random, two, &mut met);
    }
    assert!(met.iter().all(|times| *times > 1_200), "{met:?} neither, one, the other, both");
    ask.met("overview_pixel", &[0, 12, 13]);
    ask.met_totals("overview_pixel", 0..=28);
}

/// The total of the chart's card comes first and the overview's second, not one for both.
#[test]
fn whose_total() {
    let mut random = seeded("whose_total");
    let other = card(WORKED_SERIES, &all_chart(101, -21, 4, 4, false));
    let mut apart = 0;
    for _ in 0..2_000 {
        let charts = padded(&mut random, WORKED_SERIES, WORKED.to_vec());
        let overviews = padded(&mut random, WORKED_SERIES, other.clone());
        let [chart, overview] = [charts.sheets()[1], overviews.sheets()[1]];
        let at = Pixel { row: random.between(0, 255), column: random.between(0, 127) };
        let found = chart.overview_pixel(&overview, at);
        let pixel = Pixel { row: at.row + 128, column: at.column + 128 };
        let (blanks, overview_blanks) = (charts.put, overviews.put);
        assert_eq!(found, Ok(OverviewPixel { pixel, blanks, overview_blanks }));
        let back = overview.overview_pixel(&chart, pixel);
        let exchanged =
            OverviewPixel { pixel: at, blanks: overview_blanks, overview_blanks: blanks };
        assert_eq!(back, Ok(exchanged));
        apart += u64::from(blanks != overview_blanks);
        let own = chart.overview_pixel(&chart, at);
        assert_eq!(own, Ok(OverviewPixel { pixel: at, blanks, overview_blanks: blanks }));
    }
    assert!(apart > 1_500, "{apart} of two totals");
}

/// The refusals in their order: the chart's card, the overview's, 12 and 13 of each.
#[test]
fn refused_cards() {
    let mut random = seeded("refused_cards");
    let mut ask = Ask::default();
    for _ in 0..40_000 {
        let faults = [(); 2].map(|()| match random.below(3) {
            0 => some_faults(&mut random),
            _ => Vec::new(),
        });
        let cards = [0, 1].map(|i| with_faults(&mut random, &faults[i]));
        let [chart, overview] =
            [&cards[0], &cards[1]].map(|card| Sheet { series: WORKED_SERIES, card });
        let pixel = Pixel { row: random.between(-1, 256), column: random.between(-1, 128) };
        let inside = (0..256).contains(&pixel.row) && (0..128).contains(&pixel.column);
        let outside = (!inside).then_some(Refusal { number: 12, at: 0 });
        let first = faults.iter().flatten().next().map(|fault| refusal(*fault));
        let right = match first.or(outside) {
            Some(refusal) => Err(refusal),
            None => Ok(OverviewPixel {
                pixel,
                blanks: total(&cards[0]),
                overview_blanks: total(&cards[1]),
            }),
        };
        assert_eq!(ask.overview_pixel(&chart, &overview, pixel), right);
    }
    ask.met("overview_pixel", &[0, 7, 8, 9, 10, 11, 12]);
    ask.met_totals("overview_pixel", 0..=22);
    ask.met_totals("overview of a chart", 0..=22);
}
