//! The overview pixel of a chart's pixel, compared with the rule and with its two steps in the
//! corner pair (02, E4 and E8).

use crate::{rule, support};
use fordcask::{OverviewPixel, Pair, Pixel, Position, Record, Series, Sheet};
use support::cuts::{over, place_at};
use support::edges::greatest_scale;
use support::make::{all_chart, card, chart, overview, pixel, record, town_overview, with_edges};
use support::make::{Maker, ZONES};
use support::{seeded, Ask, Random};

/// How often each step answered or refused.
#[derive(Default, Debug)]
struct Steps {
    answered: u64,
    chart: u64,
    overview: u64,
}

/// The position of a pixel of the tiles, padding or not.
fn anywhere(series: Series, record: &Record, pixel: Pixel) -> Option<Position> {
    let all = all_chart(record.n, record.m, record.nfl, record.nfc, record.tif);
    let card = rule::read(series, &card(series, &all)).expect("an accepted card");
    rule::position(Pair::Corner, &card, pixel).ok().map(|told| told.value)
}

/// Asks at a pixel of a chart, and holds the answer to the two steps taken one by one.
fn asked(ask: &mut Ask, chart: &Sheet, overview: &Sheet, pixel: Pixel, steps: &mut Steps) {
    let found = ask.overview_pixel(chart, overview, pixel);
    let first = chart.position_in(Pair::Corner, pixel);
    let second = first.and_then(|there| {
        let found = overview.pixel_in(Pair::Corner, there.value)?;
        let (pixel, overview_blanks) = (found.value, found.blanks);
        Ok(OverviewPixel { pixel, blanks: there.blanks, overview_blanks })
    });
    assert_eq!(found, second, "the two steps");
    match (first.is_ok(), second.is_ok()) {
        (false, _) => steps.chart += 1,
        (true, false) => steps.overview += 1,
        (true, true) => steps.answered += 1,
    }
}

/// A random chart and some pixels, each with an overview made round it.
fn ask_two(ask: &mut Ask, random: &mut Random, two: (Series, Series), steps: &mut Steps) {
    let (series, over_series) = two;
    let record = record(random, series, 6);
    let chart_card = card(series, &record);
    let chart = Sheet { series, card: &chart_card };
    for _ in 0..3 {
        let pixel = pixel(random, &record);
        let near = anywhere(series, &record, pixel).unwrap_or_default();
        let over_card = over(random, over_series, near);
        let overview = Sheet { series: over_series, card: &over_card };
        asked(ask, &chart, &overview, pixel, steps);
    }
}

/// Every factor and zone: a chart of factor 1 and an overview of its scale and zone.
#[test]
fn every_factor() {
    let mut random = seeded("every_factor");
    let (mut ask, mut steps) = (Ask::default(), Steps::default());
    for factor in 1..=64 {
        for zone in ZONES {
            for _ in 0..40 {
                let most = greatest_scale(factor);
                let scale = support::make::scale(&mut random).min(most);
                let series = Series::chart(scale, zone);
                let two = (series, Series { factor, ..series });
                ask_two(&mut ask, &mut random, two, &mut steps);
            }
        }
    }
    println!("cases every_factor {steps:?}");
    assert!(steps.answered > 30_000, "{steps:?}");
    assert!(steps.chart > 10_000 && steps.overview > 20_000, "{steps:?}");
    ask.met("overview_pixel", &[0, 12, 13]);
}

/// Any two cards, of other scales, zones and factors, the chart coarser than its overview too.
#[test]
fn any_two_cards() {
    let mut random = seeded("any_two_cards");
    let (mut ask, mut steps) = (Ask::default(), Steps::default());
    let makers: [Maker; 3] = [chart, overview, town_overview];
    for _ in 0..40_000 {
        let (first, second) = (random.pick(&makers), random.pick(&makers));
        let two = (first(&mut random), second(&mut random));
        ask_two(&mut ask, &mut random, two, &mut steps);
    }
    println!("cases any_two_cards {steps:?}");
    assert!(steps.answered > 30_000, "{steps:?}");
    assert!(steps.chart > 10_000 && steps.overview > 20_000, "{steps:?}");
    ask.met("overview_pixel", &[0, 12, 13]);
}

/// Two cards with no point in common: 12, or the chart's own 12 and 13.
#[test]
fn far_apart() {
    let mut random = seeded("far_apart");
    let (mut ask, mut steps) = (Ask::default(), Steps::default());
    for _ in 0..40_000 {
        let (series, over_series) = (chart(&mut random), overview(&mut random));
        let north = with_edges(&mut random, 9, 9, 2, 2);
        let south = with_edges(&mut random, -9, -9, 2, 2);
        let chart_card = card(series, &north);
        let over_card = card(over_series, &south);
        let chart = Sheet { series, card: &chart_card };
        let overview = Sheet { series: over_series, card: &over_card };
        asked(&mut ask, &chart, &overview, pixel(&mut random, &north), &mut steps);
    }
    assert!(steps.answered == 0 && steps.overview > 20_000, "{steps:?}");
    ask.met("overview_pixel", &[12, 13]);
}

/// A card as its own overview gives the pixel back; an overview may be the chart.
#[test]
fn its_own_overview() {
    let mut random = seeded("its_own_overview");
    let mut ask = Ask::default();
    let makers: [Maker; 3] = [chart, overview, town_overview];
    for _ in 0..30_000 {
        let series = random.pick(&makers)(&mut random);
        let record = record(&mut random, series, 999);
        let card = card(series, &record);
        let sheet = Sheet { series, card: &card };
        let pixel = pixel(&mut random, &record);
        let right = sheet.position_in(Pair::Corner, pixel).map(|_| OverviewPixel {
            pixel,
            blanks: 0,
            overview_blanks: 0,
        });
        assert_eq!(ask.overview_pixel(&sheet, &sheet, pixel), right, "{series:?}");
    }
    ask.met("overview_pixel", &[0, 12, 13]);
}

/// A pixel in the chart's padding is refused 13 though the overview would find its position.
#[test]
fn padding_of_the_chart() {
    let mut random = seeded("padding_of_the_chart");
    let mut ask = Ask::default();
    let mut found = 0;
    for _ in 0..60_000 {
        let series = chart(&mut random);
        let factor = random.between(1, (20_000_000 / series.scale).min(64) as i64) as u64;
        let over_series = Series { factor, ..series };
        let record = record(&mut random, series, 3);
        let chart_card = card(series, &record);
        let chart = Sheet { series, card: &chart_card };
        let pixel = pixel(&mut random, &record);
        if chart.position_in(Pair::Corner, pixel).map_err(|refusal| refusal.number) != Err(13) {
            continue;
        }
        let there = anywhere(series, &record, pixel).expect("a pixel of the tiles");
        let over_card = over(&mut random, over_series, there);
        let overview = Sheet { series: over_series, card: &over_card };
        let refused = ask.overview_pixel(&chart, &overview, pixel);
        assert_eq!(refused.map_err(|refusal| refusal.number), Err(13), "{series:?}");
        found += u64::from(overview.pixel_in(Pair::Corner, there).is_ok());
    }
    assert!(found > 5_000, "{found} the overview would find");
    ask.met("overview_pixel", &[13]);
}

/// Every pixel of a chart in its overview: answers go down and to the right with the pixels.
#[test]
fn every_pixel() {
    let mut ask = Ask::default();
    for (scale, factor, zone) in [(50_000, 20, 1), (9_999, 64, 17), (1_000_000, 7, 4)] {
        let series = Series::chart(scale, zone);
        let over_series = Series { factor, ..series };
        let chart_card = card(series, &all_chart(9, 3, 2, 2, false));
        let chart = Sheet { series, card: &chart_card };
        let corner =
            chart.position_in(Pair::Corner, Pixel { row: 0, column: 0 }).expect("the corner");
        let place = place_at(over_series, corner.value);
        let (n, m) = (-(-place.row).div_euclid(128) + 1, place.column.div_euclid(128) - 1);
        let over_card = card(over_series, &all_chart(n, m, 4, 4, false));
        let overview = Sheet { series: over_series, card: &over_card };
        let mut above = vec![Pixel::default(); 256];
        for row in 0..256 {
            let mut last = Pixel::default();
            for column in 0..256 {
                let pixel = Pixel { row, column };
                let found = ask.overview_pixel(&chart, &overview, pixel).expect("a pixel").pixel;
                let right = column == 0 || (found.row == last.row && found.column >= last.column);
                let old = above[column as usize];
                let down = row == 0 || (found.column == old.column && found.row >= old.row);
                assert!(right && down, "{series:?} {pixel:?} {found:?}");
                (last, above[column as usize]) = (found, found);
            }
        }
    }
    ask.met("overview_pixel", &[0]);
}
