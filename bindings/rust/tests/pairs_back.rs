//! Each pair alone gives a pixel back from its position, and no drift down long lists (02, E8).

use crate::{rule, support};
use fordcask::{OnCard, Pixel, Series, Sheet};
use support::cuts::{cut, near_place, walk, Ends};
use support::make::{all_chart, card, overview, record, toward_ends, town_overview, with_edges};
use support::make::{Maker, SCALE_BANDS, ZONES};
use support::{no_blanks, seeded, Ask, Random, PAIRS};

/// A scale of each band in each zone, and overviews of factors 2 to 64.
fn some_series(random: &mut Random) -> Vec<Series> {
    let mut all = Vec::new();
    for zone in ZONES {
        for (low, high) in SCALE_BANDS {
            let scale = toward_ends(random, low, high) as u64;
            all.push(Series::chart(scale, zone));
        }
        all.push(Series { zone, ..overview(random) });
        all.push(Series { zone, ..town_overview(random) });
    }
    all
}

/// Every pixel of a tile and its surroundings: the chart's give themselves back, within half a
/// hundredth of their exact place.
#[test]
fn every_pixel() {
    let mut random = seeded("every_pixel");
    let mut answered = [0, 0];
    for series in some_series(&mut random) {
        let (a, b) = rule::non_polar(series).expect("a spacing");
        let (pole, side) = ((b / 512) as i64, (a / 256) as i64);
        let m = random.pick(&[-side, -1, 0, side - 1, side]);
        let n = random.between(1 - pole, pole);
        let record = with_edges(&mut random, n, m, 1, 1);
        let record = random.pick(&[record, all_chart(n, m, 1, 1, true)]);
        let card = card(series, &record);
        let sheet = Sheet { series, card: &card };
        for (pair, answered) in PAIRS.into_iter().zip(&mut answered) {
            for (row, column) in (-1..=128).flat_map(|row| (-1..=128).map(move |c| (row, c))) {
                let pixel = Pixel { row, column };
                let Ok(OnCard { value: position, blanks }) = sheet.position_in(pair, pixel) else {
                    continue;
                };
                *answered += 1;
                let place = sheet.place(pixel).expect("a pixel of the tiles");
                let near = near_place(pair, series, place.value, position);
                assert!(near, "{pair:?} {series:?} {record:?} {pixel:?}");
                assert_eq!((place.blanks, blanks), (0, 0), "{pair:?} {series:?} {record:?}");
                let back = sheet.pixel_in(pair, position);
                assert_eq!(back, Ok(no_blanks(pixel)), "{pair:?} {series:?} {record:?}");
            }
        }
    }
    println!("cases every_pixel {answered:?}");
    assert_eq!(answered[0], answered[1], "one chart in both pairs");
    assert!(answered[0] > 500_000, "{answered:?}");
}

/// Whole cards of every kind, the library held to the rule at each of their corners and inside.
#[test]
fn whole_cards() {
    let mut random = seeded("whole_cards");
    let mut ask = Ask::default();
    for series in (0..30).flat_map(|_| some_series(&mut random)).collect::<Vec<Series>>() {
        let record = record(&mut random, series, 999);
        let card = card(series, &record);
        let sheet = Sheet { series, card: &card };
        for _ in 0..12 {
            let row = toward_ends(&mut random, record.nul as i64, record.nll as i64);
            let column = toward_ends(&mut random, record.nls as i64, record.nus as i64);
            ask.there_and_back(&sheet, Pixel { row, column });
        }
    }
    ask.met("place", &[0]);
    ask.met("position", &[0]);
    ask.met("pixel", &[0]);
}

/// Two hundred cards round one pixel, cut from different corners.
fn long_list(random: &mut Random, series: Series) -> Ends {
    let record = record(random, series, 3);
    let row = random.between(record.nul as i64, record.nll as i64);
    let first = Pixel { row, column: random.between(record.nls as i64, record.nus as i64) };
    let mut cards = vec![card(series, &record)];
    let head = rule::read(series, &cards[0]).expect("an accepted card");
    let place = rule::place(&head, first).expect("a pixel of the tiles").value;
    cards.extend((0..200).map(|_| cut(random, series, place)));
    let [corner, centre] = PAIRS.map(|pair| walk(pair, series, &cards, first));
    assert_eq!(corner, centre, "the place alone tells how each call ends");
    corner
}

#[test]
fn long_lists() {
    let mut random = seeded("long_lists");
    let makers: [Maker; 3] = [support::make::chart, overview, town_overview];
    let (mut answered, mut refused) = (0, 0);
    for round in 0..600 {
        let series = makers[round % 3](&mut random);
        let ends = long_list(&mut random, series);
        assert_eq!(ends.lists, 1);
        answered += ends.answered;
        refused += ends.outside + ends.padding;
    }
    println!("cases long_lists {answered} answered, {refused} refused");
    assert!(answered > 40_000 && refused > 20_000, "{answered} and {refused}");
}
