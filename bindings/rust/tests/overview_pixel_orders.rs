//! The overview question's refusals, each against those that follow it: the chart's card, the
//! overview's card, 12 and 13 of the chart, 12 and 13 of the overview (02, E4).

use crate::{rule, support};
use fordcask::{Pair, Pixel, Position, Record, Series, Sheet};
use support::cuts::place_at;
use support::faults::{compatible, spoil_all, FAULTS};
use support::make::{all_chart, card, overview, with_edges};
use support::{or_zero, seeded, Ask, Random};

/// Of a pixel: in the chart, in the padding, outside the tiles.
const STATES: [u32; 3] = [0, 13, 12];

/// A chart of 2 × 2 tiles or more, its edges inside them, and a pixel of this state.
fn chart_and_pixel(random: &mut Random, series: Series, state: u32) -> (Record, Pixel) {
    let (n, m) = (random.between(-9, 9), random.between(-6, 6));
    let mut record = with_edges(random, n, m, 2, 2);
    (record.nul, record.nll) = (20, 20 + random.below(200) as u64);
    (record.nls, record.nus) = (30, 30 + random.below(200) as u64);
    let row = random.between(record.nul as i64, record.nll as i64);
    let column = random.between(record.nls as i64, record.nus as i64);
    let pixels = match state {
        0 => [Pixel { row, column }; 4],
        13 => {
            [(0, 0), (row, 29), (19, column), (255, 255)].map(|(row, column)| Pixel { row, column })
        }
        _ => [(-1, 0), (row, 256), (i64::MAX, column), (0, i64::MIN)]
            .map(|(row, column)| Pixel { row, column }),
    };
    assert!(rule::lay_out(series, &record, 98).is_ok(), "{series:?} {record:?}");
    (record, random.pick(&pixels))
}

/// The pixel of a card, all chart, at a position.
fn found_in(series: Series, record: &Record, there: Position) -> Option<Pixel> {
    let all = all_chart(record.n, record.m, record.nfl, record.nfc, record.tif);
    let read = rule::read(series, &card(series, &all)).expect("an accepted card");
    rule::pixel(Pair::Corner, &read, there).ok().map(|told| told.value)
}

/// An overview's record that gives this state at a position.
fn overview_at(random: &mut Random, series: Series, there: Position, state: u32) -> Record {
    let place = place_at(series, there);
    let side = (rule::non_polar(series).expect("a spacing").0 / 256) as i64;
    let n = -(-place.row).div_euclid(128) + 1;
    let mut m = place.column.div_euclid(128) - 1;
    if m > side {
        m -= 2 * side;
    }
    let mut record = all_chart(n, m, 3, 3, random.once_in(2));
    let found = found_in(series, &record, there).expect("the middle tile has it");
    match state {
        13 if random.once_in(2) => record.nul = found.row as u64 + 1,
        13 => record.nus = found.column as u64 - 1,
        12 if random.once_in(2) => record.n -= 3,
        12 => record.m += if record.m > 0 { -3 } else { 3 },
        _ => (),
    }
    record
}

/// The position of a pixel of the tiles, padding or not; any for a pixel outside.
fn anywhere(series: Series, record: &Record, pixel: Pixel) -> Position {
    let all = all_chart(record.n, record.m, record.nfl, record.nfc, record.tif);
    let read = rule::read(series, &card(series, &all)).expect("an accepted card");
    or_zero(rule::position(Pair::Corner, &read, pixel))
}

/// One call with these sets of faults and these states; the first refusal in order is given.
fn ask_case(ask: &mut Ask, random: &mut Random, sets: (usize, usize), states: (u32, u32)) {
    let (mut series, mut over_series) = (overview(random), overview(random));
    if random.once_in(2) {
        series.factor = 1;
        over_series = Series { factor: 2, ..series };
        over_series.scale = over_series.scale.min(10_000_000);
    }
    let (record, pixel) = chart_and_pixel(random, series, states.0);
    let there = anywhere(series, &record, pixel);
    let over_record = overview_at(random, over_series, there, states.1);
    let mut chart_card = card(series, &record);
    let mut over_card = card(over_series, &over_record);
    spoil_all(random, sets.0, &mut series, &mut chart_card);
    spoil_all(random, sets.1, &mut over_series, &mut over_card);
    let first = |set: usize| (set > 0).then(|| FAULTS[set.trailing_zeros() as usize]);
    let state = |number: u32| (number > 0).then_some((number, 0));
    let right = first(sets.0).or(first(sets.1)).or(state(states.0)).or(state(states.1));
    let chart = Sheet { series, card: &chart_card };
    let overview = Sheet { series: over_series, card: &over_card };
    let found = ask.overview_pixel(&chart, &overview, pixel);
    let found = found.err().map(|refusal| (refusal.number, refusal.at));
    assert_eq!(found, right, "{series:?} {over_series:?} {sets:?} {states:?}");
}

/// One fault or none in each card, with every state of the two pixels.
#[test]
fn every_order() {
    let mut random = seeded("every_order");
    let mut ask = Ask::default();
    let singles = || (0..FAULTS.len()).map(|fault| 1 << fault).chain([0]);
    for chart in singles() {
        for overview in singles() {
            for in_chart in STATES {
                for in_overview in STATES {
                    for _ in 0..20 {
                        let (sets, states) = ((chart, overview), (in_chart, in_overview));
                        ask_case(&mut ask, &mut random, sets, states);
                    }
                }
            }
        }
    }
    ask.met("overview_pixel", &[0, 1, 2, 3, 6, 7, 8, 9, 10, 11, 12, 13, 17]);
    ask.met_at("overview_pixel", 7, &[44]);
    ask.met_at("overview_pixel", 8, &[0, 97]);
}

/// A set of faults that a call can have, without the first few; none once in four.
fn some_set(random: &mut Random) -> usize {
    let later = usize::MAX << random.below(FAULTS.len());
    let set = random.below(1 << FAULTS.len()) & later;
    if random.once_in(4) || !compatible(set) {
        return 0;
    }
    set
}

/// Many faults in each card: the chart's first one, and where it has none the overview's.
#[test]
fn many_faults() {
    let mut random = seeded("many_faults");
    let mut ask = Ask::default();
    for _ in 0..60_000 {
        let sets = (some_set(&mut random), some_set(&mut random));
        let states = (random.pick(&STATES), random.pick(&STATES));
        ask_case(&mut ask, &mut random, sets, states);
    }
    ask.met("overview_pixel", &[0, 1, 2, 3, 6, 7, 8, 9, 10, 11, 12, 13, 17]);
}

/// The states with no fault: each is met, the chart's before the overview's.
#[test]
fn states() {
    let mut random = seeded("states");
    let mut ask = Ask::default();
    for in_chart in STATES {
        for in_overview in STATES {
            for _ in 0..3_000 {
                ask_case(&mut ask, &mut random, (0, 0), (in_chart, in_overview));
            }
        }
    }
    ask.met("overview_pixel", &[0, 12, 13]);
}

/// A chart read with its overview's factor, or the other way round, is 9 before any pixel.
#[test]
fn exchanged_factors() {
    let mut random = seeded("exchanged_factors");
    let mut ask = Ask::default();
    for _ in 0..20_000 {
        let over_series = overview(&mut random);
        let series = Series { factor: 1, ..over_series };
        let (record, pixel) = chart_and_pixel(&mut random, series, 0);
        let there = anywhere(series, &record, pixel);
        let over_record = overview_at(&mut random, over_series, there, 0);
        let (chart_card, over_card) = (card(series, &record), card(over_series, &over_record));
        let (one, two) = (random.pick(&[series, over_series]), random.pick(&[series, over_series]));
        let chart = Sheet { series: one, card: &chart_card };
        let overview = Sheet { series: two, card: &over_card };
        let outside = Pixel { row: -1, column: 0 };
        let asked = random.pick(&[pixel, outside]);
        let found = ask.overview_pixel(&chart, &overview, asked).map_err(|r| r.number);
        let right = match (one, two) == (series, over_series) {
            false => Some(9),
            true => (asked == outside).then_some(12),
        };
        assert_eq!(found.err(), right, "{one:?} {two:?}");
    }
    ask.met("overview_pixel", &[0, 9, 12]);
}
