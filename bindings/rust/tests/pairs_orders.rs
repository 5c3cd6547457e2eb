//! The order of the refusals in both pairs (02, E8): reading's, then 4, 5, then 12 or 13.

use crate::{rule, support};
use fordcask::{Pixel, Position, Record, Refusal, Series, Sheet};
use support::make::{all_chart, card};
use support::{no_blanks, PAIRS};

/// A refusal, where there is one.
type Fault = Option<Refusal>;

/// A refusal of this number and place where it is there.
fn fault(there: bool, number: u32, at: u64) -> Fault {
    there.then_some(Refusal { number, at })
}

/// A card of 2 by 2 tiles, its chart inside them, and pixels of the chart, padding and outside.
fn with_padding() -> (Record, [(Fault, Pixel); 3]) {
    let mut record = all_chart(9, -3, 2, 2, false);
    (record.nul, record.nll, record.nls, record.nus) = (20, 200, 30, 220);
    let at = |row, column| Pixel { row, column };
    let states = [
        (None, at(100, 100)),
        (fault(true, 13, 0), at(100, 240)),
        // a pixel of the grid, but not of the tiles
        (fault(true, 12, 0), at(300, 100)),
    ];
    (record, states)
}

/// Each refusal with every set of those that come after it.
#[test]
fn orders() {
    let (record, states) = with_padding();
    for (scale, factor) in [(5_000, 1), (9_999, 64), (1_000_000, 1), (20_000_000, 1), (312_500, 64)]
    {
        let series = Series { scale, factor, zone: 12 };
        let good = card(series, &record);
        let all = all_chart(9, -3, 3, 3, false);
        let wide = rule::read(series, &card(series, &all)).expect("a card");
        let mut bad = good.clone();
        bad[44] = b'x';
        for (pair, (state, asked)) in PAIRS.into_iter().flat_map(|p| states.map(|s| (p, s))) {
            let there = rule::position(pair, &wide, asked).expect("a pixel of the wider card");
            let there = there.value;
            for set in 0..8 {
                let has = |bit: u32| set >> bit & 1 == 1;
                let sheet = Sheet { series, card: if has(0) { &bad } else { &good } };
                let lat = if has(1) { 32_400_001 } else { there.lat };
                let lon = if has(2) { -64_800_001 } else { there.lon };
                let reading = fault(has(0), 7, 44);
                let range = fault(has(1), 4, 0).or(fault(has(2), 5, 0));
                let found = sheet.pixel_in(pair, Position { lat, lon });
                let right = reading.or(range).or(state);
                let right = right.map_or(Ok(no_blanks(asked)), Err);
                assert_eq!(found, right, "{pair:?} {series:?} {set}");
                let found = sheet.position_in(pair, asked);
                let right = reading.or(state);
                let right = right.map_or(Ok(no_blanks(there)), Err);
                assert_eq!(found, right, "{pair:?} {series:?} {set}");
            }
        }
    }
}
