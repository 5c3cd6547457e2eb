//! Cards round a whole parallel, compared with the rule.

use crate::{rule, support};
use fordcask::{Pixel, Position, Series, Sheet};
use support::make::{all_chart, card};
use support::Ask;

/// A card round the whole parallel: every column, and +180 and -180 give one column.
#[test]
fn whole_parallel() {
    let mut ask = Ask::default();
    for (zone, nfc) in [(1, 148), (2, 120), (8, 36), (17, 36)] {
        let series = Series::chart(20_000_000, zone);
        let (a, _) = rule::non_polar(series).expect("a spacing");
        assert_eq!(a, 128 * nfc as i128, "tiles round the parallel");
        let side = nfc / 2;
        for m in [-side, 1 - side, -1, 0, 1, side - 1, side] {
            let record = all_chart(1, m, 1, nfc as u64, false);
            let card = card(series, &record);
            let sheet = Sheet { series, card: &card };
            for column in -1..=128 * nfc {
                ask.there_and_back(&sheet, Pixel { row: 5, column });
            }
            let east = ask.pixel(&sheet, Position { lat: 1000, lon: 64_800_000 });
            let west = ask.pixel(&sheet, Position { lat: 1000, lon: -64_800_000 });
            assert_eq!(east, west, "+180 and -180");
        }
    }
    ask.met("position", &[0, 12]);
}
