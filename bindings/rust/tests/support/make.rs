//! Scales, factors, zones, records and pixels to ask about.

use super::random::Random;
use super::WORKED;
use crate::rule;
use fordcask::{Pixel, Record, Series};

/// The ends of each band of scales.
pub const SCALE_BANDS: [(i64, i64); 6] = [
    (5_000, 9_999),
    (10_000, 99_999),
    (100_000, 999_999),
    (1_000_000, 4_999_999),
    (5_000_000, 9_999_999),
    (10_000_000, 20_000_000),
];

/// Both ends, those of the town scales, the scales of 001's tables, and ties or exact quotients.
pub const SCALES: [u64; 20] = [
    5_000, 5_001, 9_999, 10_000, 10_001, 50_000, 75_000, 100_000, 250_000, 500_000, 625_600,
    640_000, 782_000, 1_000_000, 1_250_000, 2_000_000, 3_060_000, 5_000_000, 17_772_728,
    20_000_000,
];

/// A maker of what is stated beside a card, for conversions.
pub type Maker = fn(&mut Random) -> Series;

/// Scales and zones that are refused.
pub const BAD_SCALES: [u64; 8] =
    [0, 1, 4_999, 20_000_001, 5_000 + (1 << 32), 1 << 63, u64::MAX - 1, u64::MAX];
pub const BAD_ZONES: [u64; 8] =
    [0, 19, 20, 256 + 1, 1 + (1 << 32), 1 << 63, u64::MAX - 1, u64::MAX];

/// Factors that are refused (02, E4).
pub const BAD_FACTORS: [u64; 8] =
    [0, 65, 66, 256 + 1, 1 + (1 << 32), 1 << 63, u64::MAX - 1, u64::MAX];

/// Every zone that has conversions.
pub const ZONES: [u64; 16] = [1, 2, 3, 4, 5, 6, 7, 8, 10, 11, 12, 13, 14, 15, 16, 17];

/// A scale of a random band, or one of the named ones.
pub fn scale(random: &mut Random) -> u64 {
    if random.once_in(4) {
        return random.pick(&SCALES);
    }
    let (low, high) = random.pick(&SCALE_BANDS);
    random.between(low, high) as u64
}

/// A town scale, an end in half of the cases (02, E13).
pub fn town_scale(random: &mut Random) -> u64 {
    toward_ends(random, 5_000, 9_999) as u64
}

/// A chart of any scale, its factor 1.
pub fn chart(random: &mut Random) -> Series {
    Series::chart(scale(random), random.pick(&ZONES))
}

/// A chart of a town scale.
pub fn town_chart(random: &mut Random) -> Series {
    Series::chart(town_scale(random), random.pick(&ZONES))
}

/// An overview of a factor above 1, the largest that its scale allows in many cases (02, E4).
pub fn overview(random: &mut Random) -> Series {
    let zone = random.pick(&ZONES);
    if random.once_in(2) {
        let factor = toward_ends(random, 2, 64);
        let scale = toward_ends(random, 5_000, 20_000_000 / factor) as u64;
        return Series { scale, factor: factor as u64, zone };
    }
    let scale = scale(random).min(10_000_000);
    let most = (20_000_000 / scale).min(64) as i64;
    Series { scale, factor: toward_ends(random, 2, most) as u64, zone }
}

/// An overview of a town scale (02, E4 and E13).
pub fn town_overview(random: &mut Random) -> Series {
    let factor = toward_ends(random, 2, 64) as u64;
    Series { factor, ..town_chart(random) }
}

/// A good BAD.
pub fn name(random: &mut Random) -> [u8; 12] {
    let letters = b"ABCDEFGHIJKLMNOPQRSTUVWXYZ0123456789";
    let mut name = [0; 12];
    for byte in &mut name {
        *byte = random.pick(letters);
    }
    name[8] = b'.';
    name
}

/// A number from low to high, an end in half of the cases.
pub fn toward_ends(random: &mut Random, low: i64, high: i64) -> i64 {
    match random.below(4) {
        0 => low,
        1 => high,
        _ => random.between(low, high),
    }
}

/// Edges of a chart in `pixels` pixels: first and last, ascending.
fn edges(random: &mut Random, pixels: i64) -> (u64, u64) {
    let first = toward_ends(random, 0, pixels - 1);
    let last = toward_ends(random, first, pixels - 1);
    (first as u64, last as u64)
}

/// A record that every check accepts, with at most `most` tiles down and across.
pub fn record(random: &mut Random, series: Series, most: i64) -> Record {
    let (a, b) = rule::non_polar(series).expect("a scale, a factor and a non-polar zone");
    let (south, across) = ((b / 512) as i64, (a / 128) as i64);
    let n = match random.below(4) {
        0 => random.between(-south + 1, (-south + 4).min(south)),
        1 => random.between((south - 2).max(-south + 1), south),
        _ => random.between(-south + 1, south),
    };
    let m = match random.below(8) {
        0 => -2 * (a / 512) as i64,
        1 => 2 * (a / 512) as i64,
        2 => random.between(-2, 2),
        _ => random.between(-(a / 256) as i64, (a / 256) as i64),
    };
    let nfl = toward_ends(random, 1, (n + south).min(most).min(999));
    let nfc = toward_ends(random, 1, across.min(most).min(999));
    with_edges(random, n, m, nfl, nfc)
}

/// A record of this origin and these tiles, its chart edges random.
pub fn with_edges(random: &mut Random, n: i64, m: i64, nfl: i64, nfc: i64) -> Record {
    let (nul, nll) = edges(random, 128 * nfl);
    let (nls, nus) = edges(random, 128 * nfc);
    Record {
        n,
        m,
        nul,
        nus,
        nll,
        nls,
        nfl: nfl as u64,
        nfc: nfc as u64,
        bad: name(random),
        tif: random.once_in(2),
    }
}

/// A record of this origin and these tiles, all chart.
pub fn all_chart(n: i64, m: i64, nfl: u64, nfc: u64, tif: bool) -> Record {
    Record {
        n,
        m,
        nul: 0,
        nus: 128 * nfc - 1,
        nll: 128 * nfl - 1,
        nls: 0,
        nfl,
        nfc,
        bad: *b"BASE0101.IMG",
        tif,
    }
}

/// The bytes of a good record at any scale, laid out by the rule and not by the library.
pub fn card(series: Series, record: &Record) -> Vec<u8> {
    let laid_out = rule::lay_out(series, record, rule::CARD);
    laid_out.unwrap_or_else(|refusal| panic!("{refusal}: {series:?} {record:?}"))
}

/// Rows at each edge of chart and tiles, one inside and one outside.
pub fn edge_rows(record: &Record) -> Vec<i64> {
    let end = 128 * record.nfl as i64;
    around(&[0, 128, end - 128, end, record.nul as i64, record.nll as i64])
}

/// Columns at each edge of chart and tiles, one inside and one outside.
pub fn edge_columns(record: &Record) -> Vec<i64> {
    let end = 128 * record.nfc as i64;
    around(&[0, 128, end - 128, end, record.nls as i64, record.nus as i64])
}

/// Each number with both its neighbours, in order and once.
pub fn around(numbers: &[i64]) -> Vec<i64> {
    let mut all: Vec<i64> =
        numbers.iter().flat_map(|x| [x.saturating_sub(1), *x, x.saturating_add(1)]).collect();
    all.sort_unstable();
    all.dedup();
    all
}

/// A pixel of the tiles, of their edges or outside them.
pub fn pixel(random: &mut Random, record: &Record) -> Pixel {
    let (rows, columns) = (128 * record.nfl as i64, 128 * record.nfc as i64);
    let row = match random.below(4) {
        0 => random.pick(&edge_rows(record)),
        _ => random.between(record.nul as i64, record.nll as i64),
    };
    let column = match random.below(4) {
        0 => random.pick(&edge_columns(record)),
        _ => random.between(record.nls as i64, record.nus as i64),
    };
    match random.below(6) {
        0 => Pixel { row: random.between(-3, rows + 3), column: random.between(-3, columns + 3) },
        _ => Pixel { row, column },
    }
}

/// Each of the 98 × 255 cards that differ from the worked one in one byte.
pub fn changes() -> impl Iterator<Item = Vec<u8>> {
    changes_of(WORKED)
}

/// Each of the 98 × 255 cards that differ from this one in one byte.
pub fn changes_of(good: &[u8]) -> impl Iterator<Item = Vec<u8>> + '_ {
    (0..98).flat_map(move |at| {
        (0..=255).filter_map(move |byte| {
            let mut card = good.to_vec();
            card[at] = byte;
            (byte != good[at]).then_some(card)
        })
    })
}
