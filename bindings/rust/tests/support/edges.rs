//! Scales, factors and products on both sides of each edge, and what they give (02, E4).

use fordcask::Series;

/// Both sides of each end, and numbers that would be good scales if fewer bits were kept.
pub const SCALE_EDGES: [u64; 26] = [
    0,
    1,
    4_999,
    5_000,
    5_001,
    9_998,
    9_999,
    10_000,
    10_001,
    312_499,
    312_500,
    312_501,
    317_460,
    317_461,
    10_000_000,
    10_000_001,
    19_999_999,
    20_000_000,
    20_000_001,
    5_000 + (1 << 32),
    // times 64 this is 64,000 if 64 bits are kept
    1_000 + (1 << 58),
    312_500 + (1 << 58),
    // times 2 this is 1,000,000 if 64 bits are kept
    500_000 + (1 << 63),
    1 << 63,
    u64::MAX - 4_999,
    u64::MAX,
];

/// Both sides of each end, and numbers that would be good factors if fewer bits were kept.
pub const FACTOR_EDGES: [u64; 20] = [
    0,
    1,
    2,
    3,
    32,
    63,
    64,
    65,
    66,
    128,
    256,
    257,
    1 + (1 << 16),
    2 + (1 << 32),
    // times 5,000, and times 312,500, these are that number again if 64 bits are kept
    1 + (1 << 61),
    1 + (1 << 62),
    1 << 63,
    64 + (1 << 63),
    u64::MAX - 1,
    u64::MAX,
];

/// The greatest scale that a factor of 1 to 64 allows.
pub fn greatest_scale(factor: u64) -> u64 {
    20_000_000 / factor
}

/// The scales to ask at a factor: those above, both sides of the greatest it allows, and the one
/// of the product 1,000,000.
pub fn scales_at(factor: u64) -> Vec<u64> {
    let mut all = SCALE_EDGES.to_vec();
    if (1..=64).contains(&factor) {
        let greatest = greatest_scale(factor);
        all.extend([greatest - 1, greatest, greatest + 1]);
        if 1_000_000 % factor == 0 {
            all.push(1_000_000 / factor);
        }
    }
    all
}

/// What scale and factor alone give; 0 is an answer. 24 comes where cards are printed (02, E13).
pub fn of_scale(scale: u64, factor: u64, printed: bool) -> u32 {
    match (scale, factor) {
        (0..=4_999 | 20_000_001.., _) => 1,
        (5_000..=9_999, _) if printed => 24,
        (_, 0 | 65..) => 17,
        (_, _) if scale > 20_000_000 / factor => 1,
        _ => 0,
    }
}

/// What the zone alone gives in the questions that need a non-polar one.
pub fn of_zone(zone: u64) -> u32 {
    match zone {
        9 | 18 => 3,
        1..=18 => 0,
        _ => 2,
    }
}

/// What is stated beside a card, in reading.
pub fn of_series(series: Series) -> u32 {
    first(&[of_scale(series.scale, series.factor, false), of_zone(series.zone)])
}

/// The first number that is not 0.
pub fn first(numbers: &[u32]) -> u32 {
    numbers.iter().copied().find(|number| *number != 0).unwrap_or(0)
}
