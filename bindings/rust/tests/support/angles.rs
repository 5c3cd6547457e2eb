//! Latitudes and longitudes to ask about.

use super::make::around;
use super::random::Random;
use super::SIGNED_ENDS;
use crate::rule;

/// Each zone limit, both poles and both ends of i64, with neighbours.
pub fn latitudes() -> Vec<i64> {
    let mut all = SIGNED_ENDS.to_vec();
    for (_, (from, to), _) in rule::LIMITS {
        for degree in [from as i64, to as i64] {
            all.extend([360_000 * degree, -360_000 * degree]);
        }
    }
    around(&all)
}

/// Where the cover of each zone ends at a scale, both hemispheres, with neighbours.
pub fn cover_ends(scale: u64) -> Vec<i64> {
    let b = rule::constant_at(782, scale);
    let reach = (1024 * rule::H / b) as i64;
    let mut all = Vec::new();
    for (_, (_, to), _) in rule::LIMITS {
        for lat in [360_000 * to as i64 + reach, 360_000 * to as i64 + reach + 1] {
            all.extend([lat, -lat]);
        }
    }
    around(&all)
}

/// Both ends of the range, half way, whole circles and both ends of i64, with neighbours.
pub fn longitudes() -> Vec<i64> {
    let mut all = SIGNED_ENDS.to_vec();
    all.extend([-129_600_000, -64_800_000, -32_400_000]);
    all.extend([32_400_000, 64_800_000, 129_600_000]);
    around(&all)
}

/// Any latitude, at the ends of the range or outside it once in a while.
pub fn any_latitude(random: &mut Random) -> i64 {
    match random.below(8) {
        0 => random.next() as i64,
        1 => random.between(-32_400_010, -32_399_990),
        2 => random.between(32_399_990, 32_400_010),
        _ => random.between(-32_400_000, 32_400_000),
    }
}

/// Any longitude, at the ends of the range or outside it once in a while.
pub fn any_longitude(random: &mut Random) -> i64 {
    match random.below(8) {
        0 => random.next() as i64,
        1 => random.between(-64_800_010, -64_799_990),
        2 => random.between(64_799_990, 64_800_010),
        _ => random.between(-64_800_000, 64_800_000),
    }
}
