//! (01, "Units and the zone table"; 02, E3, E4, E5 and E13)

use super::{refuse, Answer, H, LAT_END};
use fordcask::{Series, Spacing};

const DEGREE: i128 = 360_000;
const B_UNIT: i128 = 782;

/// The northern and the southern zone, from and to degree, A / 512 (02, E5).
pub type Row = ((u64, u64), (i128, i128), i128);

/// The one table, as 01 prints it (02, E5).
pub const LIMITS: [Row; 9] = [
    ((1, 10), (0, 32), 722),
    ((2, 11), (32, 48), 591),
    ((3, 12), (48, 56), 480),
    ((4, 13), (56, 64), 389),
    ((5, 14), (64, 68), 319),
    ((6, 15), (68, 72), 268),
    ((7, 16), (72, 76), 215),
    ((8, 17), (76, 80), 161),
    ((9, 18), (80, 90), 782),
];

/// The limits and the unit of the row that names a zone (01, "Units and the zone table").
fn limits(zone: u64) -> (i128, i128, i128) {
    for ((north, south), (from, to), unit) in LIMITS {
        if zone == north || zone == south {
            return (from * DEGREE, to * DEGREE, unit);
        }
    }
    panic!("no row names zone {zone}");
}

fn is_polar(zone: u64) -> bool {
    zone == 9 || zone == 18
}

fn scale_good(scale: u64) -> bool {
    (5_000..=20_000_000).contains(&scale)
}

/// The retired scales, 1:5,000 to 1:9,999 (02, E13).
fn is_town(scale: u64) -> bool {
    (5_000..=9_999).contains(&scale)
}

/// A scale that cards are written and points aligned at: 1, then right after it 24 (02, E13).
pub fn printed(scale: u64) -> Answer<()> {
    if !scale_good(scale) {
        return refuse(1, 0);
    }
    if is_town(scale) {
        return refuse(24, 0);
    }
    Ok(())
}

/// The scale the spacing is read from, S × k: 1, right after it 17, then 1 again (02, E4).
pub fn spacing_scale(scale: u64, factor: u64) -> Answer<u64> {
    if !scale_good(scale) {
        return refuse(1, 0);
    }
    if !(1..=64).contains(&factor) {
        return refuse(17, 0);
    }
    // both are small from here on
    let product = scale as i128 * factor as i128;
    if product > 20_000_000 {
        return refuse(1, 0);
    }
    Ok(product as u64)
}

/// 512 times the smallest whole number not below unit × 1,000,000 / S (001, 3.4.6).
pub fn constant_at(unit: i128, scale: u64) -> i128 {
    let scale = scale as i128;
    let mut whole = unit * 1_000_000 / scale;
    while whole * scale < unit * 1_000_000 {
        whole += 1;
    }
    512 * whole
}

/// Spacing, that of scale 1:(S × k): 1, 17, 1 (02, E4), 2.
pub fn spacing(series: Series) -> Answer<Spacing> {
    let scale = spacing_scale(series.scale, series.factor)?;
    if !(1..=18).contains(&series.zone) {
        return refuse(2, 0);
    }
    let (_, _, unit) = limits(series.zone);
    Ok(Spacing { a: constant_at(unit, scale) as u64, b: constant_at(B_UNIT, scale) as u64 })
}

/// A and B where a non-polar zone is needed: 1, 17, 1 (02, E4), 2, 3.
pub fn non_polar(series: Series) -> Answer<(i128, i128)> {
    let found = spacing(series)?;
    if is_polar(series.zone) {
        return refuse(3, 0);
    }
    Ok((found.a as i128, found.b as i128))
}

fn lat_good(lat: i64) -> bool {
    -LAT_END <= lat as i128 && lat as i128 <= LAT_END
}

/// Latitude 0 is northern, below 0 is southern.
fn same_hemisphere(zone: u64, lat: i128) -> bool {
    (zone <= 9) == (lat >= 0)
}

/// A limit belongs to the poleward row, 90 degrees to the last (02, E5).
fn row_holds((from, to): (i128, i128), size: i128) -> bool {
    let pole = to == 90 && size == 90 * DEGREE;
    (from * DEGREE <= size && size < to * DEGREE) || pole
}

/// The zone of the one row that holds the latitude's size, the southern one below 0 (02, E5).
fn walk(lat: i128) -> u64 {
    let mut found = None;
    for ((north, south), degrees, _) in LIMITS {
        if row_holds(degrees, lat.abs()) {
            assert_eq!(found, None, "one row for {lat}");
            found = Some(if lat < 0 { south } else { north });
        }
    }
    found.expect("a row for each latitude in range")
}

/// Whether a zone covers a latitude: its basic zone, or within 1024 rows poleward (001, 3.3.3).
fn covers(scale: u64, zone: u64, lat: i128) -> bool {
    if zone == walk(lat) {
        return true;
    }
    let (_, poleward, _) = limits(zone);
    let b = constant_at(B_UNIT, scale);
    !is_polar(zone)
        && same_hemisphere(zone, lat)
        && lat.abs() >= poleward
        && (lat.abs() - poleward) * b < 1024 * H
}

/// Basic zone: 4.
pub fn basic_zone(lat: i64) -> Answer<u64> {
    if !lat_good(lat) {
        return refuse(4, 0);
    }
    Ok(walk(lat as i128))
}

/// Cover: 1, 17, 1 (02, E4), 4. Equatorward is downward in number on both sides of the Equator.
pub fn cover(scale: u64, factor: u64, lat: i64) -> Answer<Vec<u64>> {
    let scale = spacing_scale(scale, factor)?;
    let basic = basic_zone(lat)?;
    let zones: Vec<u64> = (1..=18).rev().filter(|z| covers(scale, *z, lat as i128)).collect();
    assert_eq!(zones[0], basic, "the basic zone comes first for {lat}");
    Ok(zones)
}

/// A zone with its overlap, which ends at P + 1024 H / B: south and north end, both times B.
fn stretch(scale: u64, zone: u64) -> (i128, i128) {
    let (from, poleward, _) = limits(zone);
    let b = constant_at(B_UNIT, scale);
    let overlap = if is_polar(zone) { 0 } else { 1024 * H };
    let (near, far) = (from * b, poleward * b + overlap);
    if zone <= 9 {
        (near, far)
    } else {
        (-far, -near)
    }
}

/// Rectangles: 1, 17, 1 (02, E4), south 4, north 4, 16, also when south equals north (02, E3).
/// A zone is listed when it and the rectangle share a stretch of more than zero height.
pub fn rectangle(scale: u64, factor: u64, south: i64, north: i64) -> Answer<Vec<u64>> {
    let scale = spacing_scale(scale, factor)?;
    if !lat_good(south) || !lat_good(north) {
        return refuse(4, 0);
    }
    if south >= north {
        return refuse(16, 0);
    }
    let b = constant_at(B_UNIT, scale);
    let (south, north) = (south as i128 * b, north as i128 * b);
    let shares = |zone: &u64| {
        let (low, high) = stretch(scale, *zone);
        low.max(south) < high.min(north)
    };
    Ok((1..=18).filter(shares).collect())
}
