//! The plain rule: document 01, with E1, E2, E4, E8 and E13 of 02, in straightforward Rust with division.

use fordcask::Series;

pub mod bits;
pub mod corrections;
pub mod grid;
pub mod read;
pub mod tiles;
pub mod write;

/// The circle in hundredths of an arc-second.
pub const H: i64 = 129_600_000;

/// Length of a card and of a stored tile, in bytes.
pub const CARD: usize = 98;
pub const TILE: usize = 49_152;

/// A refusal's number and place.
#[derive(Clone, Copy, PartialEq, Debug)]
pub struct Refusal {
    pub number: u32,
    pub at: u64,
}

pub fn refuse<T>(number: u32, at: u64) -> Result<T, Refusal> {
    Err(Refusal { number, at })
}

/// An accepted card.
#[derive(Clone, Copy, PartialEq, Debug)]
pub struct Card {
    pub a: i64,
    pub b: i64,
    pub n: i64,
    pub m: i64,
    pub nul: i64,
    pub nus: i64,
    pub nll: i64,
    pub nls: i64,
    pub nfl: i64,
    pub nfc: i64,
    pub bad: [u8; 12],
    pub tif: bool,
    /// The total of blanks before the digits of its numbers (02, E2).
    pub blanks: u64,
}

/// What is to be written; the numbers are the caller's and may be anything.
#[derive(Clone, Copy, PartialEq, Debug)]
pub struct Record {
    pub n: i64,
    pub m: i64,
    pub nul: u64,
    pub nus: u64,
    pub nll: u64,
    pub nls: u64,
    pub nfl: u64,
    pub nfc: u64,
    pub bad: [u8; 12],
    pub tif: bool,
}

const UNITS: [i64; 9] = [722, 591, 480, 389, 319, 268, 215, 161, 782];

/// Nearest whole number to x / d, halves upward; d > 0.
pub fn nearest(x: i64, d: i64) -> i64 {
    (2 * x + d).div_euclid(2 * d)
}

/// A and B of a non-polar zone: refusals 1, 17, 1, 2, 3.
pub fn spacing(series: Series) -> Result<(i64, i64), Refusal> {
    let Series {
        scale,
        factor,
        zone,
    } = series;
    if !(5_000..=20_000_000).contains(&scale) {
        return refuse(1, 0);
    }
    if !(1..=64).contains(&factor) {
        return refuse(17, 0);
    }
    if scale * factor > 20_000_000 {
        return refuse(1, 0);
    }
    if !(1..=18).contains(&zone) {
        return refuse(2, 0);
    }
    if zone == 9 || zone == 18 {
        return refuse(3, 0);
    }
    let scale = (scale * factor) as i64;
    let unit = UNITS[((zone - 1) % 9) as usize];
    let size = |unit: i64| 512 * ((unit * 1_000_000 + scale - 1) / scale);
    Ok((size(unit), size(782)))
}

/// Stored angles of the origin: PSO and LSO.
pub fn stored(n: i64, m: i64, a: i64, b: i64) -> (i64, i64) {
    (nearest(128 * n * H, b), nearest(128 * m * H, a))
}
