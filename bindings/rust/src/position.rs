use std::mem::{align_of, size_of};

use crate::raw;
use crate::refusal::{answer, Refusal};

/// A position in hundredths of an arc-second.
#[repr(C)]
#[derive(Clone, Copy, Debug, Default, PartialEq, Eq, Hash)]
pub struct Position {
    /// Latitude, -32,400,000 to 32,400,000, north positive.
    pub lat: i64,
    /// Longitude, -64,800,000 to 64,800,000, east positive.
    pub lon: i64,
}

/// A pixel of an image; row 0 is the top and column 0 the left.
#[repr(C)]
#[derive(Clone, Copy, Debug, Default, PartialEq, Eq, Hash)]
pub struct Pixel {
    /// Row, 0 to 128 × NFL - 1 inside the tiles.
    pub row: i64,
    /// Column, 0 to 128 × NFC - 1 inside the tiles.
    pub column: i64,
}

/// A place of the zone grid: pixels with one place are one point, on cards of one scale, factor
/// and zone.
#[derive(Clone, Copy, Debug, PartialEq, Eq, Hash)]
pub struct Place {
    /// Rows north of the Equator, negative to the south.
    pub row: i64,
    /// Columns east of the zero meridian, 0 to A - 1.
    pub column: i64,
}

/// A position's offset from a centre: whole hundredths of an arc-second, exact.
#[derive(Clone, Copy, Debug, PartialEq)]
pub struct Offset {
    /// Latitude difference, position minus centre.
    pub lat: f64,
    /// Longitude difference the short way, -64,800,000 up to but not including 64,800,000.
    pub lon: f64,
}

/// The offset of a position from a centre. Refuses 4, 5 for the position, then 4, 5 for the centre.
pub fn offset(position: Position, centre: Position) -> Result<Offset, Refusal> {
    let given = raw::fordcask_offset(position.lat, position.lon, centre.lat, centre.lon);
    let value = Offset { lat: given.lat, lon: given.lon };
    answer(given.number, given.at, value)
}

// Both are lent to the library as two i64 each.
const _: () = assert!(size_of::<Position>() == 2 * size_of::<i64>());
const _: () = assert!(align_of::<Position>() == align_of::<i64>());
const _: () = assert!(size_of::<Pixel>() == 2 * size_of::<i64>());
const _: () = assert!(align_of::<Pixel>() == align_of::<i64>());
