use crate::raw;
use crate::refusal::{answer, Refusal};
use crate::series::Series;

/// The pixel spacing constants A (along a parallel) and B (along a meridian): pixels in the circle.
#[derive(Clone, Copy, Debug, PartialEq, Eq)]
pub struct Spacing {
    /// A, a multiple of 512.
    pub a: u64,
    /// B, a multiple of 512.
    pub b: u64,
}

/// An origin on the tile grid and the angles a card stores for it.
#[derive(Clone, Copy, Debug, PartialEq, Eq)]
pub struct Origin {
    /// Tiles north of the Equator, -B/512 to B/512.
    pub n: i64,
    /// Tiles east of the zero meridian, -A/256 to A/256.
    pub m: i64,
    /// The stored latitude, hundredths of an arc-second.
    pub pso: i64,
    /// The stored longitude, hundredths of an arc-second.
    pub lso: i64,
}

/// A list of zone numbers, at most N of them.
#[derive(Clone, Copy, Debug, PartialEq, Eq)]
pub struct Zones<const N: usize> {
    zones: [u64; N],
    length: usize,
}

/// The zones covering a latitude, at most 6: the basic zone first, then equatorward.
pub type Cover = Zones<6>;

/// The zones of a rectangle, at most 18, in ascending number.
pub type Rectangle = Zones<18>;

impl<const N: usize> Zones<N> {
    /// The zone numbers in their order.
    pub fn as_slice(&self) -> &[u64] {
        &self.zones[..self.length]
    }
}

/// A and B of a zone, 1 to 18, at scale 1:(S × k). Refuses 1, 17, 1, 2.
pub fn spacing(series: Series) -> Result<Spacing, Refusal> {
    let given = raw::fordcask_spacing(series);
    let value = Spacing { a: given.a, b: given.b };
    answer(given.number, given.at, value)
}

/// The basic zone, 1 to 18, of a latitude in hundredths of an arc-second. Refuses 4.
pub fn basic_zone(lat: i64) -> Result<u64, Refusal> {
    let given = raw::fordcask_basic_zone(lat);
    answer(given.number, given.at, given.zone)
}

/// The zones covering a latitude at scale 1:(S × k). Refuses 1, 17, 1, 4.
pub fn cover(scale: u64, factor: u64, lat: i64) -> Result<Cover, Refusal> {
    let given = raw::fordcask_cover(scale, factor, lat);
    let value = Zones { zones: given.zones, length: given.length as usize };
    answer(given.number, given.at, value)
}

/// The zones that share a stretch of latitude of more than zero height with `south` to `north`, a
/// zone's overlap belonging to it, at scale 1:(S × k); in ascending number. Refuses 1, 17, 1, 4, 16.
pub fn rectangle(scale: u64, factor: u64, south: i64, north: i64) -> Result<Rectangle, Refusal> {
    let given = raw::fordcask_rectangle(scale, factor, south, north);
    let value = Zones { zones: given.zones, length: given.length as usize };
    answer(given.number, given.at, value)
}

/// The origin of a card with this upper left point, in hundredths. Refuses 1, 24, 17, 1, 2, 3, 4, 5.
pub fn align(series: Series, lat: i64, lon: i64) -> Result<Origin, Refusal> {
    let given = raw::fordcask_align(series, lat, lon);
    let value = Origin { n: given.n, m: given.m, pso: given.pso, lso: given.lso };
    answer(given.number, given.at, value)
}
