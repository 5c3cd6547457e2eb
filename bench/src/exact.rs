//! The exact form without division for each pixel: fixed point with 36 binary places, u64 only.
//! Angles and rows are shifted so that nothing is negative.

use crate::plain::grid::{answer_list, in_range, inward, Found};
use crate::plain::read::read_card;
use crate::plain::{Card, Refusal, H};
use fordcask::Series;

const BITS: u32 = 36;
/// H / 256.
const UNIT: u64 = 506_250;
const CIRCLE: u64 = H as u64;

/// Pixel to position: latitude + H / 4 and longitude + H / 2.
struct Grid {
    card: Card,
    north: u64,
    row_rate: u64,
    row_start: u64,
    east: u64,
    column_rate: u64,
    column_start: u64,
}

impl Grid {
    fn new(card: Card, centre: bool) -> Grid {
        let shift = inward(centre) as u64 / 256;
        let (a2, b2) = (card.a as u64 / 256, card.b as u64 / 256);
        let north = UNIT * (128 * card.n + card.b / 4) as u64 + b2 / 2 - shift;
        let east = UNIT * (128 * card.m + card.a / 2) as u64 + a2 / 2 + shift;
        let rate = |spacing: u64| (UNIT << BITS).div_ceil(spacing);
        let start = |rest: u64, spacing: u64| (rest << BITS).div_ceil(spacing);
        Grid {
            card,
            north: north / b2,
            row_rate: rate(b2),
            row_start: start(b2 - 1 - north % b2, b2),
            east: east / a2,
            column_rate: rate(a2),
            column_start: start(east % a2, a2),
        }
    }

    fn position(&self, row: i64, column: i64) -> Result<Found, u32> {
        self.card.bounds(row, column)?;
        let south = (row as u64 * self.row_rate + self.row_start) >> BITS;
        let east = (column as u64 * self.column_rate + self.column_start) >> BITS;
        let lon = self.east + east;
        let lon = if lon >= CIRCLE { lon - CIRCLE } else { lon };
        Ok(((self.north - south) as i64 - H / 4, lon as i64 - H / 2))
    }
}

/// Position to pixel: the division is by the constant UNIT only.
struct Inverse {
    card: Card,
    a2: u64,
    b2: u64,
    row_base: u64,
    column_base: u64,
}

impl Inverse {
    fn new(card: Card, centre: bool) -> Inverse {
        let up = (H / 2 - inward(centre)) as u64 / 256;
        Inverse {
            card,
            a2: card.a as u64 / 256,
            b2: card.b as u64 / 256,
            row_base: UNIT * (128 * card.n + card.b / 4 * 3) as u64 + up,
            column_base: UNIT * (card.a / 2 - 128 * card.m) as u64 + up,
        }
    }

    fn pixel(&self, lat: i64, lon: i64) -> Result<Found, u32> {
        in_range(lat, lon)?;
        let (lat, lon) = ((lat + H / 4) as u64, (lon + H / 2) as u64);
        let row = ((self.row_base - self.b2 * lat) / UNIT) as i64 - self.card.b / 2;
        let less = |column: i64| {
            if column >= self.card.a {
                column - self.card.a
            } else {
                column
            }
        };
        let column = less(less(((self.a2 * lon + self.column_base) / UNIT) as i64));
        self.card.bounds(row, column)?;
        Ok((row, column))
    }
}

#[inline(never)]
pub fn positions<const CENTRE: bool>(
    series: Series,
    card: &[u8],
    pixels: &[i64],
    positions: &mut [i64],
    numbers: &mut [u32],
) -> Result<(), Refusal> {
    let grid = Grid::new(read_card(series, card)?, CENTRE);
    answer_list(pixels, positions, numbers, |row, column| {
        grid.position(row, column)
    })
}

#[inline(never)]
pub fn pixels<const CENTRE: bool>(
    series: Series,
    card: &[u8],
    positions: &[i64],
    pixels: &mut [i64],
    numbers: &mut [u32],
) -> Result<(), Refusal> {
    let inverse = Inverse::new(read_card(series, card)?, CENTRE);
    answer_list(positions, pixels, numbers, |lat, lon| {
        inverse.pixel(lat, lon)
    })
}
