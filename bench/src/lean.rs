//! The plain rule's division form, written tightly: one division for each answered number, a
//! compare in place of each modulo, and numbers shifted so that nothing is negative.

use crate::plain::grid::{answer_list, in_range, inward, Found};
use crate::plain::read::read_card;
use crate::plain::{Card, Refusal, H};
use fordcask::Series;

/// The common factor of H, A and B that is taken out before division; A / 256 and B / 256 are even.
const CUT: i64 = 256;

/// Pixel to position: latitude + H / 4 and longitude + H / 2.
struct Grid {
    card: Card,
    a: u64,
    b: u64,
    north: i64,
    east: i64,
}

impl Grid {
    fn new(card: Card, centre: bool) -> Grid {
        let shift = inward(centre) / CUT;
        let (a, b) = (card.a / CUT, card.b / CUT);
        Grid {
            card,
            a: a as u64,
            b: b as u64,
            north: (128 * card.n + card.b / 4) * (H / CUT) + b / 2 - shift,
            east: (128 * card.m + card.a / 2) * (H / CUT) + a / 2 + shift,
        }
    }

    fn position(&self, row: i64, column: i64) -> Result<Found, u32> {
        self.card.bounds(row, column)?;
        let lat = (self.north - row * (H / CUT)) as u64 / self.b;
        let lon = ((self.east + column * (H / CUT)) as u64 / self.a) as i64;
        // below 2H, as 128m + c + A / 2 is below 2A
        let lon = if lon >= H { lon - H } else { lon };
        Ok((lat as i64 - H / 4, lon - H / 2))
    }
}

/// Position to pixel: row + B / 2 and column + A; the divisor is the constant H.
struct Inverse {
    card: Card,
    down: i64,
    east: i64,
}

impl Inverse {
    fn new(card: Card, centre: bool) -> Inverse {
        let up = H / 2 - inward(centre);
        Inverse {
            card,
            down: (128 * card.n + card.b / 2) * H + up,
            east: (card.a - 128 * card.m) * H + up,
        }
    }

    fn pixel(&self, lat: i64, lon: i64) -> Result<Found, u32> {
        in_range(lat, lon)?;
        let (a, b) = (self.card.a, self.card.b);
        let row = ((self.down - lat * b) as u64 / H as u64) as i64 - b / 2;
        // at most 2A: lon × A / H and 128m are both within half a circle
        let column = ((self.east + lon * a) as u64 / H as u64) as i64;
        let less = |column: i64| if column >= a { column - a } else { column };
        let column = less(less(column));
        self.card.bounds(row, column)?;
        Ok((row, column))
    }
}

#[inline(never)]
pub fn positions<const CENTRE: bool>(
    series: Series,
    card: &[u8],
    pixels: &[i64],
    positions: &mut [i64],
    numbers: &mut [u32],
) -> Result<(), Refusal> {
    let grid = Grid::new(read_card(series, card)?, CENTRE);
    answer_list(pixels, positions, numbers, |row, column| {
        grid.position(row, column)
    })
}

#[inline(never)]
pub fn pixels<const CENTRE: bool>(
    series: Series,
    card: &[u8],
    positions: &[i64],
    pixels: &mut [i64],
    numbers: &mut [u32],
) -> Result<(), Refusal> {
    let inverse = Inverse::new(read_card(series, card)?, CENTRE);
    answer_list(positions, pixels, numbers, |lat, lon| {
        inverse.pixel(lat, lon)
    })
}
