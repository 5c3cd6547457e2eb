//! The doubles form: the stored angle as origin and an even step, as GDAL does; then rounded.
//! Not exact: two cuts of one sheet may answer differently.

use crate::plain::grid::{answer_list, in_range, Found};
use crate::plain::read::read_card;
use crate::plain::{stored, Card, Refusal, H};
use fordcask::Series;

/// What is added so that nothing is negative: after the bounds tests each number lies within it.
const SHIFT: i64 = 1 << 28;

/// The geotransform of a card, both ways; north and west are those of pixel (0, 0) in the pair.
struct Transform {
    card: Card,
    pso: f64,
    lso: f64,
    row_step: f64,
    column_step: f64,
    rows: f64,
    columns: f64,
    north: f64,
    west: f64,
    lift: f64,
}

impl Transform {
    fn new(card: Card, centre: bool) -> Transform {
        let half = if centre { 0.5 } else { 0.0 };
        let (pso, lso) = stored(card.n, card.m, card.a, card.b);
        let (a, b, circle) = (card.a as f64, card.b as f64, H as f64);
        Transform {
            card,
            pso: pso as f64,
            lso: lso as f64,
            row_step: circle / b,
            column_step: circle / a,
            rows: b / circle,
            columns: a / circle,
            north: pso as f64 - half * (circle / b),
            west: lso as f64 + half * (circle / a),
            lift: SHIFT as f64 + 0.5 - half,
        }
    }

    fn position(&self, row: i64, column: i64) -> Result<Found, u32> {
        self.card.bounds(row, column)?;
        let lat = cut(self.north - row as f64 * self.row_step, SHIFT as f64 + 0.5);
        let lon = cut(
            self.west + column as f64 * self.column_step,
            SHIFT as f64 + 0.5,
        );
        Ok((lat, if lon >= H / 2 { lon - H } else { lon }))
    }

    fn pixel(&self, lat: i64, lon: i64) -> Result<Found, u32> {
        in_range(lat, lon)?;
        let row = cut((self.pso - lat as f64) * self.rows, self.lift);
        let east = lon as f64 - self.lso;
        let east = if east < 0.0 { east + H as f64 } else { east };
        let column = cut(east * self.columns, self.lift);
        let column = if column >= self.card.a { 0 } else { column };
        self.card.bounds(row, column)?;
        Ok((row, column))
    }
}

/// Floor of x and of what `lift` has above SHIFT. Lifted to be positive and then cut, as a C cast
/// does: floor is a library call on generic x86-64, and a checked cast costs a nanosecond.
fn cut(x: f64, lift: f64) -> i64 {
    // SAFETY: after the bounds tests x lies within -2^28 .. 2^28.
    unsafe { (x + lift).to_int_unchecked::<i64>() - SHIFT }
}

#[inline(never)]
pub fn positions<const CENTRE: bool>(
    series: Series,
    card: &[u8],
    pixels: &[i64],
    positions: &mut [i64],
    numbers: &mut [u32],
) -> Result<(), Refusal> {
    let transform = Transform::new(read_card(series, card)?, CENTRE);
    answer_list(pixels, positions, numbers, |row, column| {
        transform.position(row, column)
    })
}

#[inline(never)]
pub fn pixels<const CENTRE: bool>(
    series: Series,
    card: &[u8],
    positions: &[i64],
    pixels: &mut [i64],
    numbers: &mut [u32],
) -> Result<(), Refusal> {
    let transform = Transform::new(read_card(series, card)?, CENTRE);
    answer_list(positions, pixels, numbers, |lat, lon| {
        transform.pixel(lat, lon)
    })
}
