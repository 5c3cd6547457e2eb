//! "The pixel containing it" as four inequalities over whole numbers (02, E8).

use crate::rule;
use fordcask::{Card, Pixel, Position};

/// Whether a row holds a latitude: its north edge belongs to it, its south edge does not.
fn row_holds(card: &Card, row: i64, lat: i64) -> bool {
    let up = 128 * i128::from(card.record.n) - i128::from(row);
    let lat = i128::from(lat) * i128::from(card.spacing.b);
    lat <= up * rule::H && lat > (up - 1) * rule::H
}

/// Whether a column holds a longitude, up to whole circles: its west edge belongs to it, its east
/// edge does not.
fn column_holds(card: &Card, column: i64, lon: i64) -> bool {
    let east = 128 * i128::from(card.record.m) + i128::from(column);
    let a = i128::from(card.spacing.a);
    (-2..=2).any(|circles| {
        let lon = (i128::from(lon) + circles * rule::H) * a;
        east * rule::H <= lon && lon < (east + 1) * rule::H
    })
}

/// Whether a pixel of the card's grid contains a position.
pub fn contains(card: &Card, pixel: Pixel, position: Position) -> bool {
    row_holds(card, pixel.row, position.lat) && column_holds(card, pixel.column, position.lon)
}

/// A pixel of the chart; 12 for one outside the tiles, 13 for one of the padding.
pub fn of_chart(card: &Card, pixel: Pixel) -> Result<Pixel, u32> {
    let record = &card.record;
    let (down, across) = (128 * record.nfl as i64, 128 * record.nfc as i64);
    if !(0..down).contains(&pixel.row) || !(0..across).contains(&pixel.column) {
        return Err(12);
    }
    let rows = record.nul as i64..=record.nll as i64;
    let columns = record.nls as i64..=record.nus as i64;
    let inside = rows.contains(&pixel.row) && columns.contains(&pixel.column);
    inside.then_some(pixel).ok_or(13)
}

/// The pixel of the chart that contains a position, found by trying every row and every column;
/// 12 where no pixel of the tiles does, 13 where one of the padding does.
pub fn tried(card: &Card, position: Position) -> Result<Pixel, u32> {
    let rows = 0..128 * card.record.nfl as i64;
    let columns = 0..128 * card.record.nfc as i64;
    let rows: Vec<i64> = rows.filter(|row| row_holds(card, *row, position.lat)).collect();
    let columns: Vec<i64> = columns.filter(|c| column_holds(card, *c, position.lon)).collect();
    match (&rows[..], &columns[..]) {
        (&[row], &[column]) => of_chart(card, Pixel { row, column }),
        ([], _) | (_, []) => Err(12),
        _ => panic!("{position:?} in rows {rows:?} and columns {columns:?}"),
    }
}
