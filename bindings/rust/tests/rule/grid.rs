//! (01, "Origins and the zone grid"; 02, E2, E4, E8 and E13)

use super::{floor_div, in_range, modulo, nearest, non_polar, on_card, printed, refuse};
use super::{Answer, H, LON_END, TILE};
use fordcask::{Card, Offset, OnCard, Origin, OverviewPixel, Pair, Pixel, Place, Position, Series};

/// The angle a card stores for k tiles from the Equator or the zero meridian.
pub fn stored_angle(k: i128, spacing: i128) -> i128 {
    nearest(TILE * k * H, spacing)
}

/// The k that stores this angle: the whole numbers round angle × spacing / 128H are looked at.
pub fn origin_storing(angle: i128, spacing: i128) -> Option<i128> {
    let near = floor_div(angle * spacing, TILE * H);
    (near - 2..=near + 2).find(|k| stored_angle(*k, spacing) == angle)
}

/// Alignment: 1, 24 (02, E13), 17, 1 (02, E4), 2, 3, 4, 5.
pub fn align(series: Series, lat: i64, lon: i64) -> Answer<Origin> {
    printed(series.scale)?;
    let (a, b) = non_polar(series)?;
    in_range(lat, lon)?;
    let (lat, lon) = (lat as i128, lon as i128);
    // the smallest n with 128 × n × H ≥ lat × B
    let near = floor_div(lat * b, TILE * H);
    let n = (near - 2..=near + 2).find(|n| TILE * n * H >= lat * b);
    // the greatest m with 128 × m × H ≤ lon × A
    let near = floor_div(lon * a, TILE * H);
    let m = (near - 2..=near + 2).rfind(|m| TILE * m * H <= lon * a);
    let (n, m) = (n.expect("an n"), m.expect("an m"));
    Ok(Origin {
        n: n as i64,
        m: m as i64,
        pso: stored_angle(n, b) as i64,
        lso: stored_angle(m, a) as i64,
    })
}

/// Outside the tiles on any side: 12.
fn in_tiles(card: &Card, row: i128, column: i128) -> Answer<()> {
    let rows = TILE * card.record.nfl as i128;
    let columns = TILE * card.record.nfc as i128;
    if row < 0 || row >= rows || column < 0 || column >= columns {
        return refuse(12, 0);
    }
    Ok(())
}

/// Outside the tiles: 12; outside the chart: 13.
pub fn in_chart(card: &Card, row: i128, column: i128) -> Answer<()> {
    in_tiles(card, row, column)?;
    let record = &card.record;
    if row < record.nul as i128 || row > record.nll as i128 {
        return refuse(13, 0);
    }
    if column < record.nls as i128 || column > record.nus as i128 {
        return refuse(13, 0);
    }
    Ok(())
}

/// Pixel (r, c) has place (128n − r, (128m + c) modulo A): 12.
pub fn place(read: &OnCard<Card>, pixel: Pixel) -> Answer<OnCard<Place>> {
    let card = &read.value;
    let (row, column) = (pixel.row as i128, pixel.column as i128);
    in_tiles(card, row, column)?;
    let east = TILE * card.record.m as i128 + column;
    let place = Place {
        row: (TILE * card.record.n as i128 - row) as i64,
        column: modulo(east, card.spacing.a as i128) as i64,
    };
    on_card(read, place)
}

/// The pixel of the card's tiles that has a place, found by trying every row and every column.
pub fn has_place(card: &Card, place: Place) -> Option<Pixel> {
    let record = &card.record;
    let rows = 128 * record.nfl as i64;
    let columns = 128 * record.nfc as i64;
    let row = (0..rows).find(|r| 128 * record.n - r == place.row)?;
    let a = card.spacing.a as i64;
    let column = (0..columns).find(|c| (128 * record.m + c).rem_euclid(a) == place.column)?;
    Some(Pixel { row, column })
}

/// A longitude brought into range by whole circles; the date line is −180°.
fn by_whole_circles(lon: i128) -> i128 {
    let mut lon = lon;
    while lon >= LON_END {
        lon -= H;
    }
    while lon < -LON_END {
        lon += H;
    }
    lon
}

/// Pixel to position in one pair: 12, 13.
pub fn position(pair: Pair, read: &OnCard<Card>, pixel: Pixel) -> Answer<OnCard<Position>> {
    let card = &read.value;
    let (row, column) = (pixel.row as i128, pixel.column as i128);
    in_chart(card, row, column)?;
    let (a, b) = (card.spacing.a as i128, card.spacing.b as i128);
    let up = TILE * card.record.n as i128 - row;
    let east = TILE * card.record.m as i128 + column;
    let (lat, lon) = match pair {
        // the corner: (128n − r)H/B and (128m + c)H/A
        Pair::Corner => (nearest(up * H, b), nearest(east * H, a)),
        // the centre, half a pixel south and east of the corner (02, E8)
        Pair::Centre => (nearest((2 * up - 1) * H, 2 * b), nearest((2 * east + 1) * H, 2 * a)),
    };
    on_card(read, Position { lat: lat as i64, lon: by_whole_circles(lon) as i64 })
}

/// Position to pixel in one pair: 4, 5, then 12, 13.
pub fn pixel(pair: Pair, read: &OnCard<Card>, position: Position) -> Answer<OnCard<Pixel>> {
    let card = &read.value;
    in_range(position.lat, position.lon)?;
    let (a, b) = (card.spacing.a as i128, card.spacing.b as i128);
    let (lat, lon) = (position.lat as i128, position.lon as i128);
    // 128n − lat × B/H, and lon × A/H − 128m modulo A, both times H
    let down = TILE * card.record.n as i128 * H - lat * b;
    let east = modulo(lon * a - TILE * card.record.m as i128 * H, a * H);
    let (row, column) = match pair {
        Pair::Corner => (nearest(down, H), modulo(nearest(east, H), a)),
        Pair::Centre => (floor_div(down, H), floor_div(east, H)),
    };
    in_chart(card, row, column)?;
    on_card(read, Pixel { row: row as i64, column: column as i64 })
}

/// The overview pixel of a chart's pixel, in the corner pair (02, E4 and E8): the chart's 12, 13,
/// then the overview's 12, 13. It tells the total of each of the two cards (02, E2).
pub fn overview_pixel(
    chart: &OnCard<Card>,
    overview: &OnCard<Card>,
    asked: Pixel,
) -> Answer<OverviewPixel> {
    let there = position(Pair::Corner, chart, asked)?;
    let found = pixel(Pair::Corner, overview, there.value)?;
    Ok(OverviewPixel { pixel: found.value, blanks: there.blanks, overview_blanks: found.blanks })
}

/// Offset from a centre: 4, 5 for the position, then 4, 5 for the centre.
pub fn offset(position: Position, centre: Position) -> Answer<Offset> {
    in_range(position.lat, position.lon)?;
    in_range(centre.lat, centre.lon)?;
    let mut lon = position.lon - centre.lon;
    while lon >= LON_END as i64 {
        lon -= H as i64;
    }
    while lon < -LON_END as i64 {
        lon += H as i64;
    }
    Ok(Offset { lat: (position.lat - centre.lat) as f64, lon: lon as f64 })
}
