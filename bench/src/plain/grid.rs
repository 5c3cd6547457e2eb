//! Pixel to position and position to pixel: the rule for one card, lists and single calls, in the
//! corner pair or in the centre pair.

use super::read::read_card;
use super::{nearest, refuse, Card, Refusal, H};
use fordcask::Series;

/// A latitude and longitude, or a row and column.
pub type Found = (i64, i64);

/// How far south and east of a pixel's corner the pair's exact place is, H to a pixel.
pub const fn inward(centre: bool) -> i64 {
    if centre {
        H / 2
    } else {
        0
    }
}

impl Card {
    /// 12 outside the tiles, 13 in padding.
    pub fn bounds(&self, row: i64, column: i64) -> Result<(), u32> {
        if row < 0 || row >= 128 * self.nfl || column < 0 || column >= 128 * self.nfc {
            return Err(12);
        }
        if row < self.nul || row > self.nll || column < self.nls || column > self.nus {
            return Err(13);
        }
        Ok(())
    }

    pub fn position<const CENTRE: bool>(&self, row: i64, column: i64) -> Result<Found, u32> {
        self.bounds(row, column)?;
        let lat = nearest((128 * self.n - row) * H - inward(CENTRE), self.b);
        let lon = nearest((128 * self.m + column) * H + inward(CENTRE), self.a);
        Ok((lat, (lon + H / 2).rem_euclid(H) - H / 2))
    }

    pub fn pixel<const CENTRE: bool>(&self, lat: i64, lon: i64) -> Result<Found, u32> {
        in_range(lat, lon)?;
        let down = 128 * self.n * H - lat * self.b;
        let east = (lon * self.a - 128 * self.m * H).rem_euclid(self.a * H);
        let (row, column) = if CENTRE {
            (down.div_euclid(H), east.div_euclid(H))
        } else {
            (nearest(down, H), nearest(east, H).rem_euclid(self.a))
        };
        self.bounds(row, column)?;
        Ok((row, column))
    }
}

/// 4, 5: latitude or longitude outside its range.
pub fn in_range(lat: i64, lon: i64) -> Result<(), u32> {
    if !(-H / 4..=H / 4).contains(&lat) {
        return Err(4);
    }
    if !(-H / 2..=H / 2).contains(&lon) {
        return Err(5);
    }
    Ok(())
}

/// 6 where the lists don't fit; then each pair's answer, or its number and zeros.
pub fn answer_list(
    asked: &[i64],
    answers: &mut [i64],
    numbers: &mut [u32],
    question: impl Fn(i64, i64) -> Result<Found, u32>,
) -> Result<(), Refusal> {
    let odd = !asked.len().is_multiple_of(2);
    if odd || answers.len() < asked.len() || numbers.len() < asked.len() / 2 {
        return refuse(6, 0);
    }
    let pairs = asked.chunks_exact(2).zip(answers.chunks_exact_mut(2));
    for ((pair, answer), number) in pairs.zip(numbers) {
        let (found, first, second) = match question(pair[0], pair[1]) {
            Ok((first, second)) => (0, first, second),
            Err(refused) => (refused, 0, 0),
        };
        *number = found;
        answer[0] = first;
        answer[1] = second;
    }
    Ok(())
}

#[inline(never)]
pub fn positions<const CENTRE: bool>(
    series: Series,
    card: &[u8],
    pixels: &[i64],
    positions: &mut [i64],
    numbers: &mut [u32],
) -> Result<(), Refusal> {
    let card = read_card(series, card)?;
    answer_list(pixels, positions, numbers, |row, column| {
        card.position::<CENTRE>(row, column)
    })
}

#[inline(never)]
pub fn pixels<const CENTRE: bool>(
    series: Series,
    card: &[u8],
    positions: &[i64],
    pixels: &mut [i64],
    numbers: &mut [u32],
) -> Result<(), Refusal> {
    let card = read_card(series, card)?;
    answer_list(positions, pixels, numbers, |lat, lon| {
        card.pixel::<CENTRE>(lat, lon)
    })
}

#[inline(never)]
pub fn position<const CENTRE: bool>(
    series: Series,
    card: &[u8],
    row: i64,
    column: i64,
) -> Result<Found, Refusal> {
    let card = read_card(series, card)?;
    card.position::<CENTRE>(row, column)
        .map_err(|number| Refusal { number, at: 0 })
}

#[inline(never)]
pub fn pixel<const CENTRE: bool>(
    series: Series,
    card: &[u8],
    lat: i64,
    lon: i64,
) -> Result<Found, Refusal> {
    let card = read_card(series, card)?;
    card.pixel::<CENTRE>(lat, lon)
        .map_err(|number| Refusal { number, at: 0 })
}
