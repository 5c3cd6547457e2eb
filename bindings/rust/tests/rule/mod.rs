//! Document 01, with E1, E2, E3, E4, E5, E7, E8 and E13 of 02, written out a second time in plain
//! loops, in i128 arithmetic; in i64, u64 or usize only where the numbers have been checked and are
//! small. It knows nothing of the library but the types that carry questions and answers.
// each test file uses a part of it
#![allow(dead_code, unused_imports)]

mod bits;
mod corrections;
mod grid;
mod read;
mod tiles;
mod write;
mod zone;

use fordcask::{Card, OnCard, Refusal};

pub use bits::{bits_bands, bits_lookup, bits_window, corrected_bits_bands, corrected_bits_tile};
pub use bits::{corrected_bits_window, to_bits, to_list};
pub use corrections::{corrected_bands, corrected_tile, corrected_window, set_correction};
pub use grid::{align, has_place, offset, origin_storing, overview_pixel};
pub use grid::{pixel, place, position, stored_angle};
pub use read::{extents_hold, read, read_strict};
pub use tiles::{bands, index_check, lookup, window};
pub use write::{lay_out, write};
pub use zone::{basic_zone, constant_at, cover, non_polar, printed, rectangle, spacing};
pub use zone::{spacing_scale, LIMITS};

pub type Answer<T> = Result<T, Refusal>;

// (01, "Units and the zone table")
pub const H: i128 = 129_600_000;
pub const LAT_END: i128 = 32_400_000;
pub const LON_END: i128 = 64_800_000;
pub const CARD: usize = 98;
pub const TILE: i128 = 128;
pub const TILE_BYTES: i128 = 49_152;

/// An answer on a card, with the total of blanks met in reading the card (02, E2).
fn on_card<T>(card: &OnCard<Card>, value: T) -> Answer<OnCard<T>> {
    Ok(OnCard { value, blanks: card.blanks })
}

pub fn refuse<T>(number: u32, at: u64) -> Answer<T> {
    Err(Refusal { number, at })
}

/// The greatest whole number not above value / by, where by is above 0.
pub fn floor_div(value: i128, by: i128) -> i128 {
    let quotient = value / by;
    if value % by < 0 {
        quotient - 1
    } else {
        quotient
    }
}

/// value modulo by, from 0 to by - 1.
pub fn modulo(value: i128, by: i128) -> i128 {
    value - by * floor_div(value, by)
}

/// "Nearest" means the floor of the value plus one half; the value is value / by.
pub fn nearest(value: i128, by: i128) -> i128 {
    floor_div(2 * value + by, 2 * by)
}

/// Refusals 4 and 5, latitude then longitude (01, "Numbers given in refusal").
pub fn in_range(lat: i64, lon: i64) -> Answer<()> {
    if (lat as i128) < -LAT_END || lat as i128 > LAT_END {
        return refuse(4, 0);
    }
    if (lon as i128) < -LON_END || lon as i128 > LON_END {
        return refuse(5, 0);
    }
    Ok(())
}
