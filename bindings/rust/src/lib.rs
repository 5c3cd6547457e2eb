//! Scanned charts in the ARC raster system: zones and their spacing, image cards, positions of
//! pixels, stored tiles, by list or by presence bits, and corrections beside them.
//!
//! Angles are whole hundredths of an arc-second: latitude -32,400,000 to 32,400,000, longitude
//! -64,800,000 to 64,800,000. Each function answers or refuses for every number, byte and length
//! handed in; a [`Refusal`] carries the number of document 01 or 02 and a place.
//!
//! Blanks may stand before the first digit of a card's numbers; each answer on a card tells how
//! many were met ([`OnCard`]).
//!
//! Pixels and positions are asked for in one of two pairs ([`Pair`]): the centre pair where none is
//! named, else the corner pair. A position of the one pair handed to the other carries no promise.
//!
//! ```
//! use fordcask::{Pair, Pixel, Position, Refusal, Series, Sheet};
//!
//! let card = b"30036966400400384-0022935.07+113032.23000000000127000255000000\
//!              00200100012800012801008BASE0101.IMGN";
//! let sheet = Sheet { series: Series::chart(1_000_000, 1), card };
//! let answer = sheet.position(Pixel { row: 1, column: 1 })?;
//! assert_eq!(answer.value, Position { lat: 4_142_737, lon: -896_981 });
//! assert_eq!(answer.blanks, 0);
//! assert_eq!(sheet.pixel(answer.value)?.value, Pixel { row: 1, column: 1 });
//! let corner = sheet.position_in(Pair::Corner, Pixel { row: 1, column: 1 })?.value;
//! assert_eq!(corner, Position { lat: 4_142_899, lon: -897_156 });
//! let outside = sheet.position(Pixel { row: 256, column: 0 });
//! assert_eq!(outside, Err(Refusal { number: 12, at: 0 }));
//! # Ok::<(), Refusal>(())
//! ```

#![warn(missing_docs)]

mod bits;
mod card;
mod corrected_bits;
mod corrections;
mod pair;
mod position;
pub mod raw;
mod refusal;
mod series;
mod sheet;
mod tiles;
mod zone;

pub use bits::Bits;
pub use card::{read_card, read_strict, write_card, Card, OnCard, Record, CARD_LENGTH};
pub use corrections::{CorrectedTile, Corrections, Source};
pub use pair::Pair;
pub use position::{offset, Offset, Pixel, Place, Position};
pub use refusal::Refusal;
pub use series::Series;
pub use sheet::{OverviewPixel, Sheet};
pub use tiles::{Bands, Tiles, Window, TILE_LENGTH};
pub use zone::{
    align, basic_zone, cover, rectangle, spacing, Cover, Origin, Rectangle, Spacing, Zones,
};
