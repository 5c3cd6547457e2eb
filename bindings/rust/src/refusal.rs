use std::fmt;

/// A refusal: its number, 1 to 16 of document 01 or 17, 20, 21 or 24 of document 02, and its place.
///
/// The place is the subfield's offset for 7 and 8; for 15 the entry of the index or of the
/// corrections (the index length where a stored tile is never named), or by presence bits the tile;
/// else 0.
#[derive(Clone, Copy, Debug, PartialEq, Eq, Hash)]
pub struct Refusal {
    /// The number, 1 to 17, 20, 21 or 24.
    pub number: u32,
    /// The place.
    pub at: u64,
}

impl Refusal {
    /// A short English text for the number.
    pub fn text(&self) -> &'static str {
        match self.number {
            1 => "the scale, or scale times factor, is not from 5,000 to 20,000,000",
            2 => "the zone is not from 1 to 18",
            3 => "the zone is polar (9 or 18)",
            4 => "the latitude is outside its range",
            5 => "the longitude is outside its range",
            6 => "a card, output, index, words, count, marks, store or list of the wrong length",
            7 => "a byte of the subfield is of the wrong kind",
            8 => "the subfield has a wrong value",
            9 => "ARV or BRV is not that of the scale, factor and zone",
            10 => "the origin is not on the tile grid or outside it",
            11 => "an extent is broken",
            12 => "the pixel, window or tile is outside the tiles",
            13 => "the pixel is in the padding",
            14 => "the tile is not stored",
            15 => "an entry or number is above its count, an entry repeated or a stored tile never named",
            16 => "the south edge is not below the north edge",
            17 => "the factor is not from 1 to 64",
            20 => "the index is not in reading order",
            21 => "a presence bit is set past the last tile",
            24 => "at a town scale, 5,000 to 9,999, no card is written and no origin aligned",
            _ => "unknown refusal",
        }
    }
}

impl fmt::Display for Refusal {
    fn fmt(&self, f: &mut fmt::Formatter<'_>) -> fmt::Result {
        write!(f, "refusal {} at {}: {}", self.number, self.at, self.text())
    }
}

impl std::error::Error for Refusal {}

/// The value where the number is 0, else the refusal.
pub(crate) fn answer<T>(number: u32, at: u64, value: T) -> Result<T, Refusal> {
    match number {
        0 => Ok(value),
        _ => Err(Refusal { number, at }),
    }
}
