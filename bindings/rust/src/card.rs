use crate::raw;
use crate::refusal::{answer, Refusal};
use crate::series::Series;
use crate::zone::Spacing;

/// The length of an image card in bytes.
pub const CARD_LENGTH: usize = 98;

/// What a card says of its image, beside scale, factor and zone.
#[derive(Clone, Copy, Debug, PartialEq, Eq)]
pub struct Record {
    /// The origin in tiles north of the Equator, -B/512 to B/512.
    pub n: i64,
    /// The origin in tiles east of the zero meridian, -A/256 to A/256.
    pub m: i64,
    /// NUL, the chart's top row, up to `nll`.
    pub nul: u64,
    /// NUS, the chart's right column, below 128 × `nfc`.
    pub nus: u64,
    /// NLL, the chart's bottom row, below 128 × `nfl`.
    pub nll: u64,
    /// NLS, the chart's left column, up to `nus`.
    pub nls: u64,
    /// NFL, tiles down, 1 to 999, with n - NFL not below -B/512.
    pub nfl: u64,
    /// NFC, tiles across, 1 to 999 and at most A/128.
    pub nfc: u64,
    /// BAD, the name: eight capitals or digits, a dot, three more.
    pub bad: [u8; 12],
    /// TIF, true where the image has a tile index.
    pub tif: bool,
}

/// An accepted card: its spacing and its record.
#[derive(Clone, Copy, Debug, PartialEq, Eq)]
pub struct Card {
    /// A and B of the card's scale, factor and zone.
    pub spacing: Spacing,
    /// The record; writing it gives the card's bytes back, from 1:10,000 up and where no blanks
    /// were met.
    pub record: Record,
}

/// An answer on a card, and the total of blanks met in reading it: those before the first digit of
/// ARV, BRV, NUL, NUS, NLL, NLS, NFL, NFC, PNC and PNL.
#[derive(Clone, Copy, Debug, PartialEq, Eq)]
pub struct OnCard<T> {
    /// The answer.
    pub value: T,
    /// The total of blanks, at most 37.
    pub blanks: u64,
}

/// Reads a card of 98 bytes at its scale, factor and zone; blanks may stand before the first digit
/// of a number of more than one digit. Refuses 1, 17, 1, 2, 3, 6, 7 and 8, 9, 10, 11.
pub fn read_card(series: Series, card: &[u8]) -> Result<OnCard<Card>, Refusal> {
    // SAFETY: the pointer and length are those of one slice, which is only read.
    let given = unsafe { raw::fordcask_read_card(series, card.as_ptr(), card.len()) };
    let read = OnCard { value: of(&given), blanks: given.blanks };
    answer(given.number, given.at, read)
}

/// Reads a card as document 01 has it, where no blank may stand before a digit: 7 instead. Refuses
/// as [`read_card`].
pub fn read_strict(series: Series, card: &[u8]) -> Result<Card, Refusal> {
    // SAFETY: the pointer and length are those of one slice, which is only read.
    let given = unsafe { raw::fordcask_read_strict(series, card.as_ptr(), card.len()) };
    answer(given.number, given.at, of(&given))
}

fn of(given: &raw::Card) -> Card {
    let record = Record {
        n: given.n,
        m: given.m,
        nul: given.nul,
        nus: given.nus,
        nll: given.nll,
        nls: given.nls,
        nfl: given.nfl,
        nfc: given.nfc,
        bad: given.bad,
        tif: given.tif != 0,
    };
    let spacing = Spacing { a: given.a, b: given.b };
    Card { spacing, record }
}

/// Writes a record as the first 98 bytes of `out`; the rest stays, and all of it in a refusal.
///
/// Refuses 1, 24, 17, 1, 2, 3, 6 (`out` under 98 bytes), 8 at 62 (NFL), 8 at 65 (NFC), 7 at 85
/// (BAD), 10, 11.
pub fn write_card(series: Series, record: &Record, out: &mut [u8]) -> Result<(), Refusal> {
    let record = raw::Record {
        n: record.n,
        m: record.m,
        nul: record.nul,
        nus: record.nus,
        nll: record.nll,
        nls: record.nls,
        nfl: record.nfl,
        nfc: record.nfc,
        bad: record.bad,
        tif: u8::from(record.tif),
    };
    // SAFETY: the pointer and length are those of one slice, lent for writing.
    let given = unsafe { raw::fordcask_write_card(series, record, out.as_mut_ptr(), out.len()) };
    answer(given.number, given.at, ())
}
