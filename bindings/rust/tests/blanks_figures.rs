//! Figures of E2, worked out from its sentences: cards written out with their blanks, what is read
//! from them, and the refusals. 02 prints no card.

use fordcask::{read_card, read_strict, write_card};
use fordcask::{OnCard, OverviewPixel, Pair, Pixel, Position, Refusal, Series, Sheet};

/// The worked card of document 01, for 1:1,000,000 zone 1, and the same with all its blanks.
const WORKED: &[u8; 98] = b"30036966400400384-0022935.07+113032.23000000000127000255000000\
00200100012800012801008BASE0101.IMGN";
const PADDED: &[u8; 98] =
    b"3  369664  400384-0022935.07+113032.23     0   127   255     0  2  1   128   128\
      01008BASE0101.IMGN";

/// The most blanks: 4 digits in ARV and 5 in BRV, at 1:20,000,000 zone 8.
const MOST: &[u8; 98] =
    b"3    4608   20480+0000000.00+000000.00     0     0     0     0  1  1   128   128\
      01008BASE0101.IMGN";

const WORKED_SERIES: Series = Series::chart(1_000_000, 1);
const COARSEST: Series = Series::chart(20_000_000, 8);

fn refused<T>(number: u32, at: u64) -> Result<T, Refusal> {
    Err(Refusal { number, at })
}

/// The worked card with this text at an offset.
fn with(at: usize, text: &[u8]) -> [u8; 98] {
    let mut card = *WORKED;
    card[at..at + text.len()].copy_from_slice(text);
    card
}

#[test]
fn padded_cards() {
    let plain = read_card(WORKED_SERIES, WORKED).expect("the worked card");
    assert_eq!(plain.blanks, 0);
    let padded = read_card(WORKED_SERIES, PADDED).expect("the padded card");
    assert_eq!(padded, OnCard { value: plain.value, blanks: 30 });
    let most = read_card(COARSEST, MOST).expect("the card of most blanks");
    assert_eq!((most.blanks, most.value.spacing.a, most.value.spacing.b), (37, 4_608, 20_480));
    let record = most.value.record;
    assert_eq!((record.n, record.m, record.nfl, record.nfc), (0, 0, 1, 1));
    assert_eq!((record.nul, record.nus, record.nll, record.nls), (0, 0, 0, 0));
}

/// Each subfield alone: the text, and how many blanks are told.
#[test]
fn single_subfields() {
    let texts: [(usize, &[u8], u64); 22] = [
        (1, b" 0369664", 1),
        (1, b"  369664", 2),
        (9, b" 0400384", 1),
        (9, b"  400384", 2),
        (38, b" 00000", 1),
        (38, b"     0", 5),
        (44, b"  0127", 2),
        (44, b"   127", 3),
        (44, b"     0", 5),
        (50, b"   255", 3),
        (50, b"    99", 4),
        (56, b"    00", 4),
        (56, b"     9", 5),
        (62, b" 02", 1),
        (62, b"  2", 2),
        (65, b" 01", 1),
        (65, b"  1", 2),
        (68, b"  0128", 2),
        (68, b"   128", 3),
        (74, b" 00128", 1),
        (74, b"   128", 3),
        (62, b"  2  1   128   128", 10),
    ];
    for (at, text, blanks) in texts {
        let read = read_card(WORKED_SERIES, &with(at, text));
        let found = read.map(|told| told.blanks);
        assert_eq!(found, Ok(blanks), "{} at {at}", text.escape_ascii());
        let strict = read_strict(WORKED_SERIES, &with(at, text));
        assert_eq!(strict, refused(7, at as u64), "{} at {at}", text.escape_ascii());
    }
}

#[test]
fn refusals() {
    let texts: [(usize, &[u8], u32, u64); 29] = [
        (0, b" ", 7, 0),
        (1, b"        ", 7, 1),
        (1, b"  36966 ", 7, 1),
        (1, b" \t369664", 7, 1),
        (1, b"   69664", 9, 0),
        (9, b"        ", 7, 9),
        (9, b"       4", 9, 0),
        (17, b"- 022935.07", 7, 17),
        (17, b" 0022935.07", 7, 17),
        (28, b"+ 13032.23", 7, 28),
        (28, b" 113032.23", 7, 28),
        (38, b"      ", 7, 38),
        (44, b"  1 27", 7, 44),
        (50, b"000255000000  0", 8, 62),
        (56, b"   128", 11, 0),
        (62, b"   ", 7, 62),
        (62, b"  0", 8, 62),
        (62, b" 2 ", 7, 62),
        (62, b"2  ", 7, 62),
        (65, b"   ", 7, 65),
        (65, b" 00", 8, 65),
        (68, b" 1 128", 7, 68),
        (68, b"   129", 8, 68),
        (68, b"      ", 7, 68),
        (74, b"128   ", 7, 74),
        (74, b"     8", 8, 74),
        (84, b" ", 7, 84),
        (85, b"BASE 101.IMG", 7, 85),
        (97, b" ", 8, 97),
    ];
    for (at, text, number, place) in texts {
        let found = read_card(WORKED_SERIES, &with(at, text));
        assert_eq!(found, refused(number, place), "{} at {at}", text.escape_ascii());
    }
}

/// "Tolerant, then 7 where blanks were met" is not 01's reading: the first subfield decides.
#[test]
fn read_as_01_has_it() {
    let mut card = with(1, b" 0369664");
    card[62..65].copy_from_slice(b"000");
    assert_eq!(read_card(WORKED_SERIES, &card), refused(8, 62));
    assert_eq!(read_strict(WORKED_SERIES, &card), refused(7, 1));
    // the other way round both find the earlier one
    let card = with(0, b"4 0369664");
    assert_eq!(read_card(WORKED_SERIES, &card), refused(8, 0));
    assert_eq!(read_strict(WORKED_SERIES, &card), refused(8, 0));
    assert_eq!(read_strict(WORKED_SERIES, &with(62, b"  0")), refused(7, 62));
    assert_eq!(read_strict(WORKED_SERIES, &with(68, b" 1 128")), refused(7, 68));
    let plain = read_card(WORKED_SERIES, WORKED).map(|told| told.value);
    assert_eq!(read_strict(WORKED_SERIES, WORKED), plain);
    assert_eq!(read_strict(WORKED_SERIES, PADDED), refused(7, 1));
    assert_eq!(read_strict(WORKED_SERIES, &PADDED[..97]), refused(6, 0));
}

/// The positions 01 prints, and the overview pixel; each tells the total, a refusal does not.
#[test]
fn questions() {
    let chart = Sheet { series: WORKED_SERIES, card: PADDED };
    let pixel = Pixel { row: 1, column: 1 };
    let position = Position { lat: 4_142_899, lon: -897_156 };
    let there = chart.position_in(Pair::Corner, pixel);
    assert_eq!(there, Ok(OnCard { value: position, blanks: 30 }));
    let back = chart.pixel_in(Pair::Corner, position);
    assert_eq!(back, Ok(OnCard { value: pixel, blanks: 30 }));
    let centre = chart.position(pixel).map(|told| (told.value.lat, told.value.lon, told.blanks));
    assert_eq!(centre, Ok((4_142_737, -896_981, 30)));
    assert_eq!(chart.position(Pixel { row: 256, column: 0 }), refused(12, 0));
    let twice = b"3  184832  200192-0022935.07+113032.23000000000127000255000000\
00200100012800012801008BASE0101.IMGN";
    let series = Series { factor: 2, ..WORKED_SERIES };
    let twice = Sheet { series, card: twice };
    let found =
        OverviewPixel { pixel: Pixel { row: 0, column: 1 }, blanks: 30, overview_blanks: 4 };
    assert_eq!(chart.overview_pixel(&twice, pixel), Ok(found));
    assert_eq!(chart.overview_pixel(&twice, Pixel { row: 256, column: 0 }), refused(12, 0));
}

/// Writing uses zeros: the bytes come back where no blanks were met, the record always.
#[test]
fn writing() {
    for (card, blanks) in [(WORKED, 0), (PADDED, 30)] {
        let read = read_card(WORKED_SERIES, card).expect("a card");
        assert_eq!(read.blanks, blanks);
        let mut out = [7; 98];
        assert_eq!(write_card(WORKED_SERIES, &read.value.record, &mut out), Ok(()));
        assert_eq!((&out == card, &out), (blanks == 0, WORKED));
        let again = read_card(WORKED_SERIES, &out);
        assert_eq!(again, Ok(OnCard { value: read.value, blanks: 0 }));
    }
    // a town card with blanks opens, and is not written (02, E13)
    let town = b"33697049640042496-0000129.74+000654.28     0   127   255     0  2  1   128   128\
      01008BASE0101.IMGN";
    let series = Series::chart(9_999, 1);
    let read = read_card(series, town).expect("a card that opens");
    assert_eq!((read.value.record.n, read.value.record.m, read.blanks), (100, -20, 26));
    let mut out = [7; 98];
    assert_eq!(write_card(series, &read.value.record, &mut out), refused(24, 0));
    assert_eq!(out, [7; 98]);
}
