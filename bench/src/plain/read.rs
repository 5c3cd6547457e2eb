//! Card reading: 1, 2, 3, 6, subfields left to right (7 before 8), 9, 10, 11; blanks before digits (02, E2).

use super::{nearest, refuse, spacing, Card, Refusal, CARD, H};
use fordcask::Series;

#[inline(never)]
pub fn read_card(series: Series, card: &[u8]) -> Result<Card, Refusal> {
    let (a, b) = spacing(series)?;
    let Ok(card) = <&[u8; CARD]>::try_from(card) else {
        return refuse(6, 0);
    };
    let fields = read_fields(card)?;
    if fields.arv != a || fields.brv != b {
        return refuse(9, 0);
    }
    let n = origin(fields.pso, b, b / 512)?;
    let m = origin(fields.lso, a, a / 256)?;
    let found = Card {
        a,
        b,
        n,
        m,
        nul: fields.nul,
        nus: fields.nus,
        nll: fields.nll,
        nls: fields.nls,
        nfl: fields.nfl,
        nfc: fields.nfc,
        bad: fields.bad,
        tif: fields.tif,
        blanks: fields.blanks,
    };
    if !extents(&found) {
        return refuse(11, 0);
    }
    Ok(found)
}

struct Fields {
    arv: i64,
    brv: i64,
    lso: i64,
    pso: i64,
    nul: i64,
    nus: i64,
    nll: i64,
    nls: i64,
    nfl: i64,
    nfc: i64,
    bad: [u8; 12],
    tif: bool,
    blanks: u64,
}

fn read_fields(card: &[u8; CARD]) -> Result<Fields, Refusal> {
    let mut blanks = 0;
    let total = &mut blanks;
    constant(card, 0, 1, 3, total)?;
    let arv = number(card, 1, 8, total)?;
    let brv = number(card, 9, 8, total)?;
    let lso = angle(card, 17, 3, 180)?;
    let pso = angle(card, 28, 2, 90)?;
    let nul = number(card, 38, 6, total)?;
    let nus = number(card, 44, 6, total)?;
    let nll = number(card, 50, 6, total)?;
    let nls = number(card, 56, 6, total)?;
    let nfl = tiles(card, 62, total)?;
    let nfc = tiles(card, 65, total)?;
    constant(card, 68, 6, 128, total)?;
    constant(card, 74, 6, 128, total)?;
    for (at, value) in [(80, 0), (81, 1), (82, 0), (83, 0), (84, 8)] {
        constant(card, at, 1, value, total)?;
    }
    let bad = name(card)?;
    let tif = match card[97] {
        b'Y' => true,
        b'N' => false,
        _ => return refuse(8, 97),
    };
    Ok(Fields {
        arv,
        brv,
        lso,
        pso,
        nul,
        nus,
        nll,
        nls,
        nfl,
        nfc,
        bad,
        tif,
        blanks,
    })
}

/// A number of width digits; place is the subfield's offset in a refusal.
fn digits(card: &[u8; CARD], from: usize, width: usize, place: usize) -> Result<i64, Refusal> {
    let mut value = 0;
    for &byte in &card[from..from + width] {
        if !byte.is_ascii_digit() {
            return refuse(7, place as u64);
        }
        value = value * 10 + i64::from(byte - b'0');
    }
    Ok(value)
}

/// A number with blanks before its digits; they are added to the total. All blank is wrong.
fn number(card: &[u8; CARD], at: usize, width: usize, total: &mut u64) -> Result<i64, Refusal> {
    let field = &card[at..at + width];
    let blanks = field.iter().take_while(|&&byte| byte == b' ').count();
    if blanks == width {
        return refuse(7, at as u64);
    }
    *total += blanks as u64;
    digits(card, at + blanks, width - blanks, at)
}

fn constant(
    card: &[u8; CARD],
    at: usize,
    width: usize,
    value: i64,
    total: &mut u64,
) -> Result<(), Refusal> {
    if number(card, at, width, total)? != value {
        return refuse(8, at as u64);
    }
    Ok(())
}

fn tiles(card: &[u8; CARD], at: usize, total: &mut u64) -> Result<i64, Refusal> {
    let value = number(card, at, 3, total)?;
    if value == 0 {
        return refuse(8, at as u64);
    }
    Ok(value)
}

/// Sign, degrees of the given width, MM, SS, dot, hundredths.
fn angle(card: &[u8; CARD], at: usize, width: usize, limit: i64) -> Result<i64, Refusal> {
    let minus = match card[at] {
        b'+' => false,
        b'-' => true,
        _ => return refuse(7, at as u64),
    };
    let minutes_at = at + 1 + width;
    let degrees = digits(card, at + 1, width, at)?;
    let minutes = digits(card, minutes_at, 2, at)?;
    let seconds = digits(card, minutes_at + 2, 2, at)?;
    if card[minutes_at + 4] != b'.' {
        return refuse(7, at as u64);
    }
    let hundredths = digits(card, minutes_at + 5, 2, at)?;
    let size = degrees * 360_000 + minutes * 6_000 + seconds * 100 + hundredths;
    if minutes >= 60 || seconds >= 60 || size > limit * 360_000 || (minus && size == 0) {
        return refuse(8, at as u64);
    }
    Ok(if minus { -size } else { size })
}

/// BAD: eight capitals or digits, a dot, three more.
fn name(card: &[u8; CARD]) -> Result<[u8; 12], Refusal> {
    let mut bad = [0; 12];
    bad.copy_from_slice(&card[85..97]);
    if !good_name(&bad) {
        return refuse(7, 85);
    }
    Ok(bad)
}

pub fn good_name(bad: &[u8; 12]) -> bool {
    let part = |bytes: &[u8]| {
        bytes
            .iter()
            .all(|byte| byte.is_ascii_uppercase() || byte.is_ascii_digit())
    };
    part(&bad[..8]) && bad[8] == b'.' && part(&bad[9..])
}

/// The n (or m) that stores the angle; spacing is B (or A).
fn origin(angle: i64, spacing: i64, limit: i64) -> Result<i64, Refusal> {
    let tiles = nearest(angle * spacing, 128 * H);
    if nearest(128 * tiles * H, spacing) != angle || tiles.abs() > limit {
        return refuse(10, 0);
    }
    Ok(tiles)
}

fn extents(card: &Card) -> bool {
    card.nfc <= card.a / 128
        && card.n - card.nfl >= -card.b / 512
        && card.nul <= card.nll
        && card.nll < 128 * card.nfl
        && card.nls <= card.nus
        && card.nus < 128 * card.nfc
}
