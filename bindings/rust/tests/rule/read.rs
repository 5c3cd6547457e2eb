//! (01, "The image card, 98 bytes"; 02, E2 and E4): reading.

use super::{non_polar, origin_storing, refuse, Answer, CARD, LAT_END, LON_END, TILE};
use fordcask::{Card, OnCard, Record, Refusal, Series, Spacing};

/// All digits, else 7.
fn number(card: &[u8], at: usize, width: usize) -> Answer<i128> {
    let mut value = 0;
    for byte in &card[at..at + width] {
        if !byte.is_ascii_digit() {
            return refuse(7, at as u64);
        }
        value = 10 * value + (byte - b'0') as i128;
    }
    Ok(value)
}

/// How a number of more than one digit is read: its value, and how many blanks were met.
type Numbers = fn(&[u8], usize, usize) -> Answer<(i128, u64)>;

/// All digits, zero-filled, else 7 (01).
fn zero_filled(card: &[u8], at: usize, width: usize) -> Answer<(i128, u64)> {
    Ok((number(card, at, width)?, 0))
}

/// Blanks before the first digit, then all digits, else 7; 7 where all are blanks (02, E2).
fn blank_filled(card: &[u8], at: usize, width: usize) -> Answer<(i128, u64)> {
    let mut blanks = 0;
    while blanks < width && card[at + blanks] == 0x20 {
        blanks += 1;
    }
    if blanks == width {
        return refuse(7, at as u64);
    }
    let wrong_kind = |_| Refusal { number: 7, at: at as u64 };
    let value = number(card, at + blanks, width - blanks).map_err(wrong_kind)?;
    Ok((value, blanks as u64))
}

/// A one-digit subfield: a digit, else 7; this value, else 8. No blank (02, E2).
fn one_digit(card: &[u8], at: usize, value: i128) -> Answer<()> {
    if number(card, at, 1)? != value {
        return refuse(8, at as u64);
    }
    Ok(())
}

/// The numbers of more than one digit, left to right, and the total of their blanks (02, E2).
struct Count<'a> {
    card: &'a [u8],
    numbers: Numbers,
    blanks: u64,
}

impl Count<'_> {
    /// A number, else 7.
    fn number(&mut self, at: usize, width: usize) -> Answer<i128> {
        let (value, blanks) = (self.numbers)(self.card, at, width)?;
        self.blanks += blanks;
        Ok(value)
    }

    /// NFL and NFC: 1 to 999, else 8.
    fn tile_number(&mut self, at: usize) -> Answer<i128> {
        let value = self.number(at, 3)?;
        if !(1..=999).contains(&value) {
            return refuse(8, at as u64);
        }
        Ok(value)
    }

    /// PNC and PNL: 128, else 8.
    fn tile_side(&mut self, at: usize) -> Answer<()> {
        if self.number(at, 6)? != TILE {
            return refuse(8, at as u64);
        }
        Ok(())
    }
}

/// A sign, degrees, MMSS, a dot, two digits, else 7; then the value, else 8.
fn angle(card: &[u8], at: usize, degree_digits: usize, end: i128) -> Answer<i128> {
    let place = at as u64;
    let minute_at = at + 1 + degree_digits;
    let sign = card[at];
    if sign != b'+' && sign != b'-' {
        return refuse(7, place);
    }
    let wrong_kind = |_| Refusal { number: 7, at: place };
    let degrees = number(card, at + 1, degree_digits).map_err(wrong_kind)?;
    let minutes = number(card, minute_at, 2).map_err(wrong_kind)?;
    let seconds = number(card, minute_at + 2, 2).map_err(wrong_kind)?;
    if card[minute_at + 4] != b'.' {
        return refuse(7, place);
    }
    let hundredths = number(card, minute_at + 5, 2).map_err(wrong_kind)?;
    let size = 360_000 * degrees + 6_000 * minutes + 100 * seconds + hundredths;
    let minus_zero = sign == b'-' && size == 0;
    if minutes >= 60 || seconds >= 60 || size > end || minus_zero {
        return refuse(8, place);
    }
    Ok(if sign == b'-' { -size } else { size })
}

/// Eight letters or digits, a dot, three more (capitals only), else 7 at 85.
pub fn name_good(bad: &[u8; 12]) -> bool {
    for (i, byte) in bad.iter().enumerate() {
        let good =
            if i == 8 { *byte == b'.' } else { byte.is_ascii_digit() || byte.is_ascii_uppercase() };
        if !good {
            return false;
        }
    }
    true
}

/// What the bytes say, before it is set against scale, factor and zone.
struct Said {
    arv: i128,
    brv: i128,
    lso: i128,
    pso: i128,
    edges: [i128; 4],
    nfl: i128,
    nfc: i128,
    bad: [u8; 12],
    tif: bool,
    blanks: u64,
}

/// The subfields left to right, with 7 before 8 in each.
fn said(card: &[u8], numbers: Numbers) -> Answer<Said> {
    let mut count = Count { card, numbers, blanks: 0 };
    one_digit(card, 0, 3)?;
    let arv = count.number(1, 8)?;
    let brv = count.number(9, 8)?;
    let lso = angle(card, 17, 3, LON_END)?;
    let pso = angle(card, 28, 2, LAT_END)?;
    let mut edges = [0; 4];
    for (i, edge) in edges.iter_mut().enumerate() {
        *edge = count.number(38 + 6 * i, 6)?;
    }
    let nfl = count.tile_number(62)?;
    let nfc = count.tile_number(65)?;
    count.tile_side(68)?;
    count.tile_side(74)?;
    for (i, value) in [0, 1, 0, 0, 8].into_iter().enumerate() {
        one_digit(card, 80 + i, value)?;
    }
    let mut bad = [0; 12];
    bad.copy_from_slice(&card[85..97]);
    if !name_good(&bad) {
        return refuse(7, 85);
    }
    let tif = match card[97] {
        b'Y' => true,
        b'N' => false,
        _ => return refuse(8, 97),
    };
    Ok(Said { arv, brv, lso, pso, edges, nfl, nfc, bad, tif, blanks: count.blanks })
}

/// NFC ≤ A/128; n − NFL ≥ −B/512; NUL ≤ NLL < 128 × NFL; NLS ≤ NUS < 128 × NFC.
pub fn extents_hold(a: i128, b: i128, record: &Record) -> bool {
    let (nfl, nfc) = (record.nfl as i128, record.nfc as i128);
    nfc * 128 <= a
        && record.n as i128 - nfl >= -(b / 512)
        && record.nul <= record.nll
        && (record.nll as i128) < TILE * nfl
        && record.nls <= record.nus
        && (record.nus as i128) < TILE * nfc
}

/// −B/512 ≤ n ≤ B/512 and −A/256 ≤ m ≤ A/256.
pub fn origin_accepted(a: i128, b: i128, n: i128, m: i128) -> bool {
    (-b / 512..=b / 512).contains(&n) && (-a / 256..=a / 256).contains(&m)
}

/// Reading: blanks may stand before the first digit of a number, and their total is told (02, E2).
pub fn read(series: Series, card: &[u8]) -> Answer<OnCard<Card>> {
    accept(series, card, blank_filled)
}

/// Reading as 01 has it: numbers are all digits, zero-filled.
pub fn read_strict(series: Series, card: &[u8]) -> Answer<Card> {
    accept(series, card, zero_filled).map(|read| read.value)
}

/// 1, 17, 1 (02, E4), 2, 3, 6, then subfields left to right with 7 before 8 in each, then 9, 10,
/// 11.
fn accept(series: Series, card: &[u8], numbers: Numbers) -> Answer<OnCard<Card>> {
    let (a, b) = non_polar(series)?;
    if card.len() != CARD {
        return refuse(6, 0);
    }
    let said = said(card, numbers)?;
    if said.arv != a || said.brv != b {
        return refuse(9, 0);
    }
    let (Some(n), Some(m)) = (origin_storing(said.pso, b), origin_storing(said.lso, a)) else {
        return refuse(10, 0);
    };
    if !origin_accepted(a, b, n, m) {
        return refuse(10, 0);
    }
    let [nul, nus, nll, nls] = said.edges.map(|edge| edge as u64);
    let record = Record {
        n: n as i64,
        m: m as i64,
        nul,
        nus,
        nll,
        nls,
        nfl: said.nfl as u64,
        nfc: said.nfc as u64,
        bad: said.bad,
        tif: said.tif,
    };
    if !extents_hold(a, b, &record) {
        return refuse(11, 0);
    }
    let spacing = Spacing { a: a as u64, b: b as u64 };
    Ok(OnCard { value: Card { spacing, record }, blanks: said.blanks })
}
