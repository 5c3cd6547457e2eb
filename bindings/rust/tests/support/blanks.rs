//! Cards padded with leading blanks (02, E2).

use std::fmt::Debug;

use super::make::card;
use super::random::Random;
use fordcask::{Card, OnCard, Record, Refusal, Series, Sheet};

/// Offset and width of each number of more than one digit: ARV, BRV, NUL, NUS, NLL, NLS, NFL, NFC,
/// PNC, PNL (01, "The image card, 98 bytes").
pub const NUMBERS: [(usize, usize); 10] =
    [(1, 8), (9, 8), (38, 6), (44, 6), (50, 6), (56, 6), (62, 3), (65, 3), (68, 6), (74, 6)];

/// Blank, and no other byte.
pub const BLANK: u8 = 0x20;

/// An answer on a card without blanks.
pub fn no_blanks<T>(value: T) -> OnCard<T> {
    OnCard { value, blanks: 0 }
}

/// The value of an answer on a card, 0 in a refusal.
pub fn or_zero<T: Default>(answer: Result<OnCard<T>, Refusal>) -> T {
    answer.map(|told| told.value).unwrap_or_default()
}

/// How many blanks lead a subfield.
pub fn leading_blanks(card: &[u8], (at, width): (usize, usize)) -> usize {
    card[at..at + width].iter().take_while(|byte| **byte == BLANK).count()
}

/// The total of blanks that lead the numbers of a card of 98 bytes.
pub fn total(card: &[u8]) -> u64 {
    NUMBERS.iter().map(|field| leading_blanks(card, *field) as u64).sum()
}

/// The card with a zero for each blank that leads a number.
pub fn with_zeros(card: &[u8]) -> Vec<u8> {
    let mut zeros = card.to_vec();
    for field in NUMBERS {
        let blanks = leading_blanks(card, field);
        zeros[field.0..field.0 + blanks].fill(b'0');
    }
    zeros
}

/// How many zeros lead a number, its last digit apart.
pub fn leading_zeros(card: &[u8], (at, width): (usize, usize)) -> usize {
    card[at..at + width - 1].iter().take_while(|byte| **byte == b'0').count()
}

/// Puts blanks into the first bytes of a subfield.
pub fn pad(card: &mut [u8], (at, _): (usize, usize), blanks: usize) {
    card[at..at + blanks].fill(BLANK);
}

/// Blanks for all zeros that lead a number, in each number; how many were put in.
pub fn pad_all(card: &mut [u8]) -> u64 {
    let mut put = 0;
    for field in NUMBERS {
        let zeros = leading_zeros(card, field);
        pad(card, field, zeros);
        put += zeros as u64;
    }
    put
}

/// Blanks for any number of the zeros that lead a number, in each number apart; how many were put
/// in. Once in eight none are, once in eight all, and once in eight those of one number.
pub fn pad_some(random: &mut Random, card: &mut [u8]) -> u64 {
    let only = match random.below(8) {
        0 => return 0,
        1 => return pad_all(card),
        2 => Some(random.pick(&NUMBERS)),
        _ => None,
    };
    let mut put = 0;
    for field in NUMBERS.into_iter().filter(|field| only.is_none_or(|only| only == *field)) {
        let zeros = leading_zeros(card, field);
        let blanks = match random.below(4) {
            0 => 0,
            1 => zeros,
            _ => random.below(zeros + 1),
        };
        pad(card, field, blanks);
        put += blanks as u64;
    }
    put
}

/// What reading as 01 has it gives, from the other reading: 7 at the first number that blanks lead,
/// unless something is refused before it.
pub fn strict_of(card: &[u8], read: Result<OnCard<Card>, Refusal>) -> Result<Card, Refusal> {
    if let Err(refusal) = read {
        if [1, 17, 2, 3, 6].contains(&refusal.number) {
            return Err(refusal);
        }
    }
    let Some((at, _)) = NUMBERS.into_iter().find(|field| leading_blanks(card, *field) > 0) else {
        return read.map(|told| told.value);
    };
    match read {
        Err(refusal) if refusal.number <= 8 && refusal.at < at as u64 => Err(refusal),
        _ => Err(Refusal { number: 7, at: at as u64 }),
    }
}

/// A card without blanks, the same card with blanks, and how many were put in.
pub struct Twins {
    pub series: Series,
    pub plain: Vec<u8>,
    pub padded: Vec<u8>,
    pub put: u64,
}

impl Twins {
    /// The card of a record, and with any number of its leading zeros turned into blanks.
    pub fn of(random: &mut Random, series: Series, record: &Record) -> Twins {
        let plain = card(series, record);
        let mut padded = plain.clone();
        let put = pad_some(random, &mut padded);
        Twins { series, plain, padded, put }
    }

    /// The sheets of both, the padded one last.
    pub fn sheets(&self) -> [Sheet<'_>; 2] {
        [&self.plain, &self.padded].map(|card| Sheet { series: self.series, card })
    }

    /// Asks both: the padded card answers as the other, with its total; a refusal is the same.
    pub fn same<T: PartialEq + Debug>(
        &self,
        mut ask: impl FnMut(&Sheet) -> Result<OnCard<T>, Refusal>,
    ) -> Result<OnCard<T>, Refusal> {
        let [plain, padded] = self.sheets().map(|sheet| ask(&sheet));
        let right = plain.map(|told| {
            assert_eq!(told.blanks, 0, "{}", self.plain.escape_ascii());
            OnCard { value: told.value, blanks: self.put }
        });
        assert_eq!(padded, right, "{:?} {}", self.series, self.padded.escape_ascii());
        padded
    }
}
