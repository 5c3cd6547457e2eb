//! Bytes that are no blanks in place of one, every one-byte change of padded cards, and every text
//! of some bytes in each number (02, E2).

use crate::support;
use fordcask::{OnCard, Refusal, Series, Sheet};
use support::blanks::{leading_blanks, pad_all, BLANK, NUMBERS};
use support::make::{all_chart, card, changes_of};
use support::{Ask, WORKED, WORKED_SERIES};

/// Not a digit and not a blank: the neighbours of both, a tab, and blanks of other character sets.
const OTHERS: [u8; 8] = [0x00, 0x09, 0x1F, 0x21, 0x2F, 0x3A, 0xA0, 0xFF];

/// The card of most blanks: A has 4 digits and B has 5.
const COARSEST: Series = Series::chart(20_000_000, 8);

/// Cards with all their blanks, and how many these are.
fn padded_cards() -> Vec<(Series, Vec<u8>, u64)> {
    let mut worked = WORKED.to_vec();
    let put = pad_all(&mut worked);
    let mut cards = vec![(WORKED_SERIES, worked, put)];
    let stated = [(9_999, 1, 17), (10_000, 64, 3), (20_000_000, 1, 8)];
    for (scale, factor, zone) in stated {
        let series = Series { scale, factor, zone };
        let mut card = card(series, &all_chart(9, -3, 2, 1, true));
        let put = pad_all(&mut card);
        cards.push((series, card, put));
    }
    cards
}

/// Each blank in turn becomes another byte: 7 at its subfield. A zero is 7 too where a blank stands
/// behind it, and in place of the last blank it is read.
#[test]
fn in_place_of_a_blank() {
    let mut ask = Ask::default();
    for (series, good, put) in padded_cards() {
        let right = ask.read(series, &good).expect("a padded card");
        assert_eq!(right.blanks, put);
        for field in NUMBERS {
            for place in field.0..field.0 + leading_blanks(&good, field) {
                let mut card = good.clone();
                for byte in OTHERS {
                    card[place] = byte;
                    let refused = Err(Refusal { number: 7, at: field.0 as u64 });
                    assert_eq!(ask.read(series, &card), refused, "{byte} at {place}");
                }
                card[place] = b'0';
                let last = place + 1 == field.0 + leading_blanks(&good, field);
                let zero = OnCard { value: right.value, blanks: put - 1 };
                let refused = Err(Refusal { number: 7, at: field.0 as u64 });
                let expected = if last { Ok(zero) } else { refused };
                assert_eq!(ask.read(series, &card), expected, "0 at {place}");
            }
        }
    }
    ask.met("read", &[0, 7]);
    ask.met_at("read", 7, &NUMBERS.map(|(at, _)| at as u64));
    ask.met_totals("read", 30..=30);
}

/// The subfields that can be refused with 7, and with 8.
const SEVENS: [u64; 19] = [0, 1, 9, 17, 28, 38, 44, 50, 56, 62, 65, 68, 74, 80, 81, 82, 83, 84, 85];
const EIGHTS: [u64; 13] = [0, 17, 28, 62, 65, 68, 74, 80, 81, 82, 83, 84, 97];

/// Every one-byte change of padded cards is read as the rule reads it, and written back.
#[test]
fn one_byte_changes() {
    for (series, good, put) in padded_cards() {
        let mut ask = Ask::default();
        let mut cards = 0;
        for card in changes_of(&good) {
            cards += 1;
            if let Ok(read) = ask.read(series, &card) {
                assert!(read.blanks.abs_diff(put) < 5, "{} of {put}", read.blanks);
                ask.write_back(series, &read, &card, 98);
            }
        }
        assert_eq!(cards, 24_990);
        ask.met("write", &[if series.scale < 10_000 { 24 } else { 0 }]);
        ask.met("read", &[0, 7, 8, 9, 10, 11]);
        ask.met_at("read", 7, &SEVENS);
        ask.met_at("read", 8, &EIGHTS);
        ask.met_totals("read", put - 1..=put);
    }
}

/// The n-th text of this width over some bytes.
fn text(bytes: &[u8], width: usize, mut n: usize) -> Vec<u8> {
    let mut text = Vec::new();
    for _ in 0..width {
        text.push(bytes[n % bytes.len()]);
        n /= bytes.len();
    }
    text
}

/// Reads the card with every text over some bytes in one number; how many were accepted with each
/// total, from none up.
fn every_text(ask: &mut Ask, good: &Sheet, (at, width): (usize, usize), bytes: &[u8]) -> Vec<u64> {
    let mut accepted = vec![0; width];
    let mut card = good.card.to_vec();
    for n in 0..bytes.len().pow(width as u32) {
        let text = text(bytes, width, n);
        card[at..at + width].copy_from_slice(&text);
        match ask.read(good.series, &card) {
            Ok(read) => accepted[read.blanks as usize] += 1,
            Err(refusal) => {
                let trimmed = text.iter().skip_while(|byte| **byte == BLANK);
                let digits = trimmed.clone().all(u8::is_ascii_digit) && trimmed.count() > 0;
                assert_eq!(refusal.number == 7, !digits, "{}", text.escape_ascii());
            }
        }
    }
    accepted
}

/// ARV, BRV, PNC and PNL: one number in each form, with no blanks up to all that are zeros.
#[test]
fn texts_of_one_value() {
    let mut ask = Ask::default();
    let card = card(COARSEST, &all_chart(9, -3, 2, 1, true));
    let good = Sheet { series: COARSEST, card: &card };
    let found = every_text(&mut ask, &good, (1, 8), b" 0468");
    assert_eq!(found, [1, 1, 1, 1, 1, 0, 0, 0], "4608");
    let found = every_text(&mut ask, &good, (9, 8), b" 0248");
    assert_eq!(found, [1, 1, 1, 1, 0, 0, 0, 0], "20480");
    for at in [68, 74] {
        let found = every_text(&mut ask, &good, (at, 6), b" 0128\t");
        assert_eq!(found, [1, 1, 1, 1, 0, 0], "128 at {at}");
    }
    ask.met("read", &[0, 7, 8, 9]);
    ask.met_at("read", 7, &[1, 9, 68, 74]);
    ask.met_at("read", 8, &[68, 74]);
}

/// NFL and NFC over many bytes, and the edges over blanks, three digits and a byte of no number.
#[test]
fn texts_of_many_values() {
    let mut ask = Ask::default();
    let good = Sheet { series: WORKED_SERIES, card: WORKED };
    // the bottom row is 255 and n - NFL is -782 or more, so NFL is 2 to 882
    let found = every_text(&mut ask, &good, (62, 3), b" 02345678\t/:A");
    assert_eq!(found, [512 - 1 - 6, 64 - 1, 8 - 1], "NFL");
    let found = every_text(&mut ask, &good, (65, 3), b" 0123456789\xFF");
    assert_eq!(found, [999, 99, 9], "NFC");
    // rows to 255 and columns to 127, of the digits 0, 1 and 2
    for (at, three_digits) in [(38, 27), (44, 18), (50, 27), (56, 18)] {
        let found = every_text(&mut ask, &good, (at, 6), b" 012x");
        let mut right = [three_digits; 6];
        right[4..].copy_from_slice(&[9, 3]);
        assert_eq!(found, right, "at {at}");
    }
    ask.met("read", &[0, 7, 8, 11]);
    ask.met_at("read", 7, &[38, 44, 50, 56, 62, 65]);
    ask.met_at("read", 8, &[62, 65]);
}
