//! Questions d and e: card read, card write.

use std::hint::black_box;

use crate::inputs::{sheet, Sheet, Written, SCALES};
use crate::plain::{self, Card, Record, Refusal, CARD};
use crate::random::Random;
use crate::timing::{differ, measure, Form};
use fordcask::raw;

const SET: usize = 1024;

/// The numbers that may be filled with blanks: offset and width (02, E2).
const NUMBERS: [(usize, usize); 10] = [
    (1, 8),
    (9, 8),
    (38, 6),
    (44, 6),
    (50, 6),
    (56, 6),
    (62, 3),
    (65, 3),
    (68, 6),
    (74, 6),
];

/// Card read: valid cards of every scale and zone; one in eight damaged in one byte; every number
/// of every card filled with blanks; of every other card.
pub fn read(random: &mut Random) {
    let valid: Vec<Written> = sheets(random, &SCALES).iter().map(Sheet::write).collect();
    let mut mixed = valid.clone();
    for card in mixed.iter_mut().step_by(8) {
        damage(random, card);
    }
    read_set("d card read, valid", &valid);
    read_set("d card read, 1 in 8 damaged", &mixed);
    let padded: Vec<Written> = valid.iter().map(fill).collect();
    let mut other = valid;
    for (card, padded) in other.iter_mut().zip(&padded).step_by(2) {
        *card = *padded;
    }
    read_set("d card read, all padded", &padded);
    read_set("d card read, every other padded", &other);
}

/// Blanks for the leading zeros of each number.
fn fill(card: &Written) -> Written {
    let mut padded = *card;
    for (at, width) in NUMBERS {
        let leading = padded.bytes[at..at + width - 1].iter_mut();
        for byte in leading.take_while(|byte| **byte == b'0') {
            *byte = b' ';
        }
    }
    padded
}

fn sheets(random: &mut Random, scales: &[u64]) -> Vec<Sheet> {
    let scale = |i: usize| scales[i % scales.len()];
    (0..SET).map(|i| sheet(random, scale(i / 8))).collect()
}

fn damage(random: &mut Random, card: &mut Written) {
    let at = random.below(CARD as u64) as usize;
    card.bytes[at] = random.within(32, 126) as u8;
}

fn read_set(question: &str, cards: &[Written]) {
    let plain: Vec<_> = cards.iter().map(read_plain).collect();
    let ours: Vec<_> = cards.iter().map(|card| answer(&read_ours(card))).collect();
    let forms = vec![
        Form::new("plain", String::new(), || {
            let sum = |sum: u64, card| match black_box(read_plain(card)) {
                Ok(card) => sum.wrapping_add((card.n + card.m + card.nus) as u64 + card.blanks),
                Err(refusal) => sum.wrapping_add(u64::from(refusal.number) + refusal.at),
            };
            cards.iter().fold(0, sum)
        }),
        Form::new("ours", differ(&plain, &ours), || {
            let sum = |sum: u64, card| {
                let card = black_box(read_ours(card));
                if card.number == 0 {
                    sum.wrapping_add((card.n + card.m) as u64 + card.nus + card.blanks)
                } else {
                    sum.wrapping_add(u64::from(card.number) + card.at)
                }
            };
            cards.iter().fold(0, sum)
        }),
    ];
    measure(question, cards.len(), forms);
}

fn read_plain(card: &Written) -> Result<Card, Refusal> {
    plain::read::read_card(card.series, &card.bytes)
}

fn read_ours(card: &Written) -> raw::Card {
    // SAFETY: the pointer and length are those of one array, which is only read.
    unsafe { raw::fordcask_read_card(card.series, card.bytes.as_ptr(), CARD) }
}

fn answer(card: &raw::Card) -> Result<Card, Refusal> {
    if card.number != 0 {
        return Err(Refusal {
            number: card.number,
            at: card.at,
        });
    }
    Ok(Card {
        a: card.a as i64,
        b: card.b as i64,
        n: card.n,
        m: card.m,
        nul: card.nul as i64,
        nus: card.nus as i64,
        nll: card.nll as i64,
        nls: card.nls as i64,
        nfl: card.nfl as i64,
        nfc: card.nfc as i64,
        bad: card.bad,
        tif: card.tif != 0,
        blanks: card.blanks,
    })
}

/// Card write: valid records, then with one in eight refused.
pub fn write(random: &mut Random) {
    let valid = sheets(random, &SCALES[1..]);
    let mut mixed = valid.clone();
    for sheet in mixed.iter_mut().step_by(8) {
        spoil(random, &mut sheet.record);
    }
    write_set("e card write, valid", &valid);
    write_set("e card write, 1 in 8 refused", &mixed);
}

fn spoil(random: &mut Random, record: &mut Record) {
    match random.below(5) {
        0 => record.nfl = 1_000,
        1 => record.bad[random.below(12) as usize] = b'a',
        2 => record.n += 10_000_000,
        3 => record.nus = 128 * record.nfc,
        _ => record.nfc = 0,
    }
}

fn write_set(question: &str, sheets: &[Sheet]) {
    let records = sheets.iter().map(|sheet| foreign(&sheet.record));
    let ours: Vec<(&Sheet, raw::Record)> = sheets.iter().zip(records).collect();
    let mut out = [0; CARD];
    let plain_bytes: Vec<_> = sheets
        .iter()
        .map(|sheet| (write_plain(sheet, &mut out), out))
        .collect();
    out = [0; CARD];
    let our_bytes: Vec<_> = ours
        .iter()
        .map(|(sheet, record)| (write_ours(sheet, record, &mut out), out))
        .collect();
    let forms = vec![
        Form::new("plain", String::new(), || {
            let mut out = [0; CARD];
            let sum = |sum: u64, sheet| {
                let done = write_plain(sheet, &mut out);
                sum.wrapping_add(u64::from(done.number) + u64::from(black_box(&out)[20]))
            };
            sheets.iter().fold(0, sum)
        }),
        Form::new("ours", differ(&plain_bytes, &our_bytes), || {
            let mut out = [0; CARD];
            let sum = |sum: u64, (sheet, record): &(&Sheet, raw::Record)| {
                let done = write_ours(sheet, record, &mut out);
                sum.wrapping_add(u64::from(done.number) + u64::from(black_box(&out)[20]))
            };
            ours.iter().fold(0, sum)
        }),
    ];
    measure(question, sheets.len(), forms);
}

fn write_plain(sheet: &Sheet, out: &mut [u8; CARD]) -> Refusal {
    match plain::write::write_card(sheet.series, &sheet.record, out) {
        Ok(()) => Refusal { number: 0, at: 0 },
        Err(refusal) => refusal,
    }
}

fn write_ours(sheet: &Sheet, record: &raw::Record, out: &mut [u8; CARD]) -> Refusal {
    let series = sheet.series;
    // SAFETY: the pointer and length are those of one array, lent for writing.
    let done = unsafe { raw::fordcask_write_card(series, *record, out.as_mut_ptr(), out.len()) };
    Refusal {
        number: done.number,
        at: done.at,
    }
}

fn foreign(record: &Record) -> raw::Record {
    raw::Record {
        n: record.n,
        m: record.m,
        nul: record.nul,
        nus: record.nus,
        nll: record.nll,
        nls: record.nls,
        nfl: record.nfl,
        nfc: record.nfc,
        bad: record.bad,
        tif: u8::from(record.tif),
    }
}
