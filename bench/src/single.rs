//! Question c: one pixel or one position of a card in one call, the card's bytes read each time, in
//! each pair.

use crate::inputs::{pixel, position, sheet, Sheet, Written, SCALES};
use crate::plain::{self, grid::Found, Refusal, CARD};
use crate::random::Random;
use crate::timing::both;
use fordcask::raw;

const SET: usize = 1024;

struct Asked {
    card: Written,
    first: i64,
    second: i64,
}

type Answer = (u32, u64, i64, i64);

pub fn position_calls(random: &mut Random) {
    let asked = questions(random, |random, sheet, _| pixel(random, &sheet.record));
    positions_in::<true>(&asked, "c pixel to centre, single call");
    positions_in::<false>(&asked, "c pixel to corner, single call");
}

pub fn pixel_calls(random: &mut Random) {
    let asked = questions(random, |random, _, card| position(random, card));
    pixels_in::<true>(&asked, "c pixel, centre pair, single call");
    pixels_in::<false>(&asked, "c pixel, corner pair, single call");
}

fn positions_in<const CENTRE: bool>(asked: &[Asked], question: &str) {
    let plain = |ask: &Asked| {
        let card = &ask.card;
        let found =
            plain::grid::position::<CENTRE>(card.series, &card.bytes, ask.first, ask.second);
        answer(found)
    };
    let ours = |ask: &Asked| {
        let card = &ask.card;
        let bytes = card.bytes.as_ptr();
        let call = match CENTRE {
            true => raw::fordcask_position,
            false => raw::fordcask_corner_position,
        };
        // SAFETY: the pointer and length are those of one array, which is only read.
        let found = unsafe { call(card.series, bytes, CARD, ask.first, ask.second) };
        (found.number, found.at, found.lat, found.lon)
    };
    both(question, asked, plain, ours, sum);
}

fn pixels_in<const CENTRE: bool>(asked: &[Asked], question: &str) {
    let plain = |ask: &Asked| {
        let card = &ask.card;
        let found = plain::grid::pixel::<CENTRE>(card.series, &card.bytes, ask.first, ask.second);
        answer(found)
    };
    let ours = |ask: &Asked| {
        let card = &ask.card;
        let bytes = card.bytes.as_ptr();
        let call = match CENTRE {
            true => raw::fordcask_pixel,
            false => raw::fordcask_corner_pixel,
        };
        // SAFETY: the pointer and length are those of one array, which is only read.
        let found = unsafe { call(card.series, bytes, CARD, ask.first, ask.second) };
        (found.number, found.at, found.row, found.column)
    };
    both(question, asked, plain, ours, sum);
}

fn answer(found: Result<Found, Refusal>) -> Answer {
    match found {
        Ok((first, second)) => (0, 0, first, second),
        Err(refusal) => (refusal.number, refusal.at, 0, 0),
    }
}

fn questions(
    random: &mut Random,
    next: impl Fn(&mut Random, &Sheet, &plain::Card) -> Found,
) -> Vec<Asked> {
    let one = |i: usize| {
        let sheet = sheet(random, SCALES[i / 8 % SCALES.len()]);
        let card = sheet.write();
        let read = plain::read::read_card(card.series, &card.bytes);
        let (first, second) = next(random, &sheet, &read.expect("a valid card"));
        Asked {
            card,
            first,
            second,
        }
    };
    (0..SET).map(one).collect()
}

fn sum(answer: &Answer) -> u64 {
    u64::from(answer.0) + answer.1 + (answer.2 ^ answer.3) as u64
}
