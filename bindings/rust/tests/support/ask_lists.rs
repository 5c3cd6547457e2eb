//! The list calls, put to both sides; each buffer is compared whole.

use super::ask::Ask;
use super::ask_sheet::shown;
use super::PAIRS;
use crate::rule;
use fordcask::{Card, OnCard, Pair, Pixel, Position, Refusal, Sheet};

const SIX: Refusal = Refusal { number: 6, at: 0 };
pub const OLD_POSITION: Position = Position { lat: 7, lon: 7 };
const OLD_PIXEL: Pixel = Pixel { row: 7, column: 7 };

/// The lengths of the output and of its numbers.
type Lengths = (usize, usize);

/// A list's answer for one of its items: the number, and the value, 0 in a refusal. An item that
/// is answered alone tells the list's total of blanks (02, E2).
fn item<T: Default>(answer: Result<OnCard<T>, Refusal>, blanks: u64) -> (u32, T) {
    match answer {
        Ok(told) => {
            assert_eq!(told.blanks, blanks, "the total of the list");
            (0, told.value)
        }
        Err(refusal) => (refusal.number, T::default()),
    }
}

/// What the list call should answer and leave, from the rule for each item; the total is told
/// where items are refused too (02, E2).
fn expected<F, T: Copy + Default>(
    sheet: &Sheet,
    from: &[F],
    to: &mut [T],
    numbers: &mut [u32],
    single: impl Fn(&OnCard<Card>, &F) -> Result<OnCard<T>, Refusal>,
) -> Result<OnCard<()>, Refusal> {
    let card = rule::read(sheet.series, sheet.card)?;
    if to.len() < from.len() || numbers.len() < from.len() {
        return Err(SIX);
    }
    for (i, asked) in from.iter().enumerate() {
        (numbers[i], to[i]) = item(single(&card, asked), card.blanks);
    }
    Ok(OnCard { value: (), blanks: card.blanks })
}

/// Asks for positions with these lengths of output in one pair; every buffer is compared whole.
fn positions_in(ask: &mut Ask, pair: Pair, sheet: &Sheet, pixels: &[Pixel], lengths: Lengths) {
    let call = || format!("{} {pair:?} positions({pixels:?}, {lengths:?})", shown(sheet));
    let before = (vec![OLD_POSITION; lengths.0], vec![77; lengths.1]);
    let mut right = before.clone();
    let rule = expected(sheet, pixels, &mut right.0, &mut right.1, |card, pixel| {
        rule::position(pair, card, *pixel)
    });
    let mut found = before.clone();
    let library = sheet.positions_in(pair, pixels, &mut found.0, &mut found.1);
    assert_eq!(found, right, "buffers of {}", call());
    if pair == Pair::Centre {
        let mut unnamed = before;
        let given = sheet.positions(pixels, &mut unnamed.0, &mut unnamed.1);
        assert_eq!((given, unnamed), (rule, right), "no pair named: {}", call());
    }
    if let Ok(told) = ask.on_card(("positions", pair), call, library, rule) {
        for (i, pixel) in pixels.iter().enumerate() {
            let single = item(sheet.position_in(pair, *pixel), told.blanks);
            assert_eq!((found.1[i], found.0[i]), single, "single call, {}", call());
            ask.count(("listed positions", pair), found.1[i], 0);
        }
    }
}

/// Asks for pixels with these lengths of output in one pair; every buffer is compared whole.
fn pixels_in(ask: &mut Ask, pair: Pair, sheet: &Sheet, positions: &[Position], lengths: Lengths) {
    let call = || format!("{} {pair:?} pixels({positions:?}, {lengths:?})", shown(sheet));
    let before = (vec![OLD_PIXEL; lengths.0], vec![77; lengths.1]);
    let mut right = before.clone();
    let rule = expected(sheet, positions, &mut right.0, &mut right.1, |card, position| {
        rule::pixel(pair, card, *position)
    });
    let mut found = before.clone();
    let library = sheet.pixels_in(pair, positions, &mut found.0, &mut found.1);
    assert_eq!(found, right, "buffers of {}", call());
    if pair == Pair::Centre {
        let mut unnamed = before;
        let given = sheet.pixels(positions, &mut unnamed.0, &mut unnamed.1);
        assert_eq!((given, unnamed), (rule, right), "no pair named: {}", call());
    }
    if let Ok(told) = ask.on_card(("pixels", pair), call, library, rule) {
        for (i, position) in positions.iter().enumerate() {
            let single = item(sheet.pixel_in(pair, *position), told.blanks);
            assert_eq!((found.1[i], found.0[i]), single, "single call, {}", call());
            ask.count(("listed pixels", pair), found.1[i], 0);
        }
    }
}

/// Asks for positions in both pairs, with outputs of this length and these numbers.
pub fn positions(ask: &mut Ask, sheet: &Sheet, pixels: &[Pixel], out: usize, numbers: usize) {
    for pair in PAIRS {
        positions_in(ask, pair, sheet, pixels, (out, numbers));
    }
}

/// Asks for pixels in both pairs, with outputs of this length and these numbers.
pub fn pixels(ask: &mut Ask, sheet: &Sheet, positions: &[Position], out: usize, numbers: usize) {
    for pair in PAIRS {
        pixels_in(ask, pair, sheet, positions, (out, numbers));
    }
}
