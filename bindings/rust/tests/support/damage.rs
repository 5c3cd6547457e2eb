//! Damage to the bytes of a card.

use super::blanks::{leading_blanks, BLANK, NUMBERS};
use super::random::Random;

/// Offset and width of each subfield (01, "The image card, 98 bytes").
const SUBFIELDS: [(usize, usize); 20] = [
    (0, 1),
    (1, 8),
    (9, 8),
    (17, 11),
    (28, 10),
    (38, 6),
    (44, 6),
    (50, 6),
    (56, 6),
    (62, 3),
    (65, 3),
    (68, 6),
    (74, 6),
    (80, 1),
    (81, 1),
    (82, 1),
    (83, 1),
    (84, 1),
    (85, 12),
    (97, 1),
];

/// One byte: a digit mostly, else a sign, a dot, a letter or any byte.
pub fn damage(random: &mut Random, card: &mut [u8]) {
    let at = random.below(98);
    card[at] = match random.below(8) {
        0 => random.byte(),
        1 => random.pick(b"+-.YN A:/@[aZ"),
        _ => random.pick(b"0123456789"),
    };
}

/// Each subfield in turn gets other digits, the ends of its values, or a byte of the wrong kind.
fn change_subfield(random: &mut Random, card: &mut [u8], (at, width): (usize, usize)) {
    let field = &mut card[at..at + width];
    match random.below(5) {
        0 => field[random.below(width)] = random.byte(),
        1 => field.iter_mut().for_each(|byte| *byte = random.pick(b"0123456789")),
        2 if width > 9 => field[1..].iter_mut().for_each(|byte| {
            if byte.is_ascii_digit() {
                *byte = random.pick(b"0123456789");
            }
        }),
        3 => field.iter_mut().for_each(|byte| {
            if byte.is_ascii_digit() {
                *byte = b'0';
            }
        }),
        4 if width > 9 => field[0] = random.pick(b"+-"),
        _ => {
            let digit = random.pick(b"0123456789");
            field[width - 1] = digit;
        }
    }
}

/// One to three subfields changed.
pub fn change_some(random: &mut Random, card: &mut [u8]) {
    for _ in 0..=random.below(3) {
        let subfield = random.pick(&SUBFIELDS);
        change_subfield(random, card, subfield);
    }
}

/// One byte of a number subfield: a blank mostly, else a zero, another digit or any byte (02, E2).
pub fn blank_damage(random: &mut Random, card: &mut [u8]) {
    let (at, width) = random.pick(&NUMBERS);
    let leading = leading_blanks(card, (at, width));
    // at the end of the blanks that lead it, in many cases
    let place = match random.below(3) {
        0 => leading.min(width - 1),
        1 => leading.saturating_sub(1),
        _ => random.below(width),
    };
    card[at + place] = match random.below(8) {
        0..=3 => BLANK,
        4 => b'0',
        5 => random.pick(b"123456789"),
        6 => random.pick(b"\t\n\x00\x1F!/:\xA0x+-."),
        _ => random.byte(),
    };
}
