//! Faults of the worked card's subfields, in reading's order, many of them blanks (02, E2).

use super::blanks::{pad_all, pad_some};
use super::random::Random;
use super::{WORKED, WORKED_SERIES};
use fordcask::{Refusal, Series};

/// Number and place of the refusal, and the text that is put at an offset.
pub type Fault = (u32, u64, usize, &'static [u8]);

/// A fault that is refused at the offset of its subfield.
const fn of(number: u32, at: usize, text: &'static [u8]) -> Fault {
    (number, at as u64, at, text)
}

/// Subfields left to right with 7 before 8 in each, then 9, 10, 11.
pub const FAULTS: [Fault; 64] = [
    of(7, 0, b" "),
    of(8, 0, b"4"),
    of(7, 1, b"        "),
    of(7, 1, b"  36966 "),
    of(7, 1, b"  3 9664"),
    of(7, 1, b" \t369664"),
    of(7, 9, b"        "),
    of(7, 9, b"00 00384"),
    of(7, 9, b"  40038 "),
    of(7, 17, b" 0022935.07"),
    of(7, 17, b"- 022935.07"),
    of(7, 17, b"-0022935. 7"),
    of(8, 17, b"-0000000.00"),
    of(8, 17, b"+1800000.01"),
    of(7, 28, b" 113032.23"),
    of(7, 28, b"+ 13032.23"),
    of(7, 28, b"+1130 2.23"),
    of(8, 28, b"-000000.00"),
    of(8, 28, b"+116032.23"),
    of(7, 38, b"      "),
    of(7, 38, b"0    0"),
    of(7, 44, b"      "),
    of(7, 44, b"  12 7"),
    of(7, 50, b"      "),
    of(7, 50, b"   25 "),
    of(7, 56, b"      "),
    of(7, 56, b" 0 000"),
    of(7, 62, b"   "),
    of(7, 62, b" 2 "),
    of(7, 62, b"0 2"),
    of(8, 62, b"  0"),
    of(8, 62, b"000"),
    of(7, 65, b"   "),
    of(7, 65, b"1 1"),
    of(8, 65, b" 00"),
    of(7, 68, b"      "),
    of(7, 68, b" 1 128"),
    of(8, 68, b"   127"),
    of(8, 68, b"     0"),
    of(7, 74, b"      "),
    of(7, 74, b"  128 "),
    of(8, 74, b"  1280"),
    of(8, 74, b"    28"),
    of(7, 80, b" "),
    of(8, 80, b"1"),
    of(7, 81, b" "),
    of(8, 81, b"0"),
    of(7, 82, b" "),
    of(8, 82, b"1"),
    of(7, 83, b" "),
    of(8, 83, b"1"),
    of(7, 84, b" "),
    of(8, 84, b"7"),
    of(7, 85, b" ASE0101.IMG"),
    of(7, 85, b"BASE0101 IMG"),
    of(8, 97, b" "),
    of(8, 97, b"y"),
    (9, 0, 1, b"  369665"),
    (9, 0, 9, b"   40038"),
    (10, 0, 17, b"-0022935.08"),
    (10, 0, 28, b"+113032.24"),
    (11, 0, 38, b"   256"),
    (11, 0, 50, b"   256"),
    (11, 0, 56, b"   128"),
];

/// What is stated beside a card and refused, in order.
pub const STATED: [(Series, u32); 5] = [
    (Series { scale: 4_999, ..WORKED_SERIES }, 1),
    (Series { factor: 65, ..WORKED_SERIES }, 17),
    (Series { factor: 21, ..WORKED_SERIES }, 1),
    (Series { zone: 19, ..WORKED_SERIES }, 2),
    (Series { zone: 9, ..WORKED_SERIES }, 3),
];

/// The refusal of a fault.
pub fn refusal(fault: Fault) -> Refusal {
    Refusal { number: fault.0, at: fault.1 }
}

/// The worked card, padded before the faults are put in; these keep their own blanks.
pub fn with_faults(random: &mut Random, faults: &[Fault]) -> Vec<u8> {
    let mut card = WORKED.to_vec();
    match random.below(4) {
        0 => drop(pad_all(&mut card)),
        1 => (),
        _ => drop(pad_some(random, &mut card)),
    }
    for (_, _, at, text) in faults {
        card[*at..*at + text.len()].copy_from_slice(text);
    }
    card
}

/// A set of faults, at most one of each subfield, in reading's order; it may be empty.
pub fn some_faults(random: &mut Random) -> Vec<Fault> {
    let once = 1 + random.below(30) as u64;
    let mut faults: Vec<Fault> = Vec::new();
    for fault in FAULTS {
        let taken = faults.iter().any(|other| other.2 == fault.2);
        if !taken && random.once_in(once) {
            faults.push(fault);
        }
    }
    faults
}
