//! Faults of what is stated beside a card, and of its bytes, in reading's order (02, E4).

use super::make::{BAD_FACTORS, BAD_SCALES, BAD_ZONES};
use super::random::Random;
use fordcask::Series;

/// Number and place of each fault, in order; the product's 1 is the third.
pub const FAULTS: [(u32, u64); 12] = [
    (1, 0),
    (17, 0),
    (1, 0),
    (2, 0),
    (3, 0),
    (6, 0),
    (8, 0),
    (7, 44),
    (8, 97),
    (9, 0),
    (10, 0),
    (11, 0),
];

/// Whether a call can have these faults at once: one of the scale, of the factor, of the zone.
pub fn compatible(set: usize) -> bool {
    let has = |fault: usize| set >> fault & 1 == 1;
    !(has(2) && (has(0) || has(1))) && !(has(3) && has(4))
}

/// The faults of a set, in order.
pub fn faults_of(set: usize) -> Vec<usize> {
    (0..FAULTS.len()).filter(|fault| set >> fault & 1 == 1).collect()
}

/// Puts one fault into the bytes of a good card.
fn spoil_bytes(random: &mut Random, fault: usize, card: &mut Vec<u8>) {
    match fault {
        5 if random.once_in(2) => card.push(b'N'),
        5 => card.truncate(random.pick(&[0, 1, 97])),
        6 => card[0] = b'4',
        // a blank is wrong behind the first digit (02, E2)
        7 if random.once_in(4) => card[45 + random.below(5)] = b' ',
        7 => card[44 + random.below(6)] = random.pick(b"x-\x00\xFF"),
        8 => card[97] = b'X',
        9 if random.once_in(2) => card[8] = if card[8] == b'1' { b'3' } else { b'1' },
        9 => card[16] = if card[16] == b'1' { b'3' } else { b'1' },
        // no origin stores one hundredth
        10 => card[28..38].copy_from_slice(b"+000000.01"),
        // the top row below any bottom row
        _ => card[38..44].copy_from_slice(b"999999"),
    }
}

/// Puts one fault into a call; those of the bytes are put in before the length is spoilt.
pub fn spoil(random: &mut Random, fault: usize, series: &mut Series, card: &mut Vec<u8>) {
    match fault {
        0 => series.scale = random.pick(&BAD_SCALES),
        1 => series.factor = random.pick(&BAD_FACTORS),
        2 => {
            series.factor = random.between(2, 64) as u64;
            let least = 20_000_000 / series.factor + 1;
            series.scale = random.pick(&[least, least, 20_000_000]);
        }
        3 => series.zone = random.pick(&BAD_ZONES),
        4 => series.zone = random.pick(&[9, 18]),
        _ => spoil_bytes(random, fault, card),
    }
}

/// Puts a set of faults into a call, the later ones first.
pub fn spoil_all(random: &mut Random, set: usize, series: &mut Series, card: &mut Vec<u8>) {
    for fault in faults_of(set).into_iter().rev() {
        spoil(random, fault, series, card);
    }
}
