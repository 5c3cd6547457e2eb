//! Benchmarks of libfordcask.a against the plain rule in Rust.

mod bit_windows;
mod bits;
mod cards;
mod corrections;
mod doubles;
mod exact;
mod images;
mod inputs;
mod lean;
mod lists;
mod lookup;
mod plain;
mod random;
mod single;
mod timing;

use fordcask::Series;
use random::Random;

const SEED: u64 = 0x0046_4F52_4443_4153;

/// A question's letter and its benchmarks.
type Question = (&'static str, fn(&mut Random));

const QUESTIONS: [Question; 13] = [
    ("a", lists::positions),
    ("b", lists::pixels),
    ("c", single::position_calls),
    ("c", single::pixel_calls),
    ("d", cards::read),
    ("e", cards::write),
    ("f", images::index_check),
    ("g", images::window),
    ("h", lookup::lookup),
    ("i", corrections::lookup),
    ("i", corrections::window),
    ("j", bits::lookup),
    ("j", bit_windows::window),
];

/// Runs the questions named by letter, or all.
fn main() {
    let named: Vec<String> = std::env::args().skip(1).collect();
    check_plain();
    println!("seed {SEED:#018x}, {} rounds", timing::ROUNDS);
    timing::header();
    for (letter, question) in QUESTIONS {
        if named.is_empty() || named.iter().any(|name| name == letter) {
            question(&mut Random::new(SEED));
        }
    }
    if timing::wrong() != 0 {
        eprintln!("{} lines differ from the plain rule", timing::wrong());
        std::process::exit(1);
    }
}

/// The plain rule on the card and the figures of document 01.
fn check_plain() {
    let mut card = [0; plain::CARD];
    card[..80].copy_from_slice(
        b"30036966400400384-0022935.07+113032.23000000000127000255000000002001000128000128",
    );
    card[80..].copy_from_slice(b"01008BASE0101.IMGN");
    let series = Series::chart(1_000_000, 1);
    let ask = |row, column| plain::grid::position::<false>(series, &card, row, column);
    assert_eq!(ask(0, 0), Ok((4_143_223, -897_507)));
    assert_eq!(ask(1, 1), Ok((4_142_899, -897_156)));
    assert_eq!(ask(256, 0), plain::refuse(12, 0));
    let found = plain::grid::pixel::<false>(series, &card, 4_142_899, -897_156);
    assert_eq!(found, Ok((1, 1)));
    let centre = plain::grid::position::<true>(series, &card, 1, 1);
    assert_eq!(centre, Ok((4_142_737, -896_981)));
    let found = plain::grid::pixel::<true>(series, &card, 4_142_737, -896_981);
    assert_eq!(found, Ok((1, 1)));
}
