//! Windows over presence bits, with corrections and without, over words, counts and lists of every
//! kind, compared with the rule (02, E7).

use crate::{bits_support, support};
use bits_support::{any_bits, right_bits, words_of, BitImage};
use fordcask::{Bits, Corrections, Series, Sheet, Window};
use support::corrections::every_window;
use support::index::any_window;
use support::make::{all_chart, card, chart, overview, town_chart, Maker};
use support::{seeded, Ask};

const QUESTIONS: [&str; 2] = ["bits_window", "corrected_bits_window"];

/// Windows of images of one to three words, with everything good and wrong.
fn random_windows(test: &str, rounds: u32, maker: Maker) {
    let mut random = seeded(test);
    let mut ask = Ask::default();
    for _ in 0..rounds {
        let image = any_bits(&mut random, maker);
        let (record, lent) = (image.held.record, image.with(&[], &[]));
        let all = Window { top: 0, left: 0, height: record.nfl, width: record.nfc };
        let top = random.below(record.nfl as usize) as u64;
        let lower = Window { top, height: record.nfl - top, ..all };
        let [some, other] = [(); 2].map(|_| any_window(&mut random, &record));
        for window in [all, lower, some, other] {
            ask.all_windows(&lent, window);
        }
    }
    for question in QUESTIONS {
        ask.met(question, &[0, 6, 12, 15, 21]);
        ask.met_at(question, 21, &[0]);
    }
}

#[test]
fn charts() {
    random_windows("charts", 120_000, chart);
}

#[test]
fn town_charts() {
    random_windows("town_charts", 40_000, town_chart);
}

#[test]
fn overviews() {
    random_windows("overviews", 40_000, overview);
}

/// Every window of images whose lengths are right.
#[test]
fn each_window() {
    let mut random = seeded("each_window");
    let mut ask = Ask::default();
    let (mut missing, mut none) = (0, 0);
    for round in 0..1_000 {
        let image = right_bits(&mut random, [chart, town_chart, overview][round % 3]);
        let lent = image.with(&[], &[]);
        let step = 1 + image.held.tiles() / 10;
        for window in every_window(&image.held.record).into_iter().step_by(step) {
            ask.all_windows(&lent, window);
            match lent.sheet.bits_window(lent.bits, window).map(|told| told.value) {
                Ok(Some(_)) => missing += 1,
                Ok(None) => none += 1,
                Err(_) => (),
            }
        }
    }
    assert!(missing > 2_000 && none > 2_000, "{missing} missing, {none} none");
    for question in QUESTIONS {
        ask.met(question, &[0, 15]);
    }
}

/// Every word of three tiles and one bit more, every count and list of some, every window.
#[test]
fn every_small_word() {
    let mut ask = Ask::default();
    let series = Series::chart(1_000_000, 1);
    for tif in [true, false] {
        let card = card(series, &all_chart(9, 9, 1, 3, tif));
        let sheet = Sheet { series, card: &card };
        for (word, count) in (0..16).flat_map(|word| (0..4).map(move |count| (word, count))) {
            let words = if tif { vec![word] } else { Vec::new() };
            for (code, corrected) in (0..64).flat_map(|code| [0, 1, 2].map(|c| (code, c))) {
                let list = [code % 4, code / 4 % 4, code / 16];
                let image = BitImage {
                    sheet,
                    bits: Bits { words: &words, count },
                    store: &[],
                    corrections: Corrections { list: &list, count: corrected },
                    second: &[],
                };
                for (left, width) in [(0, 3), (0, 1), (1, 2), (2, 1), (1, 1), (0, 0), (3, 0)] {
                    ask.all_windows(&image, Window { top: 0, left, height: 1, width });
                }
            }
        }
    }
    for question in QUESTIONS {
        ask.met(question, &[0, 6, 15, 21]);
    }
}

/// Sides at the ends of u64, whose sums are small numbers if 64 bits are kept, and empty windows
/// outside.
#[test]
fn far_windows() {
    let mut ask = Ask::default();
    let ends = [0, 1, 2, 3, 4, 1 << 32, (1 << 32) + 1, 1 << 63, u64::MAX - 1, u64::MAX];
    let series = Series { scale: 312_500, factor: 64, zone: 17 };
    for tif in [true, false] {
        let card = card(series, &all_chart(9, -3, 2, 3, tif));
        let (words, count): (&[u64], u64) = if tif { (&[0b100101], 3) } else { (&[], 6) };
        let image = BitImage {
            sheet: Sheet { series, card: &card },
            bits: Bits { words, count },
            store: &[],
            corrections: Corrections { list: &[0, 1, 0, 2, 0, 0], count: 2 },
            second: &[],
        };
        let sides: Vec<(u64, u64)> =
            ends.into_iter().flat_map(|first| ends.map(|length| (first, length))).collect();
        for &(top, height) in &sides {
            for &(left, width) in &sides {
                ask.all_windows(&image, Window { top, left, height, width });
            }
        }
    }
    for question in QUESTIONS {
        ask.met(question, &[0, 12]);
    }
}

/// Each tile alone missing, or the first above the count, in images of one to three words.
#[test]
fn each_tile() {
    for (nfl, nfc) in [(1, 1), (1, 5), (5, 1), (7, 9), (8, 8), (5, 13), (127, 1), (8, 16), (3, 43)]
    {
        let series = Series::chart(9_999, 3);
        let card = card(series, &all_chart(127, 0, nfl, nfc, true));
        let sheet = Sheet { series, card: &card };
        let all = Window { top: 0, left: 0, height: nfl, width: nfc };
        let tiles = nfl * nfc;
        for tile in 0..tiles {
            let mut present = vec![true; tiles as usize];
            let words = words_of(&present);
            let ask = |words: &[u64], count| {
                let found = sheet.bits_window(Bits { words, count }, all);
                found.map(|told| told.value).map_err(|refusal| (refusal.number, refusal.at))
            };
            assert_eq!(ask(&words, tile), Err((15, tile)), "{tile} of {nfl} by {nfc}");
            present[tile as usize] = false;
            let words = words_of(&present);
            assert_eq!(ask(&words, tile), Ok(Some(tile)), "{tile} of {nfl} by {nfc}");
            assert_eq!(ask(&words, tiles), Ok(Some(tile)), "{tile} of {nfl} by {nfc}");
            if tile > 0 {
                assert_eq!(ask(&words, tile - 1), Err((15, tile - 1)), "{tile} of {nfl} by {nfc}");
            }
        }
    }
}
