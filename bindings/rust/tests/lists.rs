//! The list calls in both pairs: equal to the single calls, with lengths of every kind.

use crate::support;
use fordcask::{Pixel, Position, Series, Sheet};
use support::ask_lists::{pixels, positions, OLD_POSITION};
use support::make::{all_chart, card, chart, overview, pixel, record, town_chart, Maker};
use support::{no_blanks, or_zero, seeded, Ask, Random, PAIRS, SIGNED_ENDS, WORKED};

/// The worked card's first pixel in both pairs, a position outside it, and two out of range.
const ASKED_POSITIONS: [(i64, i64); 5] =
    [(4_143_223, -897_507), (4_143_061, -897_332), (0, 0), (32_400_001, 0), (0, 64_800_001)];

fn any_signed(random: &mut Random, near: i64) -> i64 {
    match random.below(8) {
        0 => random.pick(&SIGNED_ENDS),
        1 => random.next() as i64,
        2 => random.between(-64_800_002, 64_800_002),
        _ => near + random.between(-2_000, 2_000),
    }
}

/// The length of an output for `asked` items: right, longer, or shorter once in a while.
fn output_length(random: &mut Random, asked: usize) -> usize {
    match random.below(6) {
        0 => random.below(asked + 1),
        1 => asked + random.below(5),
        _ => asked,
    }
}

/// Lists to 40 items on random cards, some of them damaged.
fn asked_lists(test: &str, rounds: u32, maker: Maker) {
    let mut random = seeded(test);
    let mut ask = Ask::default();
    for round in 0..rounds {
        let series = maker(&mut random);
        let record = record(&mut random, series, 999);
        let mut card = card(series, &record);
        if round % 8 == 0 {
            card[random.below(98)] = random.byte();
        }
        let sheet = Sheet { series, card: &card };
        let asked = random.below(40);
        let list: Vec<Pixel> = (0..asked).map(|_| pixel(&mut random, &record)).collect();
        let out = output_length(&mut random, asked);
        let numbers = output_length(&mut random, asked);
        positions(&mut ask, &sheet, &list, out, numbers);
        let pair = random.pick(&PAIRS);
        let near = list.first().map(|pixel| or_zero(sheet.position_in(pair, *pixel)));
        let near = near.unwrap_or_default();
        let list: Vec<Position> = (0..asked)
            .map(|_| Position {
                lat: any_signed(&mut random, near.lat),
                lon: any_signed(&mut random, near.lon),
            })
            .collect();
        pixels(&mut ask, &sheet, &list, out, numbers);
    }
    ask.met("positions", &[0, 6, 7, 8, 9, 10, 11]);
    ask.met("pixels", &[0, 6, 7, 8, 9, 10, 11]);
    ask.met("listed positions", &[0, 12, 13]);
    ask.met("listed pixels", &[0, 4, 5, 12, 13]);
}

#[test]
fn random_lists() {
    asked_lists("random_lists", 30_000, chart);
}

#[test]
fn random_town_lists() {
    asked_lists("random_town_lists", 30_000, town_chart);
}

#[test]
fn random_overview_lists() {
    asked_lists("random_overview_lists", 20_000, overview);
}

/// Every combination of lengths 0..6, with good and refused cards, scales and zones.
#[test]
fn every_length() {
    let mut ask = Ask::default();
    let mut damaged = *WORKED;
    damaged[97] = b'X';
    let town = card(Series::chart(9_999, 17), &all_chart(100, -20, 2, 1, false));
    let cards: [(u64, u64, &[u8]); 11] = [
        (1_000_000, 1, WORKED),
        (1_000_000, 1, &damaged),
        (1_000_000, 1, &WORKED[..97]),
        (1_000_000, 1, &[]),
        (4_999, 1, WORKED),
        (1_000_000, 19, WORKED),
        (1_000_000, 9, WORKED),
        (9_999, 17, &town),
        (9_999, 17, WORKED),
        (9_999, 18, &town),
        (9_999, 17, &town[..97]),
    ];
    let asked = [(0, 0), (1, 1), (256, 0), (-1, 5), (255, 127), (3, 128)];
    let list = asked.map(|(row, column)| Pixel { row, column });
    let places = ASKED_POSITIONS.map(|(lat, lon)| Position { lat, lon });
    for (scale, zone, card) in cards {
        let sheet = Sheet { series: Series::chart(scale, zone), card };
        for length in 0..=6 {
            for out in 0..=8 {
                for numbers in 0..=8 {
                    positions(&mut ask, &sheet, &list[..length], out, numbers);
                    pixels(&mut ask, &sheet, &places[..length.min(5)], out, numbers);
                }
            }
        }
    }
    ask.met("positions", &[0, 1, 2, 3, 6, 8, 9]);
    ask.met("pixels", &[0, 1, 2, 3, 6, 8, 9]);
    // no padding in either card
    ask.met("listed positions", &[0, 12]);
    ask.met("listed pixels", &[0, 4, 5, 12]);
}

/// A long list: a whole row of pixels of a wide card.
#[test]
fn long_list() {
    let mut ask = Ask::default();
    let record = all_chart(40, -300, 4, 600, false);
    let series = Series::chart(250_000, 1);
    let card = card(series, &record);
    let sheet = Sheet { series, card: &card };
    let list: Vec<Pixel> = (-3..76_803).map(|column| Pixel { row: 300, column }).collect();
    positions(&mut ask, &sheet, &list, list.len(), list.len());
    for pair in PAIRS {
        let mut found = vec![OLD_POSITION; list.len()];
        let mut numbers = vec![77; list.len()];
        let answer = sheet.positions_in(pair, &list, &mut found, &mut numbers);
        assert_eq!(answer, Ok(no_blanks(())));
        assert_eq!(numbers.iter().filter(|n| **n == 12).count(), 6);
        pixels(&mut ask, &sheet, &found, list.len() + 1, list.len() + 2);
    }
    ask.met("positions", &[0]);
    ask.met("pixels", &[0]);
    ask.met("listed positions", &[0, 12]);
    ask.met("listed pixels", &[0, 12]);
}
