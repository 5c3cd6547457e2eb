//! Every question on a padded card answers as on the card without blanks, with the total; where it
//! refuses there is no total (02, E2).

use crate::support;
use fordcask::{Pair, Pixel, Position, Refusal, Series, Sheet};
use support::ask_all::{ask_all, QUESTIONS};
use support::ask_lists::{pixels, positions, OLD_POSITION};
use support::blanks::{pad_some, Twins};
use support::damage::{blank_damage, change_some};
use support::make::{all_chart, card, chart, overview, pixel, record, town_chart, town_overview};
use support::make::{changes_of, Maker, BAD_FACTORS, BAD_SCALES, BAD_ZONES};
use support::{or_zero, seeded, Ask, Random, PAIRS, SIGNED_ENDS};

const MAKERS: [Maker; 4] = [chart, town_chart, overview, town_overview];

/// A position near another, or at the ends of the ranges and of i64.
fn some_position(random: &mut Random, near: Position) -> Position {
    let lat = near.lat + random.between(-900, 900);
    let lon = near.lon + random.between(-900, 900);
    match random.below(10) {
        0 => Position { lat: random.pick(&SIGNED_ENDS), lon },
        1 => Position { lat, lon: random.pick(&SIGNED_ENDS) },
        2 => Position { lat: 32_400_001, lon },
        3 => Position { lat, lon: -64_800_001 },
        _ => Position { lat, lon },
    }
}

/// Place, position and pixel in both pairs on random cards of every kind.
#[test]
fn single_questions() {
    let mut random = seeded("single_questions");
    let mut ask = Ask::default();
    for round in 0..40_000 {
        let series = MAKERS[round % 4](&mut random);
        let record = record(&mut random, series, most_tiles(round));
        let twins = Twins::of(&mut random, series, &record);
        let asked = pixel(&mut random, &record);
        let _ = twins.same(|sheet| ask.place(sheet, asked));
        for pair in PAIRS {
            let there = twins.same(|sheet| ask.position_in(pair, sheet, asked));
            if let Ok(there) = there {
                let back = twins.same(|sheet| ask.pixel_in(pair, sheet, there.value));
                assert_eq!(back.map(|told| (told.value, told.blanks)), Ok((asked, twins.put)));
            }
            let position = some_position(&mut random, or_zero(there));
            let _ = twins.same(|sheet| ask.pixel_in(pair, sheet, position));
        }
    }
    ask.met("place", &[0, 12]);
    ask.met("position", &[0, 12, 13]);
    ask.met("pixel", &[0, 4, 5, 12, 13]);
    for question in ["place", "position", "pixel"] {
        ask.met_totals(question, 0..=28);
    }
}

/// Few tiles and many in turn.
fn most_tiles(round: usize) -> i64 {
    [3, 999, 9][round % 3]
}

/// A list on both cards: one answer and one set of buffers, with refused entries among the others.
fn same_lists(twins: &Twins, pair: Pair, list: &[Pixel], lengths: (usize, usize)) -> Vec<u32> {
    let [plain, padded] = twins.sheets().map(|sheet| {
        let (mut out, mut numbers) = (vec![OLD_POSITION; lengths.0], vec![77; lengths.1]);
        let answer = sheet.positions_in(pair, list, &mut out, &mut numbers);
        (answer.map(|told| told.blanks), out, numbers)
    });
    assert_eq!(plain.0.map(|_| twins.put), padded.0, "{:?}", twins.series);
    assert!(plain.0.unwrap_or(0) == 0 && (plain.1, plain.2) == (padded.1, padded.2.clone()));
    match padded.0 {
        Ok(_) => padded.2,
        Err(refusal) => vec![refusal.number],
    }
}

/// Lists to 12 items; the total is told though entries are refused, and not where the list is.
#[test]
fn lists() {
    let mut random = seeded("lists");
    let mut ask = Ask::default();
    let (mut some_refused, mut all_refused) = (0, 0);
    for round in 0..20_000 {
        let series = MAKERS[round % 4](&mut random);
        let record = record(&mut random, series, most_tiles(round));
        let twins = Twins::of(&mut random, series, &record);
        let asked = random.below(13);
        let list: Vec<Pixel> = (0..asked).map(|_| pixel(&mut random, &record)).collect();
        let short = usize::from(random.once_in(8));
        let (out, numbers) = (asked + random.below(3), (asked + 1).saturating_sub(2 * short));
        let [plain, padded] = twins.sheets();
        let near = list.first().map(|pixel| or_zero(plain.position(*pixel))).unwrap_or_default();
        let there: Vec<Position> = (0..asked).map(|_| some_position(&mut random, near)).collect();
        for sheet in [plain, padded] {
            positions(&mut ask, &sheet, &list, out, numbers);
            pixels(&mut ask, &sheet, &there, out, numbers);
        }
        let ends = same_lists(&twins, random.pick(&PAIRS), &list, (out, numbers));
        let refused = ends.iter().filter(|number| [12, 13].contains(*number)).count();
        some_refused += u64::from(twins.put > 0 && refused > 0 && refused < asked);
        all_refused += u64::from(twins.put > 0 && refused > 0 && refused == asked);
    }
    assert!(some_refused > 8_000 && all_refused > 300, "{some_refused} and {all_refused}");
    for question in ["positions", "pixels"] {
        ask.met(question, &[0, 6]);
        ask.met_totals(question, 0..=28);
    }
    ask.met("listed positions", &[0, 12, 13]);
    ask.met("listed pixels", &[0, 4, 5, 12, 13]);
}

/// Padded cards, damaged or not, with scale, factor and zone good or refused, in every question.
#[test]
fn damaged_cards() {
    let mut random = seeded("damaged_cards");
    let mut ask = Ask::default();
    for round in 0..24_000 {
        let mut series = MAKERS[round % 4](&mut random);
        let record = record(&mut random, series, 3);
        let good = Twins::of(&mut random, series, &record).padded;
        let other = Sheet { series, card: &good };
        let pixel = pixel(&mut random, &record);
        let position = or_zero(other.position_in(random.pick(&PAIRS), pixel));
        let mut card = good.clone();
        match random.below(4) {
            0 => change_some(&mut random, &mut card),
            1 => blank_damage(&mut random, &mut card),
            _ => (),
        }
        match round % 24 {
            0 => series.scale = random.pick(&BAD_SCALES),
            1 => series.factor = random.pick(&BAD_FACTORS),
            2 => series.zone = random.pick(&BAD_ZONES),
            3 => series.zone = random.pick(&[9, 18]),
            4 => card.truncate(random.below(98)),
            _ => (),
        }
        ask_all(&mut ask, &Sheet { series, card: &card }, &other, pixel, position);
    }
    for question in ["read", "positions", "pixels", "index_check"] {
        ask.met(question, &[0, 1, 2, 3, 6, 7, 8, 9, 10, 11, 17]);
    }
    for question in ["position", "pixel", "tile", "bands", "overview_pixel"] {
        ask.met(question, &[0, 1, 2, 3, 6, 7, 8, 9, 10, 11, 12, 13, 17]);
    }
    for question in QUESTIONS.into_iter().chain(["stored", "overview of a chart"]) {
        ask.met_totals(question, 5..=24);
    }
}

/// Every third one-byte change of a padded card, in every question.
#[test]
fn one_byte_changes() {
    let mut random = seeded("one_byte_changes");
    let mut ask = Ask::default();
    let series = Series { scale: 312_500, factor: 64, zone: 17 };
    let mut good = card(series, &all_chart(20, -10, 2, 1, false));
    while pad_some(&mut random, &mut good) == 0 {}
    let other = Sheet { series, card: &good };
    for card in changes_of(&good).step_by(3) {
        let sheet = Sheet { series, card: &card };
        let pixel = Pixel { row: random.between(-2, 258), column: random.between(-2, 130) };
        let position = or_zero(other.position_in(random.pick(&PAIRS), pixel));
        ask_all(&mut ask, &sheet, &other, pixel, position);
    }
    for question in ["position", "pixel", "overview_pixel"] {
        ask.met(question, &[0, 7, 8, 9, 10, 11, 12, 13]);
    }
    ask.met("positions", &[0, 7, 8, 9, 10, 11]);
    ask.met("pixels", &[0, 7, 8, 9, 10, 11]);
}

/// 12, 13, 4 and 5 of a padded card are those of the card without blanks.
#[test]
fn refusals() {
    let series = Series::chart(1_000_000, 1);
    let mut record = all_chart(100, -20, 2, 2, false);
    (record.nul, record.nll, record.nls, record.nus) = (20, 200, 30, 220);
    let mut random = seeded("refusals");
    let at = |row, column| Pixel { row, column };
    let pixels = [(at(20, 30), 0), (at(19, 30), 13), (at(20, 221), 13), (at(-1, 30), 12)];
    let more = [(at(20, 256), 12), (at(256, 20), 12), (at(i64::MIN, i64::MAX), 12)];
    for _ in 0..200 {
        let twins = Twins::of(&mut random, series, &record);
        for pair in PAIRS {
            for (pixel, number) in pixels.into_iter().chain(more) {
                let found = twins.same(|sheet| sheet.position_in(pair, pixel));
                assert_eq!(found.err().map_or(0, |refusal| refusal.number), number);
            }
            for (lat, lon, number) in [(32_400_001, 64_800_001, 4), (0, 64_800_001, 5), (0, 0, 12)]
            {
                let found = twins.same(|sheet| sheet.pixel_in(pair, Position { lat, lon }));
                assert_eq!(found, Err(Refusal { number, at: 0 }));
            }
        }
    }
}
