//! Demand 3 by running, in each pair alone: a point asked down a list of cards of one scale, zone
//! and factor.
//! The place is the rule's, worked out from the first pixel alone and never rounded.

use super::ask_sheet::shown;
use super::blanks::pad_some;
use super::make::{all_chart, card, pixel, record, with_edges};
use super::random::Random;
use super::PAIRS;
use crate::rule;
use fordcask::{Card, OnCard, Pair, Pixel, Place, Position, Refusal, Series, Sheet};

/// How the calls of the later cards ended, and how many were answered on a card with blanks.
#[derive(Default, Debug, PartialEq)]
pub struct Ends {
    pub lists: u64,
    pub answered: u64,
    pub outside: u64,
    pub padding: u64,
    pub with_blanks: u64,
}

impl Ends {
    fn add(&mut self, other: &Ends) {
        self.lists += other.lists;
        self.answered += other.answered;
        self.outside += other.outside;
        self.padding += other.padding;
        self.with_blanks += other.with_blanks;
    }
}

/// The pixel of the card's tiles that has the place; there is at most one, as 128 × NFC ≤ A.
pub fn pixel_with(card: &Card, place: Place) -> Option<Pixel> {
    let record = &card.record;
    let a = card.spacing.a as i128;
    let row = 128 * record.n as i128 - place.row as i128;
    let column = rule::modulo(place.column as i128 - 128 * record.m as i128, a);
    let inside = (0..128 * record.nfl as i128).contains(&row) && column < 128 * record.nfc as i128;
    inside.then_some(Pixel { row: row as i64, column: column as i64 })
}

/// A card whose tiles have the place in a tile of their own choosing, or nearly have it.
pub fn cut(random: &mut Random, series: Series, place: Place) -> Vec<u8> {
    let (a, b) = rule::non_polar(series).expect("a spacing");
    let (pole, side) = ((b / 512) as i64, (a / 256) as i64);
    let miss = i64::from(random.once_in(8));
    // tiles above and to the left of the one with the place
    let (above, before) = (random.between(-miss, 3), random.between(-miss, 3));
    let n = (-(-place.row).div_euclid(128) + above).clamp(1 - pole, pole);
    let nfl = random.between(1.max(above + 1 - miss), 5).min(n + pole);
    let mut m = place.column.div_euclid(128) - before;
    // the same meridian on either side of 180 degrees
    if m > side {
        m -= 2 * side;
    }
    if m.abs() == side && random.once_in(2) {
        m = -m;
    }
    let nfc = random.between(1.max(before + 1 - miss), 5).min(2 * side);
    let mut record = with_edges(random, n, m, nfl, nfc);
    if random.once_in(2) {
        record = all_chart(n, m, nfl as u64, nfc as u64, false);
    }
    card(series, &record)
}

/// The place of a series' grid at a position, or one next to it.
pub fn place_at(series: Series, position: Position) -> Place {
    let (a, b) = rule::non_polar(series).expect("a spacing");
    let row = rule::nearest(i128::from(position.lat) * b, rule::H);
    let column = rule::modulo(rule::nearest(i128::from(position.lon) * a, rule::H), a);
    Place { row: row as i64, column: column as i64 }
}

/// A card of another series whose tiles have a position, or nearly have it.
pub fn over(random: &mut Random, series: Series, position: Position) -> Vec<u8> {
    cut(random, series, place_at(series, position))
}

/// Whether a position is within half a hundredth of a place, its corner or its centre.
pub fn near_place(pair: Pair, series: Series, place: Place, position: Position) -> bool {
    let (a, b) = rule::non_polar(series).expect("a spacing");
    let (lat, lon) = (i128::from(position.lat), i128::from(position.lon));
    // the exact place in half pixels north and east
    let (mut north, mut east) = (2 * i128::from(place.row), 2 * i128::from(place.column));
    if pair == Pair::Centre {
        (north, east) = (north - 1, east + 1);
    }
    let down = (2 * lat * b - north * rule::H).abs();
    let circle = 2 * a * rule::H;
    let across = rule::modulo(2 * lon * a - east * rule::H, circle);
    down <= b && across.min(circle - across) <= a
}

/// The calls of demand 3 down one list in one pair; each answer is held to the first pixel's place.
pub fn walk(pair: Pair, series: Series, cards: &[Vec<u8>], first: Pixel) -> Ends {
    let mut ends = Ends::default();
    let sheets = || cards.iter().map(|card| Sheet { series, card });
    let head = sheets().next().expect("a first card");
    let head_card = rule::read(series, head.card).expect("an accepted card");
    let place = rule::place(&head_card, first).expect("a pixel of the tiles").value;
    let Ok(OnCard { value: start, blanks }) = head.position_in(pair, first) else {
        return ends;
    };
    assert_eq!(blanks, head_card.blanks, "blanks: {}", shown(&head));
    assert!(near_place(pair, series, place, start), "{pair:?} {} {first:?}", shown(&head));
    ends.lists += 1;
    let mut last = start;
    for sheet in sheets().skip(1) {
        let call =
            || format!("{pair:?} {} from {}, {first:?}, {last:?}", shown(&sheet), shown(&head));
        let card = rule::read(series, sheet.card).expect("an accepted card");
        let blanks = card.blanks;
        match sheet.pixel_in(pair, last) {
            Ok(found) => {
                ends.answered += 1;
                ends.with_blanks += u64::from(blanks > 0);
                assert_eq!(found.blanks, blanks, "blanks: {}", call());
                let found_place = rule::place(&card, found.value);
                assert_eq!(found_place, Ok(OnCard { value: place, blanks }), "place: {}", call());
                let position = sheet.position_in(pair, found.value);
                assert_eq!(position, Ok(OnCard { value: start, blanks }), "position: {}", call());
                last = position.expect("a position").value;
            }
            Err(refusal) => refused(&card, place, refusal, &mut ends, call()),
        }
    }
    ends
}

/// 12 exactly where no pixel of the card's tiles has the place, else 13 and a padding pixel.
fn refused(card: &OnCard<Card>, place: Place, refusal: Refusal, ends: &mut Ends, call: String) {
    let number = match pixel_with(&card.value, place) {
        None => 12,
        Some(_) => 13,
    };
    assert_eq!(refusal, Refusal { number, at: 0 }, "refusal: {call}");
    match pixel_with(&card.value, place) {
        None => ends.outside += 1,
        Some(pixel) => {
            ends.padding += 1;
            let padding = rule::position(Pair::Corner, card, pixel).map_err(|r| r.number);
            assert_eq!(padding, Err(13), "a pixel of the padding: {call}");
        }
    }
}

/// A list of 2 to 8 cards round a pixel of the first, in each pair alone; a card may be repeated.
pub fn list(random: &mut Random, series: Series, ends: &mut Ends) {
    if let Some((cards, first)) = list_round(random, series) {
        walk_pairs(series, &cards, first, ends);
    }
}

/// The same with blanks put into most of the cards (02, E2).
pub fn padded_list(random: &mut Random, series: Series, ends: &mut Ends) {
    if let Some((mut cards, first)) = list_round(random, series) {
        for card in cards.iter_mut() {
            pad_some(random, card);
        }
        walk_pairs(series, &cards, first, ends);
    }
}

/// The calls down one list in each pair alone.
fn walk_pairs(series: Series, cards: &[Vec<u8>], first: Pixel, ends: &mut Ends) {
    let [corner, centre] = PAIRS.map(|pair| walk(pair, series, cards, first));
    assert_eq!(corner, centre, "the place alone tells how each call ends");
    ends.add(&corner);
}

/// Cards round a pixel of the first, where its tiles have it.
fn list_round(random: &mut Random, series: Series) -> Option<(Vec<Vec<u8>>, Pixel)> {
    let record = record(random, series, 4);
    let first = pixel(random, &record);
    let mut cards = vec![card(series, &record)];
    let read = rule::read(series, &cards[0]).expect("an accepted card");
    let place = rule::place(&read, first).ok()?.value;
    for _ in 0..random.between(1, 7) {
        let next = match random.below(8) {
            0 => random.pick(&cards.iter().collect::<Vec<_>>()).clone(),
            1 => {
                let record = super::make::record(random, series, 999);
                card(series, &record)
            }
            _ => cut(random, series, place),
        };
        cards.push(next);
    }
    Some((cards, first))
}

/// Every pixel of 4 by 5 tiles asked of 4 by 4, one down and two across; 12 outside these. Each
/// card tells its own total of blanks (02, E2).
pub fn common_pixels(pair: Pair, head: &Sheet, other: &Sheet) -> u64 {
    let [head_total, total] = [head, other].map(|sheet| {
        let read = rule::read(sheet.series, sheet.card);
        read.expect("an accepted card").blanks
    });
    let mut common = 0;
    for (row, column) in (0..512).flat_map(|row| (0..640).map(move |column| (row, column))) {
        let there = head.position_in(pair, Pixel { row, column }).expect("a pixel");
        let position = there.value;
        assert_eq!(there.blanks, head_total, "{pair:?} {row} {column}");
        let expected = Pixel { row: row - 128, column: column - 256 };
        let inside = expected.row >= 0 && expected.column >= 0;
        let found = other.pixel_in(pair, position);
        let right = OnCard { value: expected, blanks: total };
        let right = if inside { Ok(right) } else { Err(Refusal { number: 12, at: 0 }) };
        assert_eq!(found, right, "{pair:?} {row} {column}");
        if inside {
            common += 1;
            let again = other.position_in(pair, expected);
            let right = OnCard { value: position, blanks: total };
            assert_eq!(again, Ok(right), "{pair:?} {row} {column}");
        }
    }
    common
}
