//! Scale, factor and product on both sides of each edge in every question that takes them, and
//! the order of the refusals: 1, 24, 17, 1 again, then the question's own (02, E4 and E13).

use crate::{rule, support};
use fordcask::{Pixel, Series, Sheet};
use support::ask_all::{ask_all, QUESTIONS};
use support::edges::{first, of_scale, of_series, of_zone, scales_at, FACTOR_EDGES};
use support::make::{all_chart, card, overview, BAD_FACTORS, BAD_SCALES, BAD_ZONES, ZONES};
use support::{or_zero, seeded, Ask, PAIRS, WORKED, WORKED_SERIES};

const POLE: i64 = 32_400_000;
const DATE_LINE: i64 = 64_800_000;
const LATS: [i64; 6] = [0, POLE, -POLE, POLE + 1, -POLE - 1, i64::MIN];
const LONS: [i64; 6] = [0, DATE_LINE, -DATE_LINE, DATE_LINE + 1, -DATE_LINE - 1, i64::MAX];

/// Every factor from 0 to 66 and the edges, with each scale to ask at it.
fn scales_and_factors() -> Vec<(u64, u64)> {
    let factors = (0..=66).chain(FACTOR_EDGES).chain(BAD_FACTORS);
    factors.flat_map(|k| scales_at(k).into_iter().map(move |scale| (scale, k))).collect()
}

/// The number of an answer, 0 where there is no refusal; the place is always 0 here.
fn number<T>(answer: Result<T, fordcask::Refusal>) -> u32 {
    answer.map_or_else(
        |refusal| {
            assert_eq!(refusal.at, 0, "the place of {refusal}");
            refusal.number
        },
        |_| 0,
    )
}

fn of_lat(lat: i64) -> u32 {
    if (-POLE..=POLE).contains(&lat) {
        0
    } else {
        4
    }
}

fn of_lon(lon: i64) -> u32 {
    if (-DATE_LINE..=DATE_LINE).contains(&lon) {
        0
    } else {
        5
    }
}

/// Spacing: 1, 17, 1, 2; the polar zones are answered.
#[test]
fn spacing_order() {
    let mut ask = Ask::default();
    for (scale, factor) in scales_and_factors() {
        for zone in (1..=18).chain(BAD_ZONES) {
            let series = Series { scale, factor, zone };
            let of_zone = if (1..=18).contains(&zone) { 0 } else { 2 };
            let right = first(&[of_scale(scale, factor, false), of_zone]);
            assert_eq!(number(ask.spacing(series)), right, "{series:?}");
        }
    }
    ask.met("spacing", &[0, 1, 2, 17]);
}

/// Cover: 1, 17, 1, 4.
#[test]
fn cover_order() {
    let mut ask = Ask::default();
    for (scale, factor) in scales_and_factors() {
        for lat in LATS {
            let right = first(&[of_scale(scale, factor, false), of_lat(lat)]);
            let found = number(ask.cover(scale, factor, lat));
            assert_eq!(found, right, "cover({scale}, {factor}, {lat})");
        }
    }
    ask.met("cover", &[0, 1, 4, 17]);
}

/// Rectangles: 1, 17, 1, south 4, north 4, 16.
#[test]
fn rectangle_order() {
    let mut ask = Ask::default();
    for (scale, factor) in scales_and_factors() {
        for south in LATS {
            for north in LATS {
                let upside_down = if south >= north { 16 } else { 0 };
                let own = [of_lat(south), of_lat(north), upside_down];
                let right = first(&[of_scale(scale, factor, false), first(&own)]);
                let found = number(ask.rectangle(scale, factor, south, north));
                assert_eq!(found, right, "rectangle({scale}, {factor}, {south}, {north})");
            }
        }
    }
    ask.met("rectangle", &[0, 1, 4, 16, 17]);
}

/// Alignment: 1, 24, 17, 1, 2, 3, 4, 5.
#[test]
fn alignment_order() {
    let mut random = seeded("alignment_order");
    let mut ask = Ask::default();
    for (scale, factor) in scales_and_factors() {
        for zone in (1..=18).chain(BAD_ZONES) {
            for lat in LATS {
                let lon = random.pick(&LONS);
                let series = Series { scale, factor, zone };
                let stated = [of_scale(scale, factor, true), of_zone(zone)];
                let right = first(&[first(&stated), of_lat(lat), of_lon(lon)]);
                let found = number(ask.align(series, lat, lon));
                assert_eq!(found, right, "align({series:?}, {lat}, {lon})");
            }
        }
    }
    ask.met("align", &[0, 1, 2, 3, 4, 5, 17, 24]);
}

/// Reading: 1, 17, 1, 2, 3, 6, then the bytes; the card is empty, short, long, of no kind or 98.
#[test]
fn reading_order() {
    let mut random = seeded("reading_order");
    let mut ask = Ask::default();
    let long = [WORKED.as_slice(), b"0"].concat();
    let cards: [&[u8]; 5] = [&[], &WORKED[..97], &long, &[b'x'; 98], WORKED];
    for (scale, factor) in scales_and_factors() {
        for zone in (1..=18).chain(BAD_ZONES) {
            let series = Series { scale, factor, zone };
            let card = random.pick(&cards);
            let right = of_series(series);
            let found = ask.read(series, card).map_err(|refusal| refusal.number);
            match (right, card.len(), card[..].first()) {
                (0, 98, Some(b'x')) => assert_eq!(found, Err(7), "{series:?}"),
                // the worked card at its own spacing, or at another one
                (0, 98, _) if scale * factor == 1_000_000 && zone % 9 == 1 => {
                    assert!(found.is_ok(), "{series:?}")
                }
                (0, 98, _) => assert_eq!(found, Err(9), "{series:?}"),
                (0, _, _) => assert_eq!(found, Err(6), "{series:?}"),
                (_, _, _) => assert_eq!(found, Err(right), "{series:?}"),
            }
        }
    }
    ask.met("read", &[0, 1, 2, 3, 6, 7, 9, 17]);
    ask.met_at("read", 17, &[0]);
}

/// Writing: 1, 24, 17, 1, 2, 3, 6, then the record's.
#[test]
fn writing_order() {
    let mut random = seeded("writing_order");
    let mut ask = Ask::default();
    let good = all_chart(9, -3, 2, 2, true);
    for (scale, factor) in scales_and_factors() {
        for zone in (1..=18).chain(BAD_ZONES) {
            let series = Series { scale, factor, zone };
            let mut record = good;
            let out_len = random.pick(&[0, 97, 98, 99]);
            if random.once_in(2) {
                record.nfl = 1_000;
            }
            let stated = first(&[of_scale(scale, factor, true), of_zone(zone)]);
            let short = if out_len < 98 { 6 } else { 0 };
            let right = first(&[stated, short, if record.nfl == 1_000 { 8 } else { 0 }]);
            let found = ask.write(series, &record, out_len).map_err(|refusal| refusal.number);
            assert_eq!(found.err().unwrap_or(0), right, "{series:?} into {out_len}");
        }
    }
    ask.met("write", &[0, 1, 2, 3, 6, 8, 17, 24]);
    ask.met_at("write", 17, &[0]);
}

/// Every question on a card: what is stated beside it is judged before the card, 17 never late.
#[test]
fn questions_on_a_card() {
    let mut random = seeded("questions_on_a_card");
    let mut ask = Ask::default();
    let worked = Sheet { series: WORKED_SERIES, card: WORKED };
    let pixel = Pixel { row: 1, column: 1 };
    for (scale, factor) in scales_and_factors() {
        for zone in [random.pick(&ZONES), random.pick(&[9, 18]), random.pick(&BAD_ZONES)] {
            let series = Series { scale, factor, zone };
            let (short, pair) = (random.pick(&[98, 98, 97, 0]), random.pick(&PAIRS));
            let mut bytes = match of_series(series) {
                0 => card(series, &all_chart(9, -3, 2, 1, false)),
                _ => WORKED.to_vec(),
            };
            let position = rule::read(series, &bytes).and_then(|c| rule::position(pair, &c, pixel));
            let position = or_zero(position);
            let whole = bytes.clone();
            bytes.truncate(short);
            let other = random.pick(&[worked, Sheet { series, card: &whole }]);
            let far = Pixel { row: random.pick(&[1, -1, 256]), ..pixel };
            ask_all(&mut ask, &Sheet { series, card: &bytes }, &other, far, position);
        }
    }
    for question in QUESTIONS {
        let mut numbers = vec![0, 1, 2, 3, 6, 17];
        let at_a_pixel = ["place", "position", "overview_pixel", "corrected_tile"];
        let of_a_tile = ["tile", "bands", "corrected_bands"];
        if at_a_pixel.contains(&question) || of_a_tile.contains(&question) {
            numbers.insert(5, 12);
        }
        ask.met(question, &numbers);
    }
}

/// Any numbers at all: never an answer but for a scale, a factor and a product in their ranges.
#[test]
fn any_numbers() {
    let mut random = seeded("any_numbers");
    let mut ask = Ask::default();
    for _ in 0..300_000 {
        let mut series = overview(&mut random);
        match random.below(4) {
            0 => series.scale = random.next() >> random.below(64),
            1 => series.factor = random.next() >> random.below(64),
            2 => series.zone = random.next() >> random.below(64),
            _ => series.factor = random.pick(&BAD_FACTORS),
        }
        if random.once_in(4) {
            series.scale = random.pick(&BAD_SCALES);
        }
        let (lat, lon) = (random.between(-POLE, POLE), random.between(-DATE_LINE, DATE_LINE));
        let _ = ask.spacing(series);
        let _ = ask.cover(series.scale, series.factor, lat);
        let _ = ask.rectangle(series.scale, series.factor, lat, lon);
        let _ = ask.align(series, lat, lon);
        let _ = ask.read(series, WORKED);
        let _ = ask.write(series, &all_chart(9, -3, 1, 1, false), 98);
    }
    ask.met("spacing", &[0, 1, 2, 17]);
    ask.met("align", &[0, 1, 2, 3, 17, 24]);
    ask.met("write", &[0, 1, 2, 3, 17, 24]);
}
