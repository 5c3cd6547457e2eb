//! At the town scales, 1:5,000 to 1:9,999, writing and alignment refuse 24 after 1 (02, E13).

use crate::{rule, support};
use fordcask::{Record, Series};
use support::make::{all_chart, card, record, town_chart, BAD_ZONES, ZONES};
use support::{seeded, Ask, Random, RETIRED};

const POLE: i64 = 32_400_000;
const DATE_LINE: i64 = 64_800_000;

/// Both sides of each end, and numbers that would be town scales if fewer bits were kept.
const EDGES: [u64; 22] = [
    0,
    1,
    4_998,
    4_999,
    5_000,
    5_001,
    7_500,
    9_998,
    9_999,
    10_000,
    10_001,
    5_000 + (1 << 16),
    9_999 + (1 << 16),
    20_000_000,
    20_000_001,
    5_000 + (1 << 32),
    9_999 + (1 << 32),
    7_500 + (1 << 48),
    5_000 + (1 << 63),
    u64::MAX - 9_998,
    u64::MAX - 4_999,
    u64::MAX,
];

/// What the scale alone gives in writing and alignment; 0 is an answer.
fn of_scale(scale: u64) -> u32 {
    match scale {
        5_000..=9_999 => 24,
        10_000..=20_000_000 => 0,
        _ => 1,
    }
}

/// What the zone alone gives.
fn of_zone(zone: u64) -> u32 {
    match zone {
        9 | 18 => 3,
        1..=18 => 0,
        _ => 2,
    }
}

/// A record that is good at every scale and zone, or one of this scale.
fn good_record(random: &mut Random, series: Series) -> Record {
    if rule::non_polar(series).is_err() || random.once_in(4) {
        return all_chart(9, -3, 2, 2, random.once_in(2));
    }
    record(random, series, 999)
}

/// A good point aligned and a good record written: the scale alone decides.
fn ask_scale(ask: &mut Ask, random: &mut Random, series: Series) {
    let scale = series.scale;
    let (lat, lon) = (random.between(-POLE, POLE), random.between(-DATE_LINE, DATE_LINE));
    let aligned = ask.align(series, lat, lon);
    assert_eq!(aligned.map_or_else(|r| r.number, |_| 0), of_scale(scale), "aligned at 1:{scale}");
    let record = good_record(random, series);
    let written = ask.write(series, &record, 98 + random.below(4));
    assert_eq!(written.map_or_else(|r| r.number, |_| 0), of_scale(scale), "written at 1:{scale}");
}

/// Every scale to 20,100 and the edges, in every zone; and scales of every band.
#[test]
fn every_scale() {
    let mut random = seeded("every_scale");
    let mut ask = Ask::default();
    for scale in (0..=20_100).chain(EDGES) {
        for zone in ZONES {
            ask_scale(&mut ask, &mut random, Series::chart(scale, zone));
        }
    }
    for _ in 0..60_000 {
        let scale = support::make::scale(&mut random);
        let zone = random.pick(&ZONES);
        ask_scale(&mut ask, &mut random, Series::chart(scale, zone));
    }
    for question in ["align", "write"] {
        ask.met(question, &[0, 1, 24]);
        ask.met_at(question, 24, &[0]);
    }
}

/// The first number that is not 0.
fn first(numbers: [u32; 4]) -> u32 {
    numbers.into_iter().find(|number| *number != 0).unwrap_or(0)
}

/// Alignment: 1, 24, 2, 3, 4, 5; each alone, each with each other and all together.
#[test]
fn alignment_order() {
    let mut ask = Ask::default();
    let lats = [0, POLE, -POLE, POLE + 1, -POLE - 1, i64::MIN, i64::MAX];
    let lons = [0, DATE_LINE, -DATE_LINE, DATE_LINE + 1, -DATE_LINE - 1, i64::MIN, i64::MAX];
    for scale in EDGES {
        for zone in (1..=18).chain(BAD_ZONES) {
            let series = Series::chart(scale, zone);
            for lat in lats {
                for lon in lons {
                    let of_lat = if (-POLE..=POLE).contains(&lat) { 0 } else { 4 };
                    let of_lon = if (-DATE_LINE..=DATE_LINE).contains(&lon) { 0 } else { 5 };
                    let right = first([of_scale(scale), of_zone(zone), of_lat, of_lon]);
                    let found = ask.align(series, lat, lon);
                    let found = found.map_or_else(|r| (r.number, r.at), |_| (0, 0));
                    assert_eq!(found, (right, 0), "align({scale}, {zone}, {lat}, {lon})");
                }
            }
        }
    }
    ask.met("align", &[0, 1, 2, 3, 4, 5, 24]);
}

/// What follows the scale in writing's order, number and place (01, "Order").
const FAULTS: [(u32, u64); 8] =
    [(2, 0), (3, 0), (6, 0), (8, 62), (8, 65), (7, 85), (10, 0), (11, 0)];

/// Scale, zone, a record and the length of an output.
struct Case {
    series: Series,
    record: Record,
    out_len: usize,
}

/// Puts one fault into a case.
fn spoil(random: &mut Random, (a, b): (i128, i128), fault: (u32, u64), case: &mut Case) {
    let record = &mut case.record;
    let (north, east) = ((b / 512) as i64, (a / 256) as i64);
    match fault {
        (2, _) => case.series.zone = random.pick(&BAD_ZONES),
        (3, _) => case.series.zone = random.pick(&[9, 18]),
        (6, _) => case.out_len = random.pick(&[0, 1, 24, 50, 96, 97]),
        (8, 62) => record.nfl = random.pick(&[0, 1_000, u64::MAX]),
        (8, _) => record.nfc = random.pick(&[0, 1_000, u64::MAX]),
        (7, _) => record.bad[random.below(12)] = random.pick(b"a \x00\xFF"),
        (10, _) if random.once_in(2) => {
            record.n = random.pick(&[north + 1, -north - 1, i64::MIN, i64::MAX])
        }
        (10, _) => record.m = random.pick(&[east + 1, -east - 1, i64::MIN, i64::MAX]),
        _ if random.once_in(2) => record.nul = record.nll + 1,
        _ => record.nus = record.nfc.wrapping_mul(128),
    }
}

/// Writing: 1, 24, then the faults in their order; every set of them that a call can have.
#[test]
fn writing_order() {
    let mut random = seeded("writing_order");
    let mut ask = Ask::default();
    for scale in EDGES {
        for set in (0..1 << FAULTS.len()).filter(|set| set & 3 != 3) {
            for _ in 0..12 {
                let series = Series::chart(scale, random.pick(&ZONES));
                let out_len = random.pick(&[98, 99, 130, 1_000]);
                let record = good_record(&mut random, series);
                let mut case = Case { series, record, out_len };
                let spacing = rule::non_polar(series).unwrap_or((369_664, 400_384));
                let in_set = (0..FAULTS.len()).filter(|i| set >> i & 1 == 1);
                let faults: Vec<(u32, u64)> = in_set.map(|i| FAULTS[i]).collect();
                for fault in &faults {
                    spoil(&mut random, spacing, *fault, &mut case);
                }
                let right = match of_scale(scale) {
                    0 => faults.first().copied().unwrap_or((0, 0)),
                    number => (number, 0),
                };
                let found = ask.write(case.series, &case.record, case.out_len);
                let found = found.map_or_else(|r| (r.number, r.at), |_| (0, 0));
                assert_eq!(found, right, "1:{scale} with {faults:?}");
            }
        }
    }
    ask.met("write", &[0, 1, 2, 3, 6, 7, 8, 10, 11, 24]);
    ask.met_at("write", 24, &[0]);
    ask.met_at("write", 8, &[62, 65]);
}

/// A lent output of any length stays as it is in 24, and so does what lies round it.
#[test]
fn lent_output() {
    let mut random = seeded("lent_output");
    let mut refused = 0;
    for length in (0..=200).chain([500, 4_096, 65_536]) {
        for kind in 0..40 {
            let series = town_chart(&mut random);
            let good = record(&mut random, series, 999);
            let mut held: Vec<u8> = match kind % 4 {
                0 => vec![0; length + 40],
                1 => vec![b'0'; length + 40],
                _ => (0..length + 40).map(|_| random.byte()).collect(),
            };
            if kind % 4 == 3 && length >= 98 {
                let other = record(&mut random, series, 999);
                held[20..118].copy_from_slice(&card(series, &other));
            }
            let before = held.clone();
            let written = fordcask::write_card(series, &good, &mut held[20..20 + length]);
            assert_eq!(written, Err(RETIRED), "{series:?} into {length} bytes");
            assert!(held == before, "{length} bytes at {series:?}, kind {kind}");
            refused += 1;
        }
    }
    println!("cases lent_output {refused}");
    assert_eq!(refused, 204 * 40);
}
