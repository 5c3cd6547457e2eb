//! Each refusal against all that follow it, in reading and writing (02, E4 and E13).

use crate::{rule, support};
use fordcask::{Record, Series};
use support::faults::{compatible, faults_of, spoil_all, FAULTS};
use support::make::{all_chart, card, overview, record, BAD_FACTORS, BAD_SCALES, BAD_ZONES};
use support::{seeded, Ask, Random};

/// Reading: every set of faults that a call can have; the first in order is given.
#[test]
fn reading_sets() {
    let mut random = seeded("reading_sets");
    let mut ask = Ask::default();
    for set in (0..1 << FAULTS.len()).filter(|set| compatible(*set)) {
        for _ in 0..20 {
            let mut series = overview(&mut random);
            let record = record(&mut random, series, 30);
            let mut card = card(series, &record);
            spoil_all(&mut random, set, &mut series, &mut card);
            let right = faults_of(set).first().map(|fault| FAULTS[*fault]);
            let found = ask.read(series, &card).err().map(|refusal| (refusal.number, refusal.at));
            assert_eq!(found, right, "{series:?} with {:?}", faults_of(set));
        }
    }
    ask.met("read", &[0, 1, 2, 3, 6, 7, 8, 9, 10, 11, 17]);
}

/// Number and place of each fault of writing, in order; the product's 1 is the fourth.
const WRITING: [(u32, u64); 12] = [
    (1, 0),
    (24, 0),
    (17, 0),
    (1, 0),
    (2, 0),
    (3, 0),
    (6, 0),
    (8, 62),
    (8, 65),
    (7, 85),
    (10, 0),
    (11, 0),
];

/// Whether a call can have these faults at once; no town scale has too large a product.
fn writable(set: usize) -> bool {
    let has = |fault: usize| set >> fault & 1 == 1;
    let scale = [0, 1, 3].iter().filter(|fault| has(**fault)).count();
    scale < 2 && !(has(2) && has(3)) && !(has(4) && has(5))
}

/// What is stated, a record and the length of an output.
struct Case {
    series: Series,
    record: Record,
    out_len: usize,
}

/// Puts one fault into a case.
fn spoil(random: &mut Random, fault: usize, case: &mut Case) {
    let (series, record) = (&mut case.series, &mut case.record);
    match fault {
        0 => series.scale = random.pick(&BAD_SCALES),
        1 => series.scale = random.pick(&[5_000, 7_777, 9_999]),
        2 => series.factor = random.pick(&BAD_FACTORS),
        3 => {
            series.factor = random.between(2, 64) as u64;
            series.scale = 20_000_000 / series.factor + 1;
        }
        4 => series.zone = random.pick(&BAD_ZONES),
        5 => series.zone = random.pick(&[9, 18]),
        6 => case.out_len = random.pick(&[0, 1, 24, 97]),
        7 => record.nfl = random.pick(&[0, 1_000, u64::MAX]),
        8 => record.nfc = random.pick(&[0, 1_000, u64::MAX]),
        9 => record.bad[random.below(12)] = random.pick(b"a \x00\xFF"),
        10 if random.once_in(2) => record.n = random.pick(&[i64::MIN, 200_000, i64::MAX]),
        10 => record.m = random.pick(&[i64::MIN, 300_000, i64::MAX]),
        _ => record.nul = record.nll + 1,
    }
}

/// Writing: every set of faults that a call can have; the first in order is given.
#[test]
fn writing_sets() {
    let mut random = seeded("writing_sets");
    let mut ask = Ask::default();
    for set in (0..1 << WRITING.len()).filter(|set| writable(*set)) {
        for _ in 0..20 {
            let mut series = overview(&mut random);
            series.scale = series.scale.max(10_000);
            let record = all_chart(9, -3, 2, 2, random.once_in(2));
            let mut case = Case { series, record, out_len: random.pick(&[98, 99, 200]) };
            let faults: Vec<usize> = (0..WRITING.len()).filter(|i| set >> i & 1 == 1).collect();
            for fault in &faults {
                spoil(&mut random, *fault, &mut case);
            }
            let right = faults.first().map(|fault| WRITING[*fault]);
            let found = ask.write(case.series, &case.record, case.out_len);
            let found = found.err().map(|refusal| (refusal.number, refusal.at));
            assert_eq!(found, right, "{:?} with {faults:?}", case.series);
        }
    }
    ask.met("write", &[0, 1, 2, 3, 6, 7, 8, 10, 11, 17, 24]);
    ask.met_at("write", 8, &[62, 65]);
}

/// The bounds of a record go by S × k: both sides of each, in every zone.
#[test]
fn record_bounds() {
    let mut random = seeded("record_bounds");
    let mut ask = Ask::default();
    for _ in 0..60_000 {
        let series = overview(&mut random);
        let (a, b) = rule::non_polar(series).expect("a spacing");
        let (pole, side) = ((b / 512) as i64, (a / 256) as i64);
        let mut record = record(&mut random, series, 999);
        match random.below(6) {
            0 => record.n = random.pick(&[pole, pole + 1]),
            1 => record.n = random.pick(&[-pole, -pole - 1, 1 - pole]),
            2 => record.m = random.pick(&[side, side + 1, -side, -side - 1]),
            3 => record.nfc = random.pick(&[2 * side, 2 * side + 1]) as u64,
            4 => record.nfl = (record.n + pole + random.between(0, 1)) as u64,
            _ => record.nus = 128 * record.nfc,
        }
        let _ = ask.write(series, &record, 98);
    }
    ask.met("write", &[0, 8, 10, 11, 24]);
}
