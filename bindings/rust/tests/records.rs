//! Records to be written, good and broken in each way; 24 at the town scales (02, E13).

use crate::{rule, support};
use fordcask::{Record, Series};
use support::make::{chart, name, record};
use support::{seeded, Ask, Random};

/// A record broken in one way; what is broken depends on `way`.
fn broken(random: &mut Random, a: i64, b: i64, mut record: Record, way: usize) -> Record {
    let many = [0, 1000, 1001, 1 << 32, u64::MAX - 1, u64::MAX];
    let edge = random.pick(&[1_000_000, 1_000_000_000, 1 << 63, u64::MAX]);
    let far = [i64::MIN, i64::MIN + 1, i64::MAX - 1, i64::MAX];
    match way {
        0 => record.nfl = random.pick(&many),
        1 => record.nfc = random.pick(&many),
        2 => record.bad[random.below(12)] = random.byte(),
        3 => record.n = random.pick(&[b / 512 + 1, -b / 512 - 1, -b / 512, b / 512]),
        4 => record.m = random.pick(&[a / 256 + 1, -a / 256 - 1, -a / 256, a / 256]),
        5 => record.n = random.pick(&far),
        6 => record.m = random.pick(&far),
        7 => record.nfc = random.pick(&[a as u64 / 128, a as u64 / 128 + 1, 999]),
        8 => record.nfl = random.pick(&[record.n.wrapping_add(b / 512 + 1) as u64, 999]),
        9 => record.nul = random.pick(&[record.nll, record.nll.wrapping_add(1), edge]),
        10 => record.nll = random.pick(&[record.nfl.wrapping_mul(128), edge]),
        11 => record.nls = random.pick(&[record.nus, record.nus.wrapping_add(1), edge]),
        12 => record.nus = random.pick(&[record.nfc.wrapping_mul(128), edge]),
        _ => record.bad = name(random),
    }
    record
}

#[test]
fn broken_records() {
    let mut random = seeded("broken_records");
    let mut ask = Ask::default();
    for round in 0..480_000 {
        let mut series = chart(&mut random);
        let (a, b) = rule::non_polar(series).expect("a spacing");
        let mut record = record(&mut random, series, 999);
        for _ in 0..=random.below(2) {
            let way = random.below(14);
            record = broken(&mut random, a as i64, b as i64, record, way);
        }
        if round % 16 == 0 {
            series.scale = random.pick(&[series.scale, 0, 4_999, 20_000_001, u64::MAX]);
            series.zone = random.pick(&[series.zone, 0, 9, 18, 19, u64::MAX]);
        }
        let out_len = match random.below(8) {
            0 => random.below(98),
            _ => 98 + random.below(3),
        };
        if let Ok(card) = ask.write(series, &record, out_len) {
            let read = ask.read(series, &card).expect("a written card is read");
            assert_eq!((read.value.record, read.blanks), (record, 0), "reading what was written");
        }
    }
    ask.met("write", &[0, 1, 2, 3, 6, 7, 8, 10, 11, 24]);
    ask.met_at("write", 7, &[85]);
    ask.met_at("write", 8, &[62, 65]);
}

/// Outputs of every length to 130.
#[test]
fn output_lengths() {
    let mut random = seeded("output_lengths");
    let mut ask = Ask::default();
    for out_len in 0..=130 {
        let series = Series::chart(1_000_000, 1);
        let record = record(&mut random, series, 9);
        let written = ask.write(series, &record, out_len);
        assert_eq!(written.is_ok(), out_len >= 98);
    }
    ask.met("write", &[0, 6]);
}
