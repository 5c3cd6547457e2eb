//! Random cards and records.

use crate::plain::{self, Card, Record, CARD, H};
use crate::random::Random;
use fordcask::Series;

/// Scales that are read; all but the first are written.
pub const SCALES: [u64; 8] = [
    5_000, 10_000, 50_000, 250_000, 500_000, 1_000_000, 5_000_000, 20_000_000,
];

const NAME: &[u8; 36] = b"ABCDEFGHIJKLMNOPQRSTUVWXYZ0123456789";

/// A record with scale, factor and zone.
#[derive(Clone, Copy)]
pub struct Sheet {
    pub series: Series,
    pub record: Record,
}

/// A card's bytes with scale, factor and zone.
#[derive(Clone, Copy)]
pub struct Written {
    pub series: Series,
    pub bytes: [u8; CARD],
}

impl Sheet {
    /// The card of a valid record, of a town scale too.
    pub fn write(&self) -> Written {
        let mut bytes = [0; CARD];
        let (a, b) = plain::spacing(self.series).expect("scale and zone are good");
        let good = plain::write::check(&self.record, a, b);
        assert!(good.is_ok(), "{good:?}");
        plain::write::lay_out(&self.record, a, b, &mut bytes);
        Written {
            series: self.series,
            bytes,
        }
    }
}

pub fn zone(random: &mut Random) -> u64 {
    let zone = 1 + random.below(16);
    zone + u64::from(zone > 8)
}

pub fn name(random: &mut Random) -> [u8; 12] {
    let mut bad = [0; 12];
    for byte in &mut bad {
        *byte = NAME[random.below(36) as usize];
    }
    bad[8] = b'.';
    bad
}

/// A valid record at any place of the zone grid, of any size.
pub fn sheet(random: &mut Random, scale: u64) -> Sheet {
    let series = Series::chart(scale, zone(random));
    let (a, b) = plain::spacing(series).expect("scale and zone are good");
    let n = random.within(1 - b / 512, b / 512);
    let m = random.within(-a / 256, a / 256);
    let nfl = random.within(1, (n + b / 512).min(999)) as u64;
    let nfc = random.within(1, (a / 128).min(999)) as u64;
    let nul = random.below(128 * nfl);
    let nls = random.below(128 * nfc);
    let record = Record {
        n,
        m,
        nul,
        nus: nls + random.below(128 * nfc - nls),
        nll: nul + random.below(128 * nfl - nul),
        nls,
        nfl,
        nfc,
        bad: name(random),
        tif: random.below(2) == 1,
    };
    Sheet { series, record }
}

/// A record of the given tiles with a border of padding, in zone 1.
pub fn chart(random: &mut Random, scale: u64, n: i64, m: i64, nfl: u64, nfc: u64) -> Sheet {
    let record = Record {
        n,
        m,
        nul: 40,
        nus: 128 * nfc - 61,
        nll: 128 * nfl - 51,
        nls: 30,
        nfl,
        nfc,
        bad: name(random),
        tif: true,
    };
    Sheet {
        series: Series::chart(scale, 1),
        record,
    }
}

/// The largest card from an origin near 45 degrees north, 90 west; not there, where the
/// stored angles would be whole and the doubles right by luck.
pub fn largest(random: &mut Random, scale: u64) -> Sheet {
    let (a, b) = plain::spacing(Series::chart(scale, 1)).expect("scale is good");
    let (n, m) = (b / 1024 - 7, 5 - a / 512);
    let nfl = (n + b / 512).min(999) as u64;
    let nfc = (a / 128).min(999) as u64;
    chart(random, scale, n, m, nfl, nfc)
}

/// A pixel of the chart; one in 64 outside the tiles or in padding.
pub fn pixel(random: &mut Random, record: &Record) -> (i64, i64) {
    let row = random.within(record.nul as i64, record.nll as i64);
    let column = random.within(record.nls as i64, record.nus as i64);
    match random.below(256) {
        0 => (-1 - row, column),
        1 => (row, column + 128 * record.nfc as i64),
        2 => (record.nul as i64 / 2, column),
        3 => (row, record.nls as i64 / 2),
        _ => (row, column),
    }
}

/// A position in the chart, anywhere in its pixel; one in 64 anywhere, or no position.
pub fn position(random: &mut Random, card: &Card) -> (i64, i64) {
    match random.below(256) {
        0 => return (H / 4 + 1, 0),
        1..=3 => return (random.within(-H / 4, H / 4), random.within(-H / 2, H / 2)),
        _ => (),
    }
    let row = random.within(card.nul, card.nll);
    let column = random.within(card.nls, card.nus);
    let (lat, lon) = card
        .position::<false>(row, column)
        .expect("a pixel of the chart");
    let (high, wide) = (H / card.b / 2, H / card.a / 2);
    let lat = lat + random.within(-high, high);
    let lon = lon + random.within(-wide, wide);
    (lat.clamp(-H / 4, H / 4), lon.clamp(-H / 2, H / 2))
}
