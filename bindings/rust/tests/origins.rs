//! Alignment, which refuses 24 at the town scales (02, E13), and offset, compared with the rule.

use crate::{rule, support};
use fordcask::{Position, Series};
use support::angles::{any_latitude, any_longitude, latitudes, longitudes};
use support::make::{chart, BAD_SCALES, BAD_ZONES};
use support::{seeded, Ask};

#[test]
fn align() {
    let mut random = seeded("align");
    let mut ask = Ask::default();
    for zone in (1..=18).chain(BAD_ZONES) {
        let scales = [5_000, 9_999, 10_000, 1_000_000, 20_000_000];
        for scale in scales.into_iter().chain(BAD_SCALES) {
            let series = Series::chart(scale, zone);
            for lat in latitudes() {
                let lon = random.pick(&longitudes());
                let _ = ask.align(series, lat, lon);
            }
            for lon in longitudes() {
                let _ = ask.align(series, random.pick(&latitudes()), lon);
                let _ = ask.align(series, 0, lon);
            }
        }
    }
    for _ in 0..50_000 {
        let series = chart(&mut random);
        let (a, b) = rule::non_polar(series).expect("a spacing");
        let n = random.between(-(b / 512) as i64, (b / 512) as i64);
        let m = random.between(-(a / 256) as i64, (a / 256) as i64);
        let lat = rule::stored_angle(n.into(), b) as i64 + random.between(-1, 1);
        let lon = rule::stored_angle(m.into(), a) as i64 + random.between(-1, 1);
        let _ = ask.align(series, lat, lon);
        let _ = ask.align(series, any_latitude(&mut random), any_longitude(&mut random));
    }
    ask.met("align", &[0, 1, 2, 3, 4, 5, 24]);
}

#[test]
fn offset() {
    let mut random = seeded("offset");
    let mut ask = Ask::default();
    for lon in longitudes() {
        for centre in longitudes() {
            let (lat, centre_lat) = (random.pick(&latitudes()), random.pick(&latitudes()));
            let middle = Position { lat: 0, lon: centre };
            let _ = ask.offset(Position { lat: 0, lon }, middle);
            let centre = Position { lat: centre_lat, lon: centre };
            let _ = ask.offset(Position { lat, lon }, centre);
        }
    }
    for _ in 0..100_000 {
        let (lat, lon) = (any_latitude(&mut random), any_longitude(&mut random));
        let centre = Position { lat: any_latitude(&mut random), lon: any_longitude(&mut random) };
        let _ = ask.offset(Position { lat, lon }, centre);
    }
    ask.met("offset", &[0, 4, 5]);
}
