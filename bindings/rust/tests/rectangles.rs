//! Rectangles, compared with the rule at both sides of every edge, and by their meaning (02, E3).

use crate::{rule, support};
use std::collections::BTreeSet;

use fordcask::Refusal;
use support::angles::{any_latitude, cover_ends, latitudes};
use support::make::{scale, BAD_SCALES, SCALES};
use support::{seeded, Ask, Random};

const DEGREE: i128 = 360_000;
const POLE: i64 = rule::LAT_END as i64;

fn is_latitude(lat: &i64) -> bool {
    (-POLE..=POLE).contains(lat)
}

/// The limits of each zone and the ends of its overlap, with neighbours, in range and outside.
fn edges(scale: u64) -> Vec<i64> {
    let mut all = latitudes();
    all.extend(cover_ends(scale));
    all.sort_unstable();
    all.dedup();
    all
}

/// Those that are latitudes.
fn good_edges(scale: u64) -> Vec<i64> {
    edges(scale).into_iter().filter(is_latitude).collect()
}

/// Every pair of edges, both ways round.
#[test]
fn pairs() {
    let mut random = seeded("pairs");
    let mut ask = Ask::default();
    let mut longest = 0;
    let good = SCALES.map(|scale| (scale, edges(scale)));
    let bad = BAD_SCALES.map(|scale| (scale, latitudes()));
    for (scale, edges) in good.into_iter().chain(bad) {
        for south in &edges {
            for north in &edges {
                let zones = ask.rectangle(scale, 1, *south, *north);
                longest = longest.max(zones.map_or(0, |zones| zones.len()));
            }
        }
    }
    for _ in 0..60_000 {
        let (south, north) = (any_latitude(&mut random), any_latitude(&mut random));
        let _ = ask.rectangle(scale(&mut random), 1, south, north);
    }
    assert_eq!(longest, 18, "the longest rectangle list");
    ask.met("rectangle", &[0, 1, 4, 16]);
}

/// One hundredth high and larger, starting and ending at each edge.
#[test]
fn heights() {
    let mut random = seeded("heights");
    let mut ask = Ask::default();
    for _ in 0..600 {
        let scale = scale(&mut random);
        for edge in good_edges(scale) {
            for height in [1, 2, 360_000, random.between(1, POLE)] {
                let _ = ask.rectangle(scale, 1, edge, edge + height);
                let _ = ask.rectangle(scale, 1, edge - height, edge);
            }
        }
    }
    ask.met("rectangle", &[0, 4]);
}

/// One scale for each B that some scale has.
fn scale_of_each_b() -> Vec<u64> {
    let mut all = Vec::new();
    for whole in 40..=156_400 {
        // the smallest scale at which 782 × 1,000,000 / S is not above it
        let scale = 782_000_000_u64.div_ceil(whole);
        if rule::constant_at(782, scale) == 512 * whole as i128 {
            all.push(scale);
        }
    }
    all
}

/// Whether a zone is listed between two sizes of latitude, northern and southern alike.
fn listed(ask: &mut Ask, scale: u64, zones: (u64, u64), (from, to): (i64, i64)) -> bool {
    let north = ask.rectangle(scale, 1, from, to).expect("a rectangle").contains(&zones.0);
    let south = ask.rectangle(scale, 1, -to, -from).expect("a rectangle").contains(&zones.1);
    assert_eq!(north, south, "zones {zones:?} at 1:{scale} from {from} to {to}");
    north
}

/// The hundredth on each side of each end of each zone, at every B.
#[test]
fn both_sides() {
    let mut ask = Ask::default();
    let (mut whole, mut broken) = (0, 0);
    for scale in scale_of_each_b() {
        let b = rule::constant_at(782, scale);
        for (zones, (from, to), _) in rule::LIMITS {
            let mut is = |low: i64, high: i64| listed(&mut ask, scale, zones, (low, high));
            let start = (from * DEGREE) as i64;
            assert!(!is(start - 1, start) && is(start, start + 1), "{zones:?} at 1:{scale}");
            let end = to * DEGREE * b + 1024 * rule::H;
            if to == 90 || end >= rule::LAT_END * b {
                assert!(is(POLE - 1, POLE), "{zones:?} at 1:{scale}");
                continue;
            }
            // the end lies in the hundredth that starts at last, or at last itself
            let last = (end / b) as i64;
            assert!(is(last - 1, last) && !is(last + 1, last + 2), "{zones:?} at 1:{scale}");
            assert_eq!(is(last, last + 1), end % b > 0, "{zones:?} at 1:{scale}");
            if end % b == 0 {
                whole += 1;
            } else {
                broken += 1;
            }
        }
    }
    assert!(whole > 0 && broken > 0, "{whole} and {broken} ends");
    ask.met("rectangle", &[0]);
}

/// 01's cover sentences for the latitude of point / 2B hundredths.
fn covering(b: i128, point: i128) -> Vec<u64> {
    let (size, degree) = (point.abs(), 2 * b * DEGREE);
    let mut zones = Vec::new();
    for ((north, south), (from, to), _) in rule::LIMITS {
        let basic = from * degree <= size && size < to * degree;
        let beyond = size - to * degree;
        let overlap = to < 90 && (0..2 * 1024 * rule::H).contains(&beyond);
        if basic || overlap {
            zones.push(if point < 0 { south } else { north });
        }
    }
    zones
}

/// Cuts a rectangle wherever those sentences can change, and looks in the middle of each piece.
fn meant(scale: u64, south: i64, north: i64) -> Vec<u64> {
    let b = rule::constant_at(782, scale);
    let (south, north) = (i128::from(south) * b, i128::from(north) * b);
    let mut cuts = BTreeSet::from([south, north]);
    for (_, (from, to), _) in rule::LIMITS {
        let (from, to) = (from * DEGREE * b, to * DEGREE * b);
        for cut in [from, to, to + 1024 * rule::H] {
            cuts.extend([cut, -cut]);
        }
    }
    let cuts: Vec<i128> = cuts.range(south..=north).copied().collect();
    let middles = cuts.windows(2).map(|piece| piece[0] + piece[1]);
    let zones: BTreeSet<u64> = middles.flat_map(|middle| covering(b, middle)).collect();
    Vec::from_iter(zones)
}

/// A latitude at an edge, up to 9 from it, or any.
fn near_edge(random: &mut Random, edges: &[i64]) -> i64 {
    match random.below(4) {
        0 => random.between(-POLE, POLE),
        1 => random.pick(edges),
        _ => (random.pick(edges) + random.between(-9, 9)).clamp(-POLE, POLE),
    }
}

/// Rectangles by their meaning: every piece of the line in them is looked at.
#[test]
fn meaning() {
    let mut random = seeded("meaning");
    let mut ask = Ask::default();
    for _ in 0..4_000 {
        let scale = scale(&mut random);
        let edges = good_edges(scale);
        for _ in 0..25 {
            let south = near_edge(&mut random, &edges).min(POLE - 1);
            let north = match random.below(3) {
                0 => near_edge(&mut random, &edges).max(south + 1),
                _ => (south + random.between(1, 20)).min(POLE),
            };
            let zones = ask.rectangle(scale, 1, south, north).expect("a rectangle");
            let meant = meant(scale, south, north);
            assert_eq!(zones, meant, "rectangle({scale}, {south}, {north})");
        }
    }
    ask.met("rectangle", &[0]);
}

/// What covers a latitude is listed going poleward from there, in the first hundredth nothing else.
#[test]
fn poleward() {
    let mut random = seeded("poleward");
    let mut ask = Ask::default();
    for _ in 0..3_000 {
        let scale = scale(&mut random);
        let edges = good_edges(scale);
        for _ in 0..20 {
            let lat = near_edge(&mut random, &edges).clamp(1 - POLE, POLE - 1);
            let mut covering = ask.cover(scale, 1, lat).expect("a cover");
            covering.sort_unstable();
            let (size, sign) = (lat.abs(), if lat < 0 { -1 } else { 1 });
            let any = random.between(size + 1, POLE);
            let edge = near_edge(&mut random, &edges).abs().max(size + 1);
            for far in [size + 1, size + 2, any, edge, POLE].map(|far| sign * far.min(POLE)) {
                let zones =
                    ask.rectangle(scale, 1, lat.min(far), lat.max(far)).expect("a rectangle");
                let all = covering.iter().all(|zone| zones.contains(zone));
                assert!(all, "1:{scale} from {lat} to {far}: {zones:?}, covering {covering:?}");
                assert!(far != lat + sign || zones == covering, "1:{scale} {lat}: {zones:?}");
            }
        }
    }
    ask.met("rectangle", &[0]);
}

/// No height, and upside down: 1, then 4, then 16.
#[test]
fn no_height() {
    let mut ask = Ask::default();
    for scale in SCALES {
        for lat in edges(scale) {
            let refused = Err(Refusal { number: if is_latitude(&lat) { 16 } else { 4 }, at: 0 });
            assert_eq!(ask.rectangle(scale, 1, lat, lat), refused, "1:{scale} at {lat}");
            assert_eq!(ask.rectangle(scale, 1, lat, -POLE), refused, "1:{scale} down from {lat}");
            assert_eq!(ask.rectangle(scale, 1, POLE, lat), refused, "1:{scale} down to {lat}");
        }
    }
    for scale in BAD_SCALES {
        for lat in latitudes() {
            let refused = Err(Refusal { number: 1, at: 0 });
            assert_eq!(ask.rectangle(scale, 1, lat, lat), refused, "1:{scale} at {lat}");
        }
    }
    ask.met("rectangle", &[1, 4, 16]);
}
