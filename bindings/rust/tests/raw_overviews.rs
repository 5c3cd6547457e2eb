//! The C answers with factors other than 1, field by field: in a refusal all but number and place
//! is 0, and lent buffers stay (02, E4).

use crate::{rule, support};
use fordcask::{raw, OverviewPixel, Pair, Pixel, Refusal, Series};
use support::blanks::pad_some;
use support::cuts::over;
use support::faults::{compatible, spoil_all, FAULTS};
use support::make::{card, overview, pixel, record};
use support::{or_zero, seeded};

/// The block of an answer; pixel and both totals of blanks are 0 in a refusal (02, E2).
fn block(answer: Result<OverviewPixel, Refusal>) -> raw::OverviewPixel {
    let refusal = answer.err().unwrap_or(Refusal { number: 0, at: 0 });
    let none = OverviewPixel { pixel: Pixel::default(), blanks: 0, overview_blanks: 0 };
    let told = answer.unwrap_or(none);
    raw::OverviewPixel {
        number: refusal.number,
        at: refusal.at,
        row: told.pixel.row,
        column: told.pixel.column,
        blanks: told.blanks,
        overview_blanks: told.overview_blanks,
    }
}

/// Scale, factor and zone go in by value, in this order.
#[test]
fn layout() {
    assert_eq!(std::mem::size_of::<Series>(), 24);
    assert_eq!(std::mem::offset_of!(Series, scale), 0);
    assert_eq!(std::mem::offset_of!(Series, factor), 8);
    assert_eq!(std::mem::offset_of!(Series, zone), 16);
}

/// Spacing, cover, rectangle and alignment refused: the rest is 0, unused slots too.
#[test]
fn refused_values() {
    let refused = [(0, 17), (65, 17), (21, 1), (u64::MAX, 17), (1 << 63, 17)];
    for (factor, number) in refused {
        for zone in [1, 9, 19] {
            let series = Series { scale: 1_000_000, factor, zone };
            let none = raw::Spacing { number, at: 0, a: 0, b: 0 };
            assert_eq!(raw::fordcask_spacing(series), none);
            let none = raw::Origin { number, at: 0, n: 0, m: 0, pso: 0, lso: 0 };
            assert_eq!(raw::fordcask_align(series, 41_432, i64::MAX), none);
            let town = Series { scale: 9_999, factor, zone };
            let none = raw::Origin { number: 24, ..none };
            assert_eq!(raw::fordcask_align(town, 41_432, -8_975), none);
        }
        for lat in [0, i64::MIN] {
            let none = raw::Cover { number, at: 0, length: 0, zones: [0; 6] };
            assert_eq!(raw::fordcask_cover(1_000_000, factor, lat), none);
            let none = raw::Rectangle { number, at: 0, length: 0, zones: [0; 18] };
            assert_eq!(raw::fordcask_rectangle(1_000_000, factor, lat, lat), none);
        }
    }
}

/// The slots past the length are 0.
#[test]
fn unused_slots() {
    let mut random = seeded("unused_slots");
    for _ in 0..20_000 {
        let Series { scale, factor, .. } = overview(&mut random);
        let south = random.between(-32_400_000, 32_399_999);
        let north = random.between(south + 1, 32_400_000);
        let cover = raw::fordcask_cover(scale, factor, south);
        let mut slots = rule::cover(scale, factor, south).expect("a cover");
        assert_eq!((cover.number, cover.at, cover.length), (0, 0, slots.len() as u64));
        slots.resize(6, 0);
        assert_eq!(cover.zones[..], slots, "cover({scale}, {factor}, {south})");
        let found = raw::fordcask_rectangle(scale, factor, south, north);
        let mut slots = rule::rectangle(scale, factor, south, north).expect("a rectangle");
        assert_eq!((found.number, found.at, found.length), (0, 0, slots.len() as u64));
        slots.resize(18, 0);
        assert_eq!(found.zones[..], slots, "rectangle({scale}, {factor}, {south}, {north})");
    }
}

/// The overview question through the C entry point.
fn overview_pixel(
    chart: (Series, &[u8]),
    over: (Series, &[u8]),
    pixel: Pixel,
) -> raw::OverviewPixel {
    let ((series, card), (over_series, over_card)) = (chart, over);
    // SAFETY: each pointer and length are those of one slice.
    unsafe {
        raw::fordcask_overview_pixel(
            series,
            card.as_ptr(),
            card.len(),
            over_series,
            over_card.as_ptr(),
            over_card.len(),
            pixel.row,
            pixel.column,
        )
    }
}

/// Answers and refusals of every kind; row, column and both totals are 0 in each refusal.
#[test]
fn overview_pixels() {
    let mut random = seeded("overview_pixels");
    let sets: Vec<usize> = (0..1 << FAULTS.len()).filter(|set| compatible(*set)).collect();
    let (mut answered, mut both, mut refused) = (0, 0, 0);
    for _ in 0..60_000 {
        let (mut series, mut over_series) = (overview(&mut random), overview(&mut random));
        let record = record(&mut random, series, 3);
        let asked = pixel(&mut random, &record);
        let mut chart = card(series, &record);
        let there = rule::read(series, &chart);
        let there = there.and_then(|card| rule::position(Pair::Corner, &card, asked));
        let mut over_card = over(&mut random, over_series, or_zero(there));
        pad_some(&mut random, &mut chart);
        pad_some(&mut random, &mut over_card);
        if random.once_in(3) {
            let set = random.pick(&sets);
            spoil_all(&mut random, set, &mut series, &mut chart);
        }
        if random.once_in(3) {
            let set = random.pick(&sets);
            spoil_all(&mut random, set, &mut over_series, &mut over_card);
        }
        let right = rule::read(series, &chart).and_then(|card| {
            let over = rule::read(over_series, &over_card)?;
            rule::overview_pixel(&card, &over, asked)
        });
        let found = overview_pixel((series, &chart), (over_series, &over_card), asked);
        assert_eq!(found, block(right), "{series:?} {over_series:?} {asked:?}");
        match found.number {
            0 => answered += 1,
            _ => refused += 1,
        }
        both += u64::from(found.blanks > 0 && found.overview_blanks > 0);
    }
    assert!(answered > 5_000 && refused > 30_000, "{answered} and {refused}");
    assert!(both > 3_000 && both < answered, "{both} of {answered} with blanks in both cards");
}

/// Questions on a card whose factor is refused, or is another: zeros, and buffers unchanged.
#[test]
fn refused_questions() {
    let series = Series { scale: 50_000, factor: 20, zone: 1 };
    let good = card(series, &support::make::all_chart(9, 9, 1, 2, true));
    let (c, length) = (good.as_ptr(), good.len());
    let (index, store) = ([1u32, 2], [5u8; 2 * 49_152]);
    let refused = [(0, 17), (65, 17), (19, 9), (21, 9), (1, 9), (u64::MAX, 17)];
    for (factor, number) in refused {
        let s = Series { factor, ..series };
        let (i, t) = (index.as_ptr(), store.as_ptr());
        let size = store.len();
        // SAFETY: each pointer and length are those of one array or slice.
        unsafe {
            let place = raw::fordcask_place(s, c, length, 1, 1);
            assert_eq!(place, raw::Place { number, at: 0, row: 0, column: 0, blanks: 0 });
            for ask in [raw::fordcask_position, raw::fordcask_corner_position] {
                let none = raw::Position { number, at: 0, lat: 0, lon: 0, blanks: 0 };
                assert_eq!(ask(s, c, length, 1, 1), none);
            }
            for ask in [raw::fordcask_pixel, raw::fordcask_corner_pixel] {
                let none = raw::Pixel { number, at: 0, row: 0, column: 0, blanks: 0 };
                assert_eq!(ask(s, c, length, 100_000, 100_000), none);
            }
            let tile = raw::fordcask_tile(s, c, length, i, 2, 2, t, size, 1, 1);
            let none = raw::Tile { number, at: 0, stored: 0, offset: 0, length: 0, blanks: 0 };
            assert_eq!(tile, none);
            let bands = raw::fordcask_bands(s, c, length, i, 2, 2, t, size, 1, 1);
            assert_eq!(bands, raw::Bands { number, at: 0, red: 0, green: 0, blue: 0, blanks: 0 });
            let window = raw::fordcask_window(s, c, length, i, 2, 2, 0, 0, 1, 2);
            assert_eq!(window, raw::Window { number, at: 0, missing: 0, tile: 0, blanks: 0 });
        }
        refused_buffers(s, &good, number);
    }
}

/// Index check and the lists leave what they are lent; a card refused has zeros in every field.
fn refused_buffers(series: Series, card: &[u8], number: u32) {
    let (c, length, index) = (card.as_ptr(), card.len(), [1u32, 2]);
    let none = raw::Verdict { number, at: 0, blanks: 0 };
    let (mut marks, mut out, mut numbers, asked) = ([7u8; 3], [7i64; 4], [7u32; 3], [1i64; 4]);
    let (marked, lent, n) = (marks.as_mut_ptr(), out.as_mut_ptr(), numbers.as_mut_ptr());
    // SAFETY: each pointer and length are those of one array or slice, and none overlap.
    unsafe {
        let i = index.as_ptr();
        assert_eq!(raw::fordcask_index_check(series, c, length, i, 2, 2, marked, 3), none);
        let p = asked.as_ptr();
        for ask in [raw::fordcask_positions, raw::fordcask_corner_positions] {
            assert_eq!(ask(series, c, length, p, 4, lent, 4, n, 3), none);
        }
        for ask in [raw::fordcask_pixels, raw::fordcask_corner_pixels] {
            assert_eq!(ask(series, c, length, p, 4, lent, 4, n, 3), none);
        }
    }
    assert_eq!((marks, out, numbers), ([7; 3], [7; 4], [7; 3]));
    for ask in [raw::fordcask_read_card, raw::fordcask_read_strict] {
        // SAFETY: the pointer and length are those of one slice.
        let read = unsafe { ask(series, c, length) };
        assert_eq!((read.number, read.at, read.a, read.b), (number, 0, 0, 0));
        assert_eq!((read.n, read.m, read.nul, read.nus, read.nll, read.nls), (0, 0, 0, 0, 0, 0));
        assert_eq!((read.nfl, read.nfc, read.bad), (0, 0, [0; 12]));
        assert_eq!((read.tif, read.blanks), (0, 0));
    }
}

/// Writing refused for scale, factor or product leaves the output, and what lies round it.
#[test]
fn refused_writing() {
    let bad = *b"BASE0101.IMG";
    let (nul, nus, nll, nls) = (0, 127, 255, 0);
    let record = raw::Record { n: 9, m: 9, nul, nus, nll, nls, nfl: 2, nfc: 1, bad, tif: 1 };
    let refused = [(10_000, 0, 17), (10_000, 65, 17), (312_501, 64, 1), (9_999, 65, 24)];
    let more = [(4_999, 0, 1), (9_999, 64, 24), (20_000_000, 2, 1), (10_000, u64::MAX, 17)];
    for (scale, factor, number) in refused.into_iter().chain(more) {
        for length in [0, 97, 98, 110] {
            let mut held = [7u8; 150];
            let lent = held[20..].as_mut_ptr();
            let series = Series { scale, factor, zone: 1 };
            // SAFETY: the length is at most what the array holds from there.
            let given = unsafe { raw::fordcask_write_card(series, record, lent, length) };
            assert_eq!(given, raw::Refusal { number, at: 0 }, "{series:?}");
            assert_eq!(held, [7; 150], "{series:?}");
        }
    }
}
