//! The total of blanks in each block of the C entry points: told in an answer, 0 in each refusal of
//! the card or of the question, with all else (02, E2). The layout is the header's.

use crate::support;
use std::collections::BTreeSet;
use std::mem::{offset_of, size_of};

use fordcask::{raw, Pixel, Position, Series, Sheet};
use support::blank_faults::{refusal, with_faults, FAULTS, STATED};
use support::blanks::{pad_all, Twins};
use support::index::{index_of, small};
use support::make::{chart, overview, pixel, record, town_chart, Maker};
use support::raw_blocks::{blocks, card_block, check, Asked, Block};
use support::{or_zero, seeded, WORKED, WORKED_SERIES};

/// Sizes and places as the header has them.
#[test]
fn layout() {
    assert_eq!((size_of::<raw::Refusal>(), offset_of!(raw::Refusal, at)), (16, 8));
    assert_eq!((size_of::<raw::Verdict>(), offset_of!(raw::Verdict, blanks)), (24, 16));
    assert_eq!((size_of::<raw::Card>(), offset_of!(raw::Card, blanks)), (120, 112));
    assert_eq!((offset_of!(raw::Card, bad), offset_of!(raw::Card, tif)), (96, 108));
    assert_eq!((size_of::<raw::Place>(), offset_of!(raw::Place, blanks)), (40, 32));
    assert_eq!((size_of::<raw::Position>(), offset_of!(raw::Position, blanks)), (40, 32));
    assert_eq!((size_of::<raw::Pixel>(), offset_of!(raw::Pixel, blanks)), (40, 32));
    assert_eq!((size_of::<raw::Tile>(), offset_of!(raw::Tile, blanks)), (48, 40));
    assert_eq!((size_of::<raw::Bands>(), offset_of!(raw::Bands, blanks)), (32, 24));
    assert_eq!((size_of::<raw::Window>(), offset_of!(raw::Window, blanks)), (40, 32));
    let overview = [offset_of!(raw::OverviewPixel, blanks), size_of::<raw::OverviewPixel>()];
    assert_eq!((overview, offset_of!(raw::OverviewPixel, overview_blanks)), ([32, 48], 40));
}

/// Each refusal of a card with blanks: every block has its number and place, and zeros.
#[test]
fn refused_cards() {
    let mut random = seeded("refused_cards");
    let asked = Asked {
        pixel: Pixel { row: 1, column: 1 },
        position: Position { lat: 4_142_899, lon: -897_156 },
        index: &[],
        count: 2,
        store: &[5; 2 * 49_152],
        window: [0, 0, 2, 1],
    };
    let mut cases: Vec<(Series, Vec<u8>, (u32, u64))> = Vec::new();
    for fault in FAULTS {
        let of = refusal(fault);
        let card = || (WORKED_SERIES, with_faults(&mut random, &[fault]), (of.number, of.at));
        cases.extend(std::iter::repeat_with(card).take(6));
    }
    let mut padded = WORKED.to_vec();
    pad_all(&mut padded);
    cases.extend(STATED.map(|(series, number)| (series, padded.clone(), (number, 0))));
    cases.extend([0, 1, 97].map(|n| (WORKED_SERIES, padded[..n].to_vec(), (6, 0))));
    for (series, card, right) in &cases {
        let found = blocks(&Sheet { series: *series, card }, &asked);
        assert_eq!(found.len(), 16);
        for block in found {
            assert_eq!((block.number, block.at), *right, "{}", card.escape_ascii());
            check(&block, 0);
        }
    }
    assert_eq!(cases.len(), 6 * 64 + 5 + 3);
}

/// Reading as 01 has it never tells blanks: 0 in each answer, and zeros in each refusal.
#[test]
fn read_strict() {
    let mut random = seeded("read_strict");
    let mut met = [0, 0];
    for _ in 0..10_000 {
        let series = chart(&mut random);
        let record = record(&mut random, series, 999);
        let twins = Twins::of(&mut random, series, &record);
        let [plain, padded] = twins.sheets().map(|sheet| {
            let (c, n) = (sheet.card.as_ptr(), sheet.card.len());
            // SAFETY: the pointer and length are those of one slice.
            card_block(unsafe { raw::fordcask_read_strict(series, c, n) })
        });
        check(&plain, 0);
        check(&padded, 0);
        assert_eq!((plain.number, padded.number), (0, if twins.put > 0 { 7 } else { 0 }));
        met[usize::from(twins.put > 0)] += 1;
    }
    assert!(met[0] > 500 && met[1] > 5_000, "{met:?}");
}

/// The numbers met by each of the blocks on accepted cards; the eighth is asked at a point of the
/// worked card, which is far off mostly.
const MET: [&[u32]; 16] = [
    &[0],
    &[0, 12],
    &[0, 12, 13],
    &[0, 12, 13],
    &[0, 4, 5, 12, 13],
    &[0, 4, 5, 12, 13],
    &[0, 12, 13],
    &[12],
    &[0, 6, 12, 13, 14, 15],
    &[0, 6, 12, 13, 14, 15],
    &[0, 6, 12, 15],
    &[0, 6, 15],
    &[0],
    &[0],
    &[0],
    &[0],
];

/// Accepted cards with blanks: each block is that of the card without, but for the total.
#[test]
fn accepted_cards() {
    let mut random = seeded("accepted_cards");
    let makers: [Maker; 3] = [chart, town_chart, overview];
    let bytes = vec![5; 9 * 49_152 + 1];
    let mut met = vec![BTreeSet::new(); 16];
    for round in 0..20_000 {
        let tif = !random.once_in(4);
        let (series, record) = small(&mut random, makers[round % 3], 2, tif);
        let twins = Twins::of(&mut random, series, &record);
        let (index, count) = index_of(&mut random, &record);
        let pixel = pixel(&mut random, &record);
        let mut position = or_zero(twins.sheets()[0].position(pixel));
        position.lat += random.between(-20_000, 20_000);
        match random.below(8) {
            0 => position.lat = random.pick(&[32_400_001, i64::MIN]),
            1 => position.lon = random.pick(&[-64_800_001, i64::MAX]),
            _ => (),
        }
        let length = count.min(9) as usize * 49_152 + usize::from(random.once_in(8));
        let (store, index) = (&bytes[..length], &index[..]);
        let window = [0, 0, random.below(4) as u64, random.below(3) as u64];
        let asked = Asked { pixel, position, index, count, store, window };
        let [plain, padded] = twins.sheets().map(|sheet| blocks(&sheet, &asked));
        for (i, (plain, padded)) in plain.into_iter().zip(padded).enumerate() {
            check(&plain, 0);
            check(&padded, twins.put);
            let blanks = padded.blanks;
            assert_eq!(padded, Block { blanks, ..plain }, "{series:?} {i}");
            met[i].insert(padded.number);
        }
    }
    for (i, numbers) in MET.into_iter().enumerate().filter(|(i, _)| *i != 7) {
        assert!(met[i].iter().eq(numbers), "{:?} met by block {i}, not {numbers:?}", met[i]);
    }
}
