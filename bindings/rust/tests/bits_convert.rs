//! List to presence bits and back, all words and entries compared (02, E7).

use crate::{bits_support, support};
use bits_support::{list_of, sized, some_present, stray, words_of};
use fordcask::{Refusal, Series, Sheet};
use support::index::{good_index, spoil};
use support::make::{all_chart, card, chart, overview, town_chart, Maker};
use support::{no_blanks, seeded, Ask, Random};

const MAKERS: [Maker; 3] = [chart, town_chart, overview];
const ORDER: Refusal = Refusal { number: 20, at: 0 };
const PAST: Refusal = Refusal { number: 21, at: 0 };

/// What a buffer may hold before: any numbers, the ends often.
fn filled<T: From<u32> + Copy>(random: &mut Random, length: usize, ends: [T; 2]) -> Vec<T> {
    let kind = random.below(4);
    let any = |_| match kind {
        0 => ends[0],
        1 => ends[1],
        _ => T::from(random.next() as u32),
    };
    (0..length).map(any).collect()
}

/// Changes a list in reading order: two entries change places, one is spoilt, or all count down.
fn disorder(random: &mut Random, list: &mut [u32]) {
    let ones = list.iter().filter(|entry| **entry != 0).count();
    match random.below(5) {
        0 => list.swap(random.below(list.len()), random.below(list.len())),
        1 => spoil(random, list, ones),
        2 => list.reverse(),
        3 => list.iter_mut().for_each(|entry| *entry += u32::from(*entry != 0)),
        _ => {
            let at = random.below(list.len());
            list[at] = list[at].wrapping_add(random.pick(&[1, u32::MAX]));
        }
    }
}

/// Lists in order and not, and lengths right and wrong.
#[test]
fn lists() {
    let mut random = seeded("lists");
    let mut ask = Ask::default();
    for round in 0..150_000 {
        let (series, record) = sized(&mut random, MAKERS[round % 3], round % 8 != 0);
        let (card, tiles) = (card(series, &record), (record.nfl * record.nfc) as usize);
        let present = some_present(&mut random, tiles);
        let (mut list, mut words) = (Vec::new(), 0);
        if record.tif {
            (list, words) = (list_of(&present), tiles.div_ceil(64));
            if random.once_in(2) {
                disorder(&mut random, &mut list);
            }
        }
        match random.below(24) {
            0 => list.push(0),
            1 => drop(list.pop()),
            2 => words += 1,
            3 => words = words.saturating_sub(1),
            _ => (),
        }
        let mut words = filled(&mut random, words, [0, u64::MAX]);
        let _ = ask.to_bits(&Sheet { series, card: &card }, &list, &mut words);
    }
    ask.met("to_bits", &[0, 6, 20]);
    ask.met_at("to_bits", 20, &[0]);
}

/// Bits with and without one past the last tile, and lengths right and wrong.
#[test]
fn bits() {
    let mut random = seeded("bits");
    let mut ask = Ask::default();
    for round in 0..150_000 {
        let (series, record) = sized(&mut random, MAKERS[round % 3], round % 8 != 0);
        let (card, tiles) = (card(series, &record), (record.nfl * record.nfc) as usize);
        let (mut words, mut entries) = (Vec::new(), 0);
        if record.tif {
            (words, entries) = (words_of(&some_present(&mut random, tiles)), tiles);
        }
        if random.once_in(4) {
            stray(&mut random, &mut words, tiles);
        }
        match random.below(24) {
            0 => words.push(random.next()),
            1 => drop(words.pop()),
            2 => entries += 1,
            3 => entries = entries.saturating_sub(1),
            _ => (),
        }
        let mut index = filled(&mut random, entries, [0, u32::MAX]);
        let _ = ask.to_list(&Sheet { series, card: &card }, &words, &mut index);
    }
    ask.met("to_list", &[0, 6, 21]);
    ask.met_at("to_list", 21, &[0]);
}

/// Every list of four tiles with some entries: one for each of the 16 words is in order.
#[test]
fn every_small_list() {
    let mut ask = Ask::default();
    let entries = [0, 1, 2, 3, 4, 5, u32::MAX];
    let series = Series::chart(1_000_000, 1);
    let card = card(series, &all_chart(9, 9, 2, 2, true));
    let sheet = Sheet { series, card: &card };
    let mut times = [0; 16];
    for code in 0..7 * 7 * 7 * 7 {
        let list = [1, 7, 49, 343].map(|by| entries[code / by % 7]);
        let mut words = [u64::MAX];
        if ask.to_bits(&sheet, &list, &mut words).is_ok() {
            times[words[0] as usize] += 1;
            let mut back = [9; 4];
            assert_eq!(ask.to_list(&sheet, &words, &mut back), Ok(no_blanks(())));
            assert_eq!(back, list);
        }
    }
    assert_eq!(times, [1; 16]);
    ask.met("to_bits", &[0, 20]);
}

/// Converting to bits and back gives the list, and to a list and back the bits.
#[test]
fn there_and_back() {
    let mut random = seeded("there_and_back");
    for round in 0..100_000 {
        let (series, record) = sized(&mut random, MAKERS[round % 3], round % 16 != 0);
        let card = card(series, &record);
        let sheet = Sheet { series, card: &card };
        let present = some_present(&mut random, (record.nfl * record.nfc) as usize);
        let (mut list, mut words) = (list_of(&present), words_of(&present));
        if !record.tif {
            (list, words) = (Vec::new(), Vec::new());
        }
        let mut made = filled(&mut random, words.len(), [0, u64::MAX]);
        let mut back = filled(&mut random, list.len(), [0, u32::MAX]);
        assert_eq!(sheet.to_bits(&list, &mut made), Ok(no_blanks(())), "{list:?}");
        assert_eq!(sheet.to_list(&made, &mut back), Ok(no_blanks(())), "{made:x?}");
        assert_eq!(back, list, "by way of {made:x?}");
        let mut made = filled(&mut random, list.len(), [0, u32::MAX]);
        let mut back = filled(&mut random, words.len(), [0, u64::MAX]);
        assert_eq!(sheet.to_list(&words, &mut made), Ok(no_blanks(())), "{words:x?}");
        assert_eq!(sheet.to_bits(&made, &mut back), Ok(no_blanks(())), "{made:?}");
        assert_eq!(back, words, "by way of {made:?}");
    }
}

/// Lists in another order keep the old form: 20, and the words stay.
#[test]
fn other_orders() {
    let mut random = seeded("other_orders");
    let (mut kept, mut taken) = (0, 0);
    for round in 0..40_000 {
        let (series, record) = sized(&mut random, MAKERS[round % 3], true);
        let (card, tiles) = (card(series, &record), (record.nfl * record.nfc) as usize);
        let ones = random.below(tiles + 1);
        let list = good_index(&mut random, tiles, ones);
        let named: Vec<u32> = list.iter().copied().filter(|entry| *entry != 0).collect();
        let before = filled(&mut random, tiles.div_ceil(64), [0, u64::MAX]);
        let mut words = before.clone();
        let found = Sheet { series, card: &card }.to_bits(&list, &mut words);
        if named.is_sorted() {
            let present: Vec<bool> = list.iter().map(|entry| *entry != 0).collect();
            assert_eq!((found, words), (Ok(no_blanks(())), words_of(&present)), "{list:?}");
            taken += 1;
        } else {
            assert_eq!((found, words), (Err(ORDER), before), "{list:?}");
            kept += 1;
        }
    }
    assert!(kept > 5_000 && taken > 1_000, "{kept} and {taken}");
}

/// Each bit past the last tile alone, and all bits of the tiles with it: 21, and the index stays.
#[test]
fn past_the_last() {
    for (nfl, nfc) in [(1, 1), (7, 9), (8, 8), (5, 13), (127, 1), (8, 16), (3, 43), (1, 62)] {
        let series = Series::chart(1_000_000, 1);
        let card = card(series, &all_chart(127, 0, nfl, nfc, true));
        let tiles = (nfl * nfc) as usize;
        for place in 0..64 * tiles.div_ceil(64) {
            for all in [vec![false; tiles], vec![true; tiles]] {
                let mut words = words_of(&all);
                words[place / 64] |= 1 << (place % 64);
                let mut index = vec![9; tiles];
                let found = Sheet { series, card: &card }.to_list(&words, &mut index);
                let right = if place < tiles { Ok(no_blanks(())) } else { Err(PAST) };
                assert_eq!(found, right, "bit {place} of {tiles} tiles");
                assert_eq!(index == vec![9; tiles], place >= tiles, "bit {place} of {tiles}");
            }
        }
    }
}

/// A part of longer buffers is lent: what lies on either side of it stays.
#[test]
fn lent_part() {
    let mut random = seeded("lent_part");
    for (nfl, nfc) in [(1, 3), (8, 8), (5, 13), (3, 43)] {
        let series = Series::chart(5_000, 17);
        let card = card(series, &all_chart(9, -3, nfl, nfc, true));
        let sheet = Sheet { series, card: &card };
        let (tiles, count) = ((nfl * nfc) as usize, (nfl * nfc).div_ceil(64) as usize);
        for start in 0..4 {
            let present = some_present(&mut random, tiles);
            let (mut words, mut right) = ([77; 8], [77; 8]);
            let made = sheet.to_bits(&list_of(&present), &mut words[start..start + count]);
            right[start..start + count].copy_from_slice(&words_of(&present));
            assert_eq!((made, words), (Ok(no_blanks(())), right), "{start}");
            let (mut index, mut right) = (vec![7; tiles + 4], vec![7; tiles + 4]);
            let made = sheet.to_list(&words_of(&present), &mut index[start..start + tiles]);
            right[start..start + tiles].copy_from_slice(&list_of(&present));
            assert_eq!((made, index), (Ok(no_blanks(())), right), "{start}");
        }
    }
}
