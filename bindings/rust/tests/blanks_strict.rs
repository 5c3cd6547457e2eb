//! Reading as 01 has it, where no blank leads a number: as the other reading on cards without such
//! blanks, else 7 at the first of them unless something is refused before it (02, E2).

use crate::support;
use fordcask::{read_card, read_strict, Refusal, Series};
use support::blank_faults::{refusal, some_faults, with_faults, FAULTS, STATED};
use support::blanks::{leading_zeros, pad, strict_of, total, with_zeros, Twins, NUMBERS};
use support::damage::{blank_damage, change_some, damage};
use support::make::{card, chart, overview, record, town_chart, town_overview, Maker};
use support::{no_blanks, seeded, Ask, Random, WORKED, WORKED_SERIES};

const MAKERS: [Maker; 4] = [chart, town_chart, overview, town_overview];

/// Reads a card both ways; the one follows from the other, and each is the rule's.
fn ask_both(ask: &mut Ask, series: Series, card: &[u8]) -> [Option<Refusal>; 2] {
    let read = ask.read(series, card);
    let strict = ask.read_strict(series, card);
    assert_eq!(strict, strict_of(card, read), "{series:?} {}", card.escape_ascii());
    [read.err(), strict.err()]
}

/// Each number alone with each count of blanks: 7 at its offset, whatever the other reading gives.
#[test]
fn single_numbers() {
    let mut ask = Ask::default();
    for field in NUMBERS {
        for blanks in 1..=field.1 {
            let mut card = *WORKED;
            pad(&mut card, field, blanks);
            let [read, strict] = ask_both(&mut ask, WORKED_SERIES, &card);
            assert_eq!(strict, Some(Refusal { number: 7, at: field.0 as u64 }));
            let kept = blanks <= leading_zeros(WORKED, field);
            assert!(!kept || read.is_none(), "{}", card.escape_ascii());
        }
    }
    ask.met("read", &[0, 7, 8, 9]);
    ask.met("read_strict", &[7]);
    ask.met_at("read_strict", 7, &NUMBERS.map(|(at, _)| at as u64));
}

/// Random cards of every kind, with blanks and without.
#[test]
fn random_cards() {
    let mut random = seeded("random_cards");
    let mut ask = Ask::default();
    for round in 0..40_000 {
        let series = MAKERS[round % 4](&mut random);
        let record = record(&mut random, series, 999);
        let twins = Twins::of(&mut random, series, &record);
        let plain = ask.read_strict(series, &twins.plain);
        assert_eq!(ask.read(series, &twins.plain), plain.map(no_blanks), "{series:?}");
        let [read, strict] = ask_both(&mut ask, series, &twins.padded);
        assert_eq!((read, strict.is_none()), (None, twins.put == 0), "{series:?}");
    }
    ask.met("read", &[0]);
    ask.met("read_strict", &[0, 7]);
    ask.met_at("read_strict", 7, &NUMBERS.map(|(at, _)| at as u64));
}

/// Without leading blanks both give the same, in each refusal too; damage of one to four times.
#[test]
fn no_leading_blanks() {
    let mut random = seeded("no_leading_blanks");
    let mut ask = Ask::default();
    let mut blanks_elsewhere = 0;
    for round in 0..80_000 {
        let series = MAKERS[round % 4](&mut random);
        let mut card = card(series, &record(&mut random, series, 20));
        for _ in 0..1 + random.below(4) {
            hurt(&mut random, &mut card);
        }
        let card = with_zeros(&card);
        assert_eq!(total(&card), 0);
        blanks_elsewhere += u64::from(card.contains(&b' '));
        let [read, strict] = ask_both(&mut ask, series, &card);
        assert_eq!(read, strict, "{series:?} {}", card.escape_ascii());
        let value = read_card(series, &card).map(|told| told.value);
        assert_eq!(read_strict(series, &card), value, "{series:?} {}", card.escape_ascii());
    }
    assert!(blanks_elsewhere > 6_000, "{blanks_elsewhere} with blanks that lead no number");
    ask.met("read", &[0, 7, 8, 9, 10, 11]);
    ask.met("read_strict", &[0, 7, 8, 9, 10, 11]);
}

/// Damage of one byte or of whole subfields, with blanks or without.
fn hurt(random: &mut Random, card: &mut [u8]) {
    match random.below(3) {
        0 => damage(random, card),
        1 => change_some(random, card),
        _ => blank_damage(random, card),
    }
}

/// Padded cards damaged: the one reading follows from the other, and they part in each way.
#[test]
fn damaged_cards() {
    let mut random = seeded("damaged_cards");
    let mut ask = Ask::default();
    let (mut earlier, mut same, mut alone) = (0, 0, 0);
    for round in 0..80_000 {
        let series = MAKERS[round % 4](&mut random);
        let record = record(&mut random, series, 20);
        let mut card = Twins::of(&mut random, series, &record).padded;
        for _ in 0..1 + random.below(3) {
            hurt(&mut random, &mut card);
        }
        match ask_both(&mut ask, series, &card) {
            [Some(read), Some(strict)] if read == strict => same += 1,
            // "the other reading, then 7" would give the later refusal
            [Some(_), Some(_)] => earlier += 1,
            [None, Some(_)] => alone += 1,
            [_, None] => (),
        }
    }
    assert!(earlier > 15_000 && same > 15_000 && alone > 8_000, "{earlier} {same} {alone}");
    ask.met("read", &[0, 7, 8, 9, 10, 11]);
    ask.met("read_strict", &[0, 7, 8, 9, 10, 11]);
}

/// Faults of every subfield with blanks before and behind, what is stated and the length too.
#[test]
fn faults_and_blanks() {
    let mut random = seeded("faults_and_blanks");
    let mut ask = Ask::default();
    for fault in FAULTS {
        for (at, _) in NUMBERS.into_iter().filter(|number| number.0 != fault.2) {
            let mut card = *WORKED;
            card[fault.2..fault.2 + fault.3.len()].copy_from_slice(fault.3);
            card[at] = b' ';
            let [read, _] = ask_both(&mut ask, WORKED_SERIES, &card);
            assert_eq!(read, Some(refusal(fault)), "{}", card.escape_ascii());
        }
    }
    for _ in 0..40_000 {
        let faults = some_faults(&mut random);
        let mut card = with_faults(&mut random, &faults);
        let (mut series, mut first) = (WORKED_SERIES, None);
        if random.once_in(6) {
            card.truncate(random.below(98));
            first = Some(Refusal { number: 6, at: 0 });
        }
        if random.once_in(6) {
            let (stated, number) = random.pick(&STATED);
            (series, first) = (stated, Some(Refusal { number, at: 0 }));
        }
        let [read, strict] = ask_both(&mut ask, series, &card);
        assert!(first.is_none() || (read, strict) == (first, first), "{series:?} {first:?}");
    }
    // blanks lead each text of 9 and 11
    ask.met("read_strict", &[0, 1, 2, 3, 6, 7, 8, 10, 17]);
}

/// A blank in ARV and NFL 000: 7 at 1 as 01 has it, 8 at 62 in the other reading.
#[test]
fn not_the_other_and_then_seven() {
    let mut ask = Ask::default();
    let mut card = *WORKED;
    card[1] = b' ';
    card[62..65].copy_from_slice(b"000");
    let [read, strict] = ask_both(&mut ask, WORKED_SERIES, &card);
    assert_eq!(read, Some(Refusal { number: 8, at: 62 }));
    assert_eq!(strict, Some(Refusal { number: 7, at: 1 }));
    // the same with 9, 10 and 11
    let texts: [(usize, &[u8], u32); 3] =
        [(9, b"00400385", 9), (28, b"+113032.24", 10), (38, b"000256", 11)];
    for (at, text, number) in texts {
        let mut card = *WORKED;
        card[1] = b' ';
        card[at..at + text.len()].copy_from_slice(text);
        let [read, strict] = ask_both(&mut ask, WORKED_SERIES, &card);
        assert_eq!(read, Some(Refusal { number, at: 0 }));
        assert_eq!(strict, Some(Refusal { number: 7, at: 1 }));
    }
}
