//! Each question put to the library and to the rule; the answers must be equal.

use std::collections::{BTreeMap, BTreeSet};
use std::fmt::Debug;
use std::ops::RangeInclusive;

use super::blanks::{no_blanks, with_zeros};
use crate::rule;
use fordcask::{Card, Offset, OnCard, Origin, Pair, Position, Record, Refusal, Series, Spacing};

pub type Answer<T> = Result<T, Refusal>;

/// The refusal of writing and alignment at a town scale (02, E13).
pub const RETIRED: Refusal = Refusal { number: 24, at: 0 };

/// The cases of one question: how often each number was met (0 is an answer), and where; and how
/// often each total of blanks was told (02, E2).
#[derive(Default)]
struct Tally {
    numbers: BTreeMap<u32, u64>,
    places: BTreeSet<(u32, u64)>,
    totals: BTreeMap<u64, u64>,
}

/// What cases are counted by: a question, and the pair it was put in where it has pairs.
#[derive(Clone, Copy, PartialEq, Eq, PartialOrd, Ord)]
pub struct Question {
    name: &'static str,
    pair: &'static str,
}

impl From<&'static str> for Question {
    fn from(name: &'static str) -> Question {
        Question { name, pair: "" }
    }
}

impl From<(&'static str, Pair)> for Question {
    fn from((name, pair): (&'static str, Pair)) -> Question {
        let pair = match pair {
            Pair::Corner => "corner",
            Pair::Centre => "centre",
        };
        Question { name, pair }
    }
}

/// Asks both sides and keeps count.
#[derive(Default)]
pub struct Ask {
    tallies: BTreeMap<Question, Tally>,
}

impl Ask {
    /// Compares two answers, counts the case and hands the answer on.
    pub fn same<T: PartialEq + Debug>(
        &mut self,
        question: impl Into<Question>,
        call: impl FnOnce() -> String,
        library: Answer<T>,
        rule: Answer<T>,
    ) -> Answer<T> {
        let question = question.into();
        if library != rule {
            let (name, call) = (question.name, call());
            panic!("{name}\n  call    {call}\n  library {library:?}\n  rule    {rule:?}");
        }
        let (number, at) = match &library {
            Ok(_) => (0, 0),
            Err(refusal) => (refusal.number, refusal.at),
        };
        self.count(question, number, at);
        library
    }

    /// The same of two answers on a card, with the totals of blanks they tell (02, E2).
    pub fn on_card<T: PartialEq + Debug>(
        &mut self,
        question: impl Into<Question>,
        call: impl FnOnce() -> String,
        library: Answer<OnCard<T>>,
        rule: Answer<OnCard<T>>,
    ) -> Answer<OnCard<T>> {
        let question = question.into();
        let answer = self.same(question, call, library, rule);
        if let Ok(told) = &answer {
            self.count_total(question, told.blanks);
        }
        answer
    }

    /// Counts a total of blanks that an answer tells.
    pub fn count_total(&mut self, question: impl Into<Question>, blanks: u64) {
        let tally = self.tallies.entry(question.into()).or_default();
        *tally.totals.entry(blanks).or_default() += 1;
    }

    /// Counts a case; number 0 is an answer.
    pub fn count(&mut self, question: impl Into<Question>, number: u32, at: u64) {
        let tally = self.tallies.entry(question.into()).or_default();
        *tally.numbers.entry(number).or_default() += 1;
        if number != 15 {
            tally.places.insert((number, at));
        }
    }

    /// The tallies of a question: one, or one for each pair.
    fn tallied(&self, name: &'static str) -> Vec<(&'static str, &Tally)> {
        let named = self.tallies.iter().filter(|(question, _)| question.name == name);
        let found: Vec<_> = named.map(|(question, tally)| (question.pair, tally)).collect();
        let pairs: Vec<&str> = found.iter().map(|(pair, _)| *pair).collect();
        assert!(pairs == [""] || pairs == ["centre", "corner"], "{name} asked in {pairs:?}");
        found
    }

    /// The numbers met must be exactly these, in each pair alone; 0 stands for an answer.
    pub fn met(&self, question: &'static str, numbers: &[u32]) {
        for (pair, tally) in self.tallied(question) {
            let met: Vec<u32> = tally.numbers.keys().copied().collect();
            let name = format!("{pair} {question}");
            assert_eq!(met, numbers, "numbers met by {name}");
            let cases: u64 = tally.numbers.values().sum();
            println!("cases {} {cases} {:?}", name.trim_start(), tally.numbers);
        }
    }

    /// The places met with a number must be exactly these, in each pair alone.
    pub fn met_at(&self, question: &'static str, number: u32, places: &[u64]) {
        for (pair, tally) in self.tallied(question) {
            let all = tally.places.iter();
            let met: Vec<u64> = all.filter(|p| p.0 == number).map(|p| p.1).collect();
            assert_eq!(met, places, "places met by {pair} {question} with {number}");
        }
    }

    /// Each of these totals of blanks must have been told, in each pair alone, and none above 37
    /// (02, E2).
    pub fn met_totals(&self, question: &'static str, totals: RangeInclusive<u64>) {
        for (pair, tally) in self.tallied(question) {
            let mut wanted = totals.clone();
            let missed = wanted.find(|total| !tally.totals.contains_key(total));
            assert_eq!(missed, None, "a total not met by {pair} {question}: {:?}", tally.totals);
            let most = tally.totals.keys().next_back().copied();
            assert!(most <= Some(37), "the greatest total of {pair} {question}: {most:?}");
        }
    }

    pub fn spacing(&mut self, series: Series) -> Answer<Spacing> {
        let call = || format!("spacing({series:?})");
        self.same("spacing", call, fordcask::spacing(series), rule::spacing(series))
    }

    pub fn basic_zone(&mut self, lat: i64) -> Answer<u64> {
        let call = || format!("basic_zone({lat})");
        let (library, rule) = (fordcask::basic_zone(lat), rule::basic_zone(lat));
        self.same("basic_zone", call, library, rule)
    }

    pub fn cover(&mut self, scale: u64, factor: u64, lat: i64) -> Answer<Vec<u64>> {
        let call = || format!("cover({scale}, {factor}, {lat})");
        let library = fordcask::cover(scale, factor, lat).map(|zones| zones.as_slice().to_vec());
        self.same("cover", call, library, rule::cover(scale, factor, lat))
    }

    pub fn rectangle(
        &mut self,
        scale: u64,
        factor: u64,
        south: i64,
        north: i64,
    ) -> Answer<Vec<u64>> {
        let call = || format!("rectangle({scale}, {factor}, {south}, {north})");
        let library = fordcask::rectangle(scale, factor, south, north);
        let library = library.map(|zones| zones.as_slice().to_vec());
        let rule = rule::rectangle(scale, factor, south, north);
        self.same("rectangle", call, library, rule)
    }

    pub fn align(&mut self, series: Series, lat: i64, lon: i64) -> Answer<Origin> {
        let call = || format!("align({series:?}, {lat}, {lon})");
        let library = fordcask::align(series, lat, lon);
        self.same("align", call, library, rule::align(series, lat, lon))
    }

    /// Equal to the last bit: zero is never minus zero.
    pub fn offset(&mut self, position: Position, centre: Position) -> Answer<(u64, u64)> {
        let call = || format!("offset({position:?}, {centre:?})");
        let bits = |offset: Offset| (offset.lat.to_bits(), offset.lon.to_bits());
        let library = fordcask::offset(position, centre).map(bits);
        let rule = rule::offset(position, centre).map(bits);
        self.same("offset", call, library, rule)
    }

    /// Reading, and beside it reading as 01 has it; both are compared (02, E2).
    pub fn read(&mut self, series: Series, card: &[u8]) -> Answer<OnCard<Card>> {
        let _ = self.read_strict(series, card);
        let call = || format!("read_card({series:?}, b\"{}\")", card.escape_ascii());
        let library = fordcask::read_card(series, card);
        self.on_card("read", call, library, rule::read(series, card))
    }

    pub fn read_strict(&mut self, series: Series, card: &[u8]) -> Answer<Card> {
        let call = || format!("read_strict({series:?}, b\"{}\")", card.escape_ascii());
        let library = fordcask::read_strict(series, card);
        self.same("read_strict", call, library, rule::read_strict(series, card))
    }

    /// The whole output, filled with 7 before: 98 bytes written, or nothing.
    pub fn write(&mut self, series: Series, record: &Record, out_len: usize) -> Answer<Vec<u8>> {
        let call = || format!("write_card({series:?}, {record:?}, {out_len} bytes)");
        let mut out = vec![7; out_len];
        let library = fordcask::write_card(series, record, &mut out);
        let mut expected = vec![7; out_len];
        let rule = rule::write(series, record, out_len);
        if let Ok(bytes) = &rule {
            expected[..rule::CARD].copy_from_slice(bytes);
        }
        assert_eq!(
            out.escape_ascii().to_string(),
            expected.escape_ascii().to_string(),
            "output of {}",
            call()
        );
        self.same("write", call, library, rule.map(|_| ()))?;
        Ok(out[..rule::CARD].to_vec())
    }

    /// Writing what was read gives the bytes back where no blanks were met, else zeros for them,
    /// and reading these gives the record with total 0 (02, E2); below 10,000 it is 24 (02, E13).
    pub fn write_back(&mut self, series: Series, read: &OnCard<Card>, card: &[u8], out_len: usize) {
        let written = self.write(series, &read.value.record, out_len);
        if series.scale < 10_000 {
            assert_eq!(written, Err(RETIRED), "writing what was read at {series:?}");
            return;
        }
        let written = written.expect("what was read is written");
        assert_eq!(written, with_zeros(card), "writing what was read at {series:?}");
        assert_eq!(written == card, read.blanks == 0, "the bytes back at {series:?}");
        if read.blanks > 0 {
            let again = self.read(series, &written);
            assert_eq!(again, Ok(no_blanks(read.value)), "reading it again at {series:?}");
        }
    }
}
