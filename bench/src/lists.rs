//! Questions a and b: many pixels, or many positions, of one card in one call, in each pair.

use std::hint::black_box;

use crate::inputs::{largest, pixel, position, Sheet, Written};
use crate::plain::{self, Refusal, H};
use crate::random::Random;
use crate::timing::{differ, measure, Form};
use crate::{doubles, exact, lean};
use fordcask::raw;
use fordcask::Series;

const LIST: usize = 4096;
const SCALES: [(u64, &str); 3] = [
    (5_000, "1:5,000"),
    (1_000_000, "1:1,000,000"),
    (20_000_000, "1:20,000,000"),
];

/// What is stated beside the card, the card, pairs asked, pairs answered, numbers.
type List = fn(Series, &[u8], &[i64], &mut [i64], &mut [u32]) -> Result<(), Refusal>;

pub fn positions(random: &mut Random) {
    positions_in::<true>(random, "centres");
    positions_in::<false>(random, "corners");
    off_the_chart(
        random,
        "a pixels",
        &position_forms::<true>(),
        |random, sheet| {
            let (row, column) = pixel(random, &sheet.record);
            (row - 200_000, column)
        },
    );
}

pub fn pixels(random: &mut Random) {
    pixels_in::<true>(random, "centre pair");
    pixels_in::<false>(random, "corner pair");
    off_the_chart(
        random,
        "b positions",
        &pixel_forms::<true>(),
        |random, _| (random.within(-H / 4, H / 4), random.within(-H / 2, H / 2)),
    );
}

type Forms = [(&'static str, List); 5];

fn position_forms<const CENTRE: bool>() -> Forms {
    [
        ("plain", plain::grid::positions::<CENTRE>),
        ("lean", lean::positions::<CENTRE>),
        ("ours", our_positions::<CENTRE>),
        ("doubles", doubles::positions::<CENTRE>),
        ("exact", exact::positions::<CENTRE>),
    ]
}

fn pixel_forms<const CENTRE: bool>() -> Forms {
    [
        ("plain", plain::grid::pixels::<CENTRE>),
        ("lean", lean::pixels::<CENTRE>),
        ("ours", our_pixels::<CENTRE>),
        ("doubles", doubles::pixels::<CENTRE>),
        ("exact", exact::pixels::<CENTRE>),
    ]
}

/// Entries that are not on the chart, all of them and every other one, in the centre pair.
fn off_the_chart(
    random: &mut Random,
    entries: &str,
    forms: &Forms,
    off: impl Fn(&mut Random, &Sheet) -> (i64, i64),
) {
    let sheet = largest(random, 1_000_000);
    let card = sheet.write();
    let read = plain::read::read_card(card.series, &card.bytes).expect("a valid card");
    let asked = pairs(|| off(random, &sheet));
    list(&format!("{entries} off the chart"), &card, &asked, forms);
    let mut turn = 0;
    let asked = pairs(|| {
        turn += 1;
        match (turn % 2, entries) {
            (1, _) => off(random, &sheet),
            (_, "a pixels") => pixel(random, &sheet.record),
            _ => position(random, &read),
        }
    });
    list(
        &format!("{entries}, every other off the chart"),
        &card,
        &asked,
        forms,
    );
}

fn positions_in<const CENTRE: bool>(random: &mut Random, pair: &str) {
    let forms = position_forms::<CENTRE>();
    for (scale, name) in SCALES {
        let sheet = largest(random, scale);
        let asked = pairs(|| pixel(random, &sheet.record));
        list(
            &format!("a pixels to {pair}, {name}"),
            &sheet.write(),
            &asked,
            &forms,
        );
    }
}

fn pixels_in<const CENTRE: bool>(random: &mut Random, pair: &str) {
    let forms = pixel_forms::<CENTRE>();
    for (scale, name) in SCALES {
        let card = largest(random, scale).write();
        let read = plain::read::read_card(card.series, &card.bytes).expect("a valid card");
        let asked = pairs(|| position(random, &read));
        list(&format!("b pixels, {pair}, {name}"), &card, &asked, &forms);
    }
}

fn pairs(mut next: impl FnMut() -> (i64, i64)) -> Vec<i64> {
    (0..LIST).flat_map(|_| <[i64; 2]>::from(next())).collect()
}

fn list(question: &str, card: &Written, asked: &[i64], forms: &[(&'static str, List)]) {
    let ask = |form: List, answers: &mut [i64], numbers: &mut [u32]| {
        let card = black_box(card);
        let done = form(card.series, &card.bytes, asked, answers, numbers);
        assert!(done.is_ok(), "{done:?}");
    };
    let answers_of = |form: List| -> Vec<(u32, i64, i64)> {
        let (mut answers, mut numbers) = (vec![7; 2 * LIST], vec![7; LIST]);
        ask(form, &mut answers, &mut numbers);
        let pairs = answers.chunks_exact(2).zip(&numbers);
        pairs
            .map(|(pair, &number)| (number, pair[0], pair[1]))
            .collect()
    };
    let plain = answers_of(forms[0].1);
    let timed = forms.iter().enumerate().map(|(i, &(name, form))| {
        let agrees = match i {
            0 => refused(&plain),
            _ => differ(&plain, &answers_of(form)),
        };
        let (mut answers, mut numbers) = (vec![0; 2 * LIST], vec![0; LIST]);
        Form::new(name, agrees, move || {
            ask(form, &mut answers, &mut numbers);
            let last = black_box(&answers)[2 * LIST - 1] as u64;
            last.wrapping_add(u64::from(black_box(&numbers)[LIST - 1]))
        })
    });
    measure(question, LIST, timed.collect());
}

fn refused(answers: &[(u32, i64, i64)]) -> String {
    let count = answers.iter().filter(|answer| answer.0 != 0).count();
    format!("{count} of {LIST} refused")
}

fn done(refusal: raw::Verdict) -> Result<(), Refusal> {
    match refusal.number {
        0 => Ok(()),
        number => plain::refuse(number, refusal.at),
    }
}

fn our_positions<const CENTRE: bool>(
    series: Series,
    card: &[u8],
    pixels: &[i64],
    positions: &mut [i64],
    numbers: &mut [u32],
) -> Result<(), Refusal> {
    let ask = match CENTRE {
        true => raw::fordcask_positions,
        false => raw::fordcask_corner_positions,
    };
    // SAFETY: each pointer and length are those of one slice; the two slices written to are lent
    // for writing.
    done(unsafe {
        ask(
            series,
            card.as_ptr(),
            card.len(),
            pixels.as_ptr(),
            pixels.len(),
            positions.as_mut_ptr(),
            positions.len(),
            numbers.as_mut_ptr(),
            numbers.len(),
        )
    })
}

fn our_pixels<const CENTRE: bool>(
    series: Series,
    card: &[u8],
    positions: &[i64],
    pixels: &mut [i64],
    numbers: &mut [u32],
) -> Result<(), Refusal> {
    let ask = match CENTRE {
        true => raw::fordcask_pixels,
        false => raw::fordcask_corner_pixels,
    };
    // SAFETY: each pointer and length are those of one slice; the two slices written to are lent
    // for writing.
    done(unsafe {
        ask(
            series,
            card.as_ptr(),
            card.len(),
            positions.as_ptr(),
            positions.len(),
            pixels.as_mut_ptr(),
            pixels.len(),
            numbers.as_mut_ptr(),
            numbers.len(),
        )
    })
}
