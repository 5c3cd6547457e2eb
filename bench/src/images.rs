//! Questions f and g: index check, window.

use std::hint::black_box;

use crate::inputs::{chart, Written};
use crate::plain::tiles::{self, Window};
use crate::plain::CARD;
use crate::random::Random;
use crate::timing::{both, differ, measure, Form};
use fordcask::raw;

pub const SCALE: u64 = 1_000_000;
pub const GRIDS: [(u64, &str); 2] = [(20, "20 x 20"), (100, "100 x 100")];

/// A card with its index and count.
pub struct Image {
    pub card: Written,
    pub index: Vec<u32>,
    pub count: u64,
}

/// An image of nfl x nfc tiles, missing of them not stored, the rest in random order.
pub fn image(random: &mut Random, nfl: u64, nfc: u64, missing: u64) -> Image {
    let count = nfl * nfc - missing;
    let mut index: Vec<u32> = (1..=count as u32).collect();
    index.resize((nfl * nfc) as usize, 0);
    for i in (1..index.len()).rev() {
        index.swap(i, random.below(i as u64 + 1) as usize);
    }
    Image {
        card: chart(random, SCALE, 100, -20, nfl, nfc).write(),
        index,
        count,
    }
}

/// Index check: valid indexes, one tile in ten missing.
pub fn index_check(random: &mut Random) {
    for (side, name) in GRIDS {
        let next = |_| image(random, side, side, side * side / 10);
        let images: Vec<Image> = (0..8).map(next).collect();
        checks(&format!("f index check, {name}"), &images);
    }
}

type Check = fn(&Image, &mut [u8]) -> (u32, u64);

fn checks(question: &str, images: &[Image]) {
    let length = images[0].index.len();
    // Refusal and marks, one mark more than needed.
    let answers_of = |check: Check| -> Vec<((u32, u64), Vec<u8>)> {
        let answer = |image| {
            let mut marks = vec![7; length + 1];
            (check(image, &mut marks), marks)
        };
        images.iter().map(answer).collect()
    };
    let form = |name, agrees, check: Check| {
        let mut marks = vec![7; length];
        Form::new(name, agrees, move || {
            let add = |sum: u64, image| {
                let (number, at) = check(image, &mut marks);
                sum + u64::from(number) + at + u64::from(black_box(&marks)[0])
            };
            images.iter().fold(0, add)
        })
    };
    let agrees = differ(&answers_of(plain_index_check), &answers_of(our_index_check));
    let plain = form("plain", String::new(), plain_index_check);
    let ours = form("ours", agrees, our_index_check);
    measure(question, images.len(), vec![plain, ours]);
}

fn plain_index_check(image: &Image, marks: &mut [u8]) -> (u32, u64) {
    let card = &image.card;
    let (index, count) = (&image.index, image.count);
    match tiles::index_check(card.series, &card.bytes, index, count, marks) {
        Ok(()) => (0, 0),
        Err(refusal) => (refusal.number, refusal.at),
    }
}

fn our_index_check(image: &Image, marks: &mut [u8]) -> (u32, u64) {
    let card = &image.card;
    // SAFETY: each pointer and length are those of one array or slice; marks are lent for writing.
    let done = unsafe {
        raw::fordcask_index_check(
            card.series,
            card.bytes.as_ptr(),
            CARD,
            image.index.as_ptr(),
            image.index.len(),
            image.count,
            marks.as_mut_ptr(),
            marks.len(),
        )
    };
    (done.number, done.at)
}

/// Window: nothing missing, the full window and random ones.
pub fn window(random: &mut Random) {
    for (side, name) in GRIDS {
        let image = image(random, side, side, 0);
        let parts = partial(random, side);
        windows(&format!("g window, {name}, full"), &image, &[whole(side)]);
        windows(&format!("g window, {name}, partial"), &image, &parts);
    }
}

/// The window over the whole image.
pub fn whole(side: u64) -> Window {
    Window {
        top: 0,
        left: 0,
        height: side,
        width: side,
    }
}

/// Random windows.
pub fn partial(random: &mut Random, side: u64) -> Vec<Window> {
    let part = |_| {
        let (top, left) = (random.below(side), random.below(side));
        Window {
            top,
            left,
            height: 1 + random.below(side - top),
            width: 1 + random.below(side - left),
        }
    };
    (0..256).map(part).collect()
}

/// Number, place, missing, tile.
pub type Missing = (u32, u64, u64, u64);

fn windows(question: &str, image: &Image, windows: &[Window]) {
    let card = &image.card;
    let plain = |window: &Window| -> Missing {
        let (index, count) = (&image.index, image.count);
        match tiles::window(card.series, &card.bytes, index, count, window) {
            Ok(Some(tile)) => (0, 0, 1, tile),
            Ok(None) => (0, 0, 0, 0),
            Err(refusal) => (refusal.number, refusal.at, 0, 0),
        }
    };
    let sum = |answer: &Missing| u64::from(answer.0) + answer.1 + answer.2 + answer.3;
    both(
        question,
        windows,
        plain,
        |window| our_window(image, window),
        sum,
    );
}

fn our_window(image: &Image, window: &Window) -> Missing {
    let card = &image.card;
    // SAFETY: each pointer and length are those of one array or slice, which is only read.
    let found = unsafe {
        raw::fordcask_window(
            card.series,
            card.bytes.as_ptr(),
            CARD,
            image.index.as_ptr(),
            image.index.len(),
            image.count,
            window.top,
            window.left,
            window.height,
            window.width,
        )
    };
    (found.number, found.at, found.missing, found.tile)
}
