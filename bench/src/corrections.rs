//! Question i: look-up and window with corrections beside the base charts (02, E1).

use crate::images::{image, partial, whole, Image, Missing, GRIDS};
use crate::inputs::pixel;
use crate::lookup::{record, Bands, MISSING, NFC, NFL, SET};
use crate::plain::corrections::{self, Beside};
use crate::plain::tiles::{Look, Window};
use crate::plain::{Refusal, CARD, TILE};
use crate::random::Random;
use crate::timing::both;
use fordcask::raw;

/// Number, place, source, stored number, offset and length of the part.
type Part = (u32, u64, u64, u64, u64, u64);

/// A list that corrects one tile in four, and how many it corrects.
fn list(random: &mut Random, tiles: usize) -> (Vec<u32>, u64) {
    let mut count = 0;
    let mut next = |_| {
        if random.below(4) != 0 {
            return 0;
        }
        count += 1;
        count
    };
    let list = (0..tiles).map(&mut next).collect();
    (list, u64::from(count))
}

/// Tile and bands of random pixels, one tile in four corrected.
pub fn lookup(random: &mut Random) {
    let image = image(random, NFL, NFC, MISSING);
    let (list, corrected) = list(random, image.index.len());
    let mut bytes = |count: u64| -> Vec<u8> {
        (0..count as usize * TILE)
            .map(|_| random.next() as u8)
            .collect()
    };
    let (store, second) = (bytes(image.count), bytes(corrected));
    let beside = Beside {
        list: &list,
        count: corrected,
        store: &second,
    };
    let record = record(&image);
    let look = |_| {
        let (row, column) = pixel(random, &record);
        Look {
            index: &image.index,
            count: image.count,
            store: &store,
            row,
            column,
        }
    };
    let looks: Vec<Look> = (0..SET).map(look).collect();
    let sum = |part: &Part| u64::from(part.0) + part.1 + part.2 + part.3 + part.4 + part.5;
    both(
        "i tile of a pixel, corrections",
        &looks,
        |look| plain_tile(&image, look, &beside),
        |look| our_tile(&image, look, &beside),
        sum,
    );
    let sum = |bands: &Bands| u64::from(bands.0) + u64::from(bands.2 ^ bands.3 ^ bands.4);
    both(
        "i bands of a pixel, corrections",
        &looks,
        |look| plain_bands(&image, look, &beside),
        |look| our_bands(&image, look, &beside),
        sum,
    );
}

fn plain_tile(image: &Image, look: &Look, beside: &Beside) -> Part {
    let card = &image.card;
    match corrections::tile(card.series, &card.bytes, look, beside) {
        Ok(((source, found), part)) => {
            let offset = found.offset as u64;
            (
                0,
                0,
                u64::from(source),
                found.stored,
                offset,
                part.len() as u64,
            )
        }
        Err(Refusal { number, at }) => (number, at, 0, 0, 0, 0),
    }
}

fn plain_bands(image: &Image, look: &Look, beside: &Beside) -> Bands {
    let card = &image.card;
    match corrections::bands(card.series, &card.bytes, look, beside) {
        Ok([red, green, blue]) => (0, 0, red, green, blue),
        Err(Refusal { number, at }) => (number, at, 0, 0, 0),
    }
}

fn our_tile(image: &Image, look: &Look, beside: &Beside) -> Part {
    let card = &image.card;
    // SAFETY: each pointer and length are those of one array or slice, which is only read.
    let found = unsafe {
        raw::fordcask_corrected_tile(
            card.series,
            card.bytes.as_ptr(),
            CARD,
            look.index.as_ptr(),
            look.index.len(),
            look.count,
            look.store.as_ptr(),
            look.store.len(),
            beside.list.as_ptr(),
            beside.list.len(),
            beside.count,
            beside.store.as_ptr(),
            beside.store.len(),
            look.row,
            look.column,
        )
    };
    (
        found.number,
        found.at,
        found.source,
        found.stored,
        found.offset,
        found.length,
    )
}

fn our_bands(image: &Image, look: &Look, beside: &Beside) -> Bands {
    let card = &image.card;
    // SAFETY: each pointer and length are those of one array or slice, which is only read.
    let found = unsafe {
        raw::fordcask_corrected_bands(
            card.series,
            card.bytes.as_ptr(),
            CARD,
            look.index.as_ptr(),
            look.index.len(),
            look.count,
            look.store.as_ptr(),
            look.store.len(),
            beside.list.as_ptr(),
            beside.list.len(),
            beside.count,
            beside.store.as_ptr(),
            beside.store.len(),
            look.row,
            look.column,
        )
    };
    (found.number, found.at, found.red, found.green, found.blue)
}

/// Window: nothing missing, the full window and random ones; one tile in four corrected, or none.
pub fn window(random: &mut Random) {
    for (side, name) in GRIDS {
        let image = image(random, side, side, 0);
        let (list, corrected) = list(random, image.index.len());
        let zero = vec![0; image.index.len()];
        let parts = partial(random, side);
        let ask = |form: &str, list: &[u32], count, asked: &[Window]| {
            let question = format!("i window, {name}, {form}");
            windows(&question, &image, (list, count), asked);
        };
        ask("full, corrections", &list, corrected, &[whole(side)]);
        ask("full, list of zeros", &zero, 0, &[whole(side)]);
        ask("partial, corrections", &list, corrected, &parts);
    }
}

fn windows(question: &str, image: &Image, beside: (&[u32], u64), asked: &[Window]) {
    let card = &image.card;
    let plain = |window: &Window| -> Missing {
        let base = (&image.index[..], image.count);
        match corrections::window(card.series, &card.bytes, base, beside, window) {
            Ok(Some(tile)) => (0, 0, 1, tile),
            Ok(None) => (0, 0, 0, 0),
            Err(refusal) => (refusal.number, refusal.at, 0, 0),
        }
    };
    let sum = |answer: &Missing| u64::from(answer.0) + answer.1 + answer.2 + answer.3;
    both(
        question,
        asked,
        plain,
        |window| our_window(image, beside, window),
        sum,
    );
}

fn our_window(image: &Image, beside: (&[u32], u64), window: &Window) -> Missing {
    let card = &image.card;
    let (list, corrected) = beside;
    // SAFETY: each pointer and length are those of one array or slice, which is only read.
    let found = unsafe {
        raw::fordcask_corrected_window(
            card.series,
            card.bytes.as_ptr(),
            CARD,
            image.index.as_ptr(),
            image.index.len(),
            image.count,
            list.as_ptr(),
            list.len(),
            corrected,
            window.top,
            window.left,
            window.height,
            window.width,
        )
    };
    (found.number, found.at, found.missing, found.tile)
}
