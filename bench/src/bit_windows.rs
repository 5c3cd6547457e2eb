//! Question j: windows by presence bits (02, E7).

use crate::bits::{image, Image, SIDE};
use crate::images::{partial, whole, Missing, GRIDS};
use crate::plain::bits;
use crate::plain::tiles::Window;
use crate::plain::{Refusal, CARD};
use crate::random::Random;
use crate::timing::both;
use fordcask::raw;

/// Window: nothing missing, the full window and random ones.
pub fn window(random: &mut Random) {
    for (side, name) in GRIDS.into_iter().chain([(SIDE, "999 x 999")]) {
        let image = image(random, side, 0..side * side);
        let full = [whole(side)];
        let parts = partial(random, side);
        windows(&format!("j window, {name}, bits, full"), &image, &full);
        if side == SIDE {
            let small = |_| Window {
                top: random.below(SIDE - 20),
                left: random.below(SIDE - 20),
                height: 20,
                width: 20,
            };
            let small: Vec<Window> = (0..64).map(small).collect();
            windows("j window, 20 x 20 of 999 x 999, bits", &image, &small);
            continue;
        }
        windows(&format!("j window, {name}, bits, partial"), &image, &parts);
        let zero = vec![0; (side * side) as usize];
        beside(
            &format!("j window, {name}, bits, zeros"),
            &image,
            (&zero, 0),
            &full,
        );
    }
}

fn answered(found: Result<Option<u64>, Refusal>) -> Missing {
    match found {
        Ok(Some(tile)) => (0, 0, 1, tile),
        Ok(None) => (0, 0, 0, 0),
        Err(refusal) => (refusal.number, refusal.at, 0, 0),
    }
}

fn windows(question: &str, image: &Image, asked: &[Window]) {
    let card = &image.card;
    let plain = |window: &Window| {
        answered(bits::window(
            card.series,
            &card.bytes,
            &image.words,
            image.count,
            window,
        ))
    };
    let sum = |answer: &Missing| u64::from(answer.0) + answer.1 + answer.2 + answer.3;
    let ours = |window: &Window| our_window(image, window);
    both(question, asked, plain, ours, sum);
}

fn our_window(image: &Image, window: &Window) -> Missing {
    let card = &image.card;
    // SAFETY: each pointer and length are those of one array or slice, which is only read.
    let found = unsafe {
        raw::fordcask_bits_window(
            card.series,
            card.bytes.as_ptr(),
            CARD,
            image.words.as_ptr(),
            image.words.len(),
            image.count,
            window.top,
            window.left,
            window.height,
            window.width,
        )
    };
    (found.number, found.at, found.missing, found.tile)
}

fn beside(question: &str, image: &Image, beside: (&[u32], u64), asked: &[Window]) {
    let card = &image.card;
    let plain = |window: &Window| {
        let base = (&image.words[..], image.count);
        answered(bits::corrected_window(
            card.series,
            &card.bytes,
            base,
            beside,
            window,
        ))
    };
    let sum = |answer: &Missing| u64::from(answer.0) + answer.1 + answer.2 + answer.3;
    let ours = |window: &Window| our_corrected_window(image, beside, window);
    both(question, asked, plain, ours, sum);
}

fn our_corrected_window(image: &Image, beside: (&[u32], u64), window: &Window) -> Missing {
    let card = &image.card;
    // SAFETY: each pointer and length are those of one array or slice, which is only read.
    let found = unsafe {
        raw::fordcask_corrected_bits_window(
            card.series,
            card.bytes.as_ptr(),
            CARD,
            image.words.as_ptr(),
            image.words.len(),
            image.count,
            beside.0.as_ptr(),
            beside.0.len(),
            beside.1,
            window.top,
            window.left,
            window.height,
            window.width,
        )
    };
    (found.number, found.at, found.missing, found.tile)
}
