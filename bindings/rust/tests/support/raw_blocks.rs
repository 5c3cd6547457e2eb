//! The blocks of all C entry points on a card, with their totals of blanks (02, E2).

use super::blanks::pad_all;
use super::corrections::Image;
use super::{WORKED, WORKED_SERIES};
use fordcask::{raw, Pixel, Position, Sheet};

/// A block as it came: number, place, total of blanks, and all its other fields.
#[derive(Clone, Debug, PartialEq)]
pub struct Block {
    pub number: u32,
    pub at: u64,
    pub blanks: u64,
    pub rest: Vec<i64>,
}

/// A block of a structure that has these fields beside number, place and blanks.
macro_rules! block {
    ($given:expr $(, $field:ident)*) => {{
        let given = $given;
        let rest = vec![$(given.$field as i64),*];
        Block { number: given.number, at: given.at, blanks: given.blanks, rest }
    }};
}

/// What is asked of a card beside its bytes.
pub struct Asked<'a> {
    pub pixel: Pixel,
    pub position: Position,
    pub index: &'a [u32],
    pub count: u64,
    pub store: &'a [u8],
    pub window: [u64; 4],
}

/// A card's block; the name goes byte by byte.
pub fn card_block(given: raw::Card) -> Block {
    let mut found = block!(given, a, b, n, m, nul, nus, nll, nls, nfl, nfc, tif);
    found.rest.extend(given.bad.map(i64::from));
    found
}

/// Reading, and the questions on pixels, positions and overviews; the card is its own overview.
fn grid_blocks(sheet: &Sheet, asked: &Asked) -> Vec<Block> {
    let (s, c, n) = (sheet.series, sheet.card.as_ptr(), sheet.card.len());
    let (Pixel { row, column }, Position { lat, lon }) = (asked.pixel, asked.position);
    let mut chart = *WORKED;
    let total = pad_all(&mut chart);
    let chart = chart.as_ptr();
    // SAFETY: each pointer and length are those of one slice.
    unsafe {
        let own = raw::fordcask_overview_pixel(s, c, n, s, c, n, row, column);
        let two = raw::fordcask_overview_pixel(WORKED_SERIES, chart, 98, s, c, n, 0, 0);
        let mut blocks = vec![
            card_block(raw::fordcask_read_card(s, c, n)),
            block!(raw::fordcask_place(s, c, n, row, column), row, column),
            block!(raw::fordcask_position(s, c, n, row, column), lat, lon),
            block!(raw::fordcask_corner_position(s, c, n, row, column), lat, lon),
            block!(raw::fordcask_pixel(s, c, n, lat, lon), row, column),
            block!(raw::fordcask_corner_pixel(s, c, n, lat, lon), row, column),
            block!(own, row, column),
        ];
        assert_eq!(own.overview_blanks, own.blanks, "one card, two totals");
        // the worked card with all its blanks is the chart
        let told = if two.number == 0 { total } else { 0 };
        assert_eq!(two.blanks, told, "the total of the chart's card");
        let (number, at, blanks) = (two.number, two.at, two.overview_blanks);
        blocks.push(Block { number, at, blanks, rest: vec![two.row, two.column] });
        blocks
    }
}

/// The questions on tiles; the marks are kept with an answer and with 15.
fn tile_blocks(sheet: &Sheet, asked: &Asked) -> Vec<Block> {
    let (s, c, n) = (sheet.series, sheet.card.as_ptr(), sheet.card.len());
    let (i, count, k) = (asked.index.as_ptr(), asked.index.len(), asked.count);
    let (t, size) = (asked.store.as_ptr(), asked.store.len());
    let (Pixel { row, column }, [top, left, height, width]) = (asked.pixel, asked.window);
    let mut marks = [7u8; 4];
    let m = marks.as_mut_ptr();
    // SAFETY: each pointer and length are those of one slice or array.
    unsafe {
        let tile = raw::fordcask_tile(s, c, n, i, count, k, t, size, row, column);
        let bands = raw::fordcask_bands(s, c, n, i, count, k, t, size, row, column);
        let window = raw::fordcask_window(s, c, n, i, count, k, top, left, height, width);
        let check = raw::fordcask_index_check(s, c, n, i, count, k, m, 4);
        let marked = [0, 15].contains(&check.number);
        assert!(marked || marks == [7; 4], "marks stay");
        vec![
            block!(tile, stored, offset, length),
            block!(bands, red, green, blue),
            block!(window, missing, tile),
            block!(check),
        ]
    }
}

/// What is asked of an image with corrections beside a pixel: a window, and an entry to set.
pub struct Corrected {
    pub pixel: Pixel,
    pub window: [u64; 4],
    pub tile: u64,
    pub number: u64,
}

/// The questions on corrections (02, E1), and what the list holds after the last.
pub fn corrected_blocks(image: &Image, asked: &Corrected) -> ([Block; 4], Vec<u32>) {
    let (s, c, n) = (image.sheet.series, image.sheet.card.as_ptr(), image.sheet.card.len());
    let (i, count, k) = (image.tiles.index.as_ptr(), image.tiles.index.len(), image.tiles.count);
    let (t, size) = (image.store.as_ptr(), image.store.len());
    let (list, most) = (image.corrections.list, image.corrections.count);
    let (l, length) = (list.as_ptr(), list.len());
    let (u, bytes) = (image.second.as_ptr(), image.second.len());
    let (Pixel { row, column }, [top, left, height, width]) = (asked.pixel, asked.window);
    let mut set = list.to_vec();
    let m = set.as_mut_ptr();
    // SAFETY: each pointer and length are those of one slice or vector.
    let blocks = unsafe {
        let tile = raw::fordcask_corrected_tile(
            s, c, n, i, count, k, t, size, l, length, most, u, bytes, row, column,
        );
        let bands = raw::fordcask_corrected_bands(
            s, c, n, i, count, k, t, size, l, length, most, u, bytes, row, column,
        );
        let window = raw::fordcask_corrected_window(
            s, c, n, i, count, k, l, length, most, top, left, height, width,
        );
        let verdict =
            raw::fordcask_set_correction(s, c, n, m, length, most, asked.tile, asked.number);
        [
            block!(tile, source, stored, offset, length),
            block!(bands, red, green, blue),
            block!(window, missing, tile),
            block!(verdict),
        ]
    };
    (blocks, set)
}

/// The lists of one entry, which is kept with an answer.
fn list_blocks(sheet: &Sheet, asked: &Asked) -> Vec<Block> {
    let (s, c, n) = (sheet.series, sheet.card.as_ptr(), sheet.card.len());
    let pixel = [asked.pixel.row, asked.pixel.column];
    let position = [asked.position.lat, asked.position.lon];
    let lists = [
        (raw::fordcask_positions as unsafe extern "C" fn(_, _, _, _, _, _, _, _, _) -> _, pixel),
        (raw::fordcask_corner_positions, pixel),
        (raw::fordcask_pixels, position),
        (raw::fordcask_corner_pixels, position),
    ];
    let mut blocks = Vec::new();
    for (ask, from) in lists {
        let (mut out, mut number) = ([7i64; 2], [77u32; 1]);
        let (f, o, m) = (from.as_ptr(), out.as_mut_ptr(), number.as_mut_ptr());
        // SAFETY: each pointer and length are those of one slice or array.
        let given: raw::Verdict = unsafe { ask(s, c, n, f, 2, o, 2, m, 1) };
        let mut found = block!(given);
        match given.number {
            0 => found.rest = vec![out[0], out[1], number[0].into()],
            _ => assert_eq!((out, number), ([7; 2], [77]), "lists stay"),
        }
        blocks.push(found);
    }
    blocks
}

/// All blocks answered on a card.
pub fn blocks(sheet: &Sheet, asked: &Asked) -> Vec<Block> {
    let lists = list_blocks(sheet, asked);
    [grid_blocks(sheet, asked), tile_blocks(sheet, asked), lists].concat()
}

/// In a refusal everything else is 0; an answer tells this total.
pub fn check(block: &Block, total: u64) {
    match block.number {
        0 => assert_eq!((block.at, block.blanks), (0, total), "{block:?}"),
        _ => assert!(block.blanks == 0 && block.rest.iter().all(|x| *x == 0), "{block:?}"),
    }
}
