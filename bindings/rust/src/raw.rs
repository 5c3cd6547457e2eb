//! The C entry points as they are; units and ranges are in `bindings/c/fordcask.h`.
//!
//! `number` 0 means answered, else it is the refusal's number and `at` its place.
//! In a refusal every other field is 0. `blanks` is how many blanks stood before the digits of the
//! card's numbers.
//!
//! A buffer is a pointer and a length in elements. The pointer is not null and is aligned for its
//! elements; it points to that many elements. Where the length is 0 any aligned address but null
//! will do. Buffers lent to one call do not overlap, save two that are only read.
#![allow(missing_docs)]

mod bits;
mod blocks;
pub use crate::series::Series;
pub use bits::*;
pub use blocks::*;

unsafe extern "C" {
    pub safe fn fordcask_spacing(series: Series) -> Spacing;
    pub safe fn fordcask_basic_zone(lat: i64) -> Zone;
    pub safe fn fordcask_cover(scale: u64, factor: u64, lat: i64) -> Cover;
    pub safe fn fordcask_rectangle(scale: u64, factor: u64, south: i64, north: i64) -> Rectangle;
    pub safe fn fordcask_align(series: Series, lat: i64, lon: i64) -> Origin;
    pub safe fn fordcask_offset(lat: i64, lon: i64, centre_lat: i64, centre_lon: i64) -> Offset;

    pub fn fordcask_read_card(series: Series, card: *const u8, card_len: usize) -> Card;
    pub fn fordcask_read_strict(series: Series, card: *const u8, card_len: usize) -> Card;
    pub fn fordcask_write_card(
        series: Series,
        record: Record,
        out: *mut u8,
        out_len: usize,
    ) -> Refusal;

    pub fn fordcask_place(
        series: Series,
        card: *const u8,
        card_len: usize,
        row: i64,
        column: i64,
    ) -> Place;
    pub fn fordcask_position(
        series: Series,
        card: *const u8,
        card_len: usize,
        row: i64,
        column: i64,
    ) -> Position;
    pub fn fordcask_corner_position(
        series: Series,
        card: *const u8,
        card_len: usize,
        row: i64,
        column: i64,
    ) -> Position;
    pub fn fordcask_pixel(
        series: Series,
        card: *const u8,
        card_len: usize,
        lat: i64,
        lon: i64,
    ) -> Pixel;
    pub fn fordcask_corner_pixel(
        series: Series,
        card: *const u8,
        card_len: usize,
        lat: i64,
        lon: i64,
    ) -> Pixel;
    pub fn fordcask_overview_pixel(
        series: Series,
        card: *const u8,
        card_len: usize,
        overview_series: Series,
        overview_card: *const u8,
        overview_card_len: usize,
        row: i64,
        column: i64,
    ) -> OverviewPixel;

    pub fn fordcask_index_check(
        series: Series,
        card: *const u8,
        card_len: usize,
        index: *const u32,
        index_len: usize,
        count: u64,
        marks: *mut u8,
        marks_len: usize,
    ) -> Verdict;
    pub fn fordcask_tile(
        series: Series,
        card: *const u8,
        card_len: usize,
        index: *const u32,
        index_len: usize,
        count: u64,
        store: *const u8,
        store_len: usize,
        row: i64,
        column: i64,
    ) -> Tile;
    pub fn fordcask_bands(
        series: Series,
        card: *const u8,
        card_len: usize,
        index: *const u32,
        index_len: usize,
        count: u64,
        store: *const u8,
        store_len: usize,
        row: i64,
        column: i64,
    ) -> Bands;
    pub fn fordcask_window(
        series: Series,
        card: *const u8,
        card_len: usize,
        index: *const u32,
        index_len: usize,
        count: u64,
        top: u64,
        left: u64,
        height: u64,
        width: u64,
    ) -> Window;

    pub fn fordcask_corrected_tile(
        series: Series,
        card: *const u8,
        card_len: usize,
        index: *const u32,
        index_len: usize,
        count: u64,
        store: *const u8,
        store_len: usize,
        corrections: *const u32,
        corrections_len: usize,
        corrected: u64,
        corrections_store: *const u8,
        corrections_store_len: usize,
        row: i64,
        column: i64,
    ) -> CorrectedTile;
    pub fn fordcask_corrected_bands(
        series: Series,
        card: *const u8,
        card_len: usize,
        index: *const u32,
        index_len: usize,
        count: u64,
        store: *const u8,
        store_len: usize,
        corrections: *const u32,
        corrections_len: usize,
        corrected: u64,
        corrections_store: *const u8,
        corrections_store_len: usize,
        row: i64,
        column: i64,
    ) -> Bands;
    pub fn fordcask_corrected_window(
        series: Series,
        card: *const u8,
        card_len: usize,
        index: *const u32,
        index_len: usize,
        count: u64,
        corrections: *const u32,
        corrections_len: usize,
        corrected: u64,
        top: u64,
        left: u64,
        height: u64,
        width: u64,
    ) -> Window;
    pub fn fordcask_set_correction(
        series: Series,
        card: *const u8,
        card_len: usize,
        corrections: *mut u32,
        corrections_len: usize,
        corrected: u64,
        tile: u64,
        number: u64,
    ) -> Verdict;

    pub fn fordcask_positions(
        series: Series,
        card: *const u8,
        card_len: usize,
        pixels: *const i64,
        pixels_len: usize,
        positions: *mut i64,
        positions_len: usize,
        numbers: *mut u32,
        numbers_len: usize,
    ) -> Verdict;
    pub fn fordcask_corner_positions(
        series: Series,
        card: *const u8,
        card_len: usize,
        pixels: *const i64,
        pixels_len: usize,
        positions: *mut i64,
        positions_len: usize,
        numbers: *mut u32,
        numbers_len: usize,
    ) -> Verdict;
    pub fn fordcask_pixels(
        series: Series,
        card: *const u8,
        card_len: usize,
        positions: *const i64,
        positions_len: usize,
        pixels: *mut i64,
        pixels_len: usize,
        numbers: *mut u32,
        numbers_len: usize,
    ) -> Verdict;
    pub fn fordcask_corner_pixels(
        series: Series,
        card: *const u8,
        card_len: usize,
        positions: *const i64,
        positions_len: usize,
        pixels: *mut i64,
        pixels_len: usize,
        numbers: *mut u32,
        numbers_len: usize,
    ) -> Verdict;
}
