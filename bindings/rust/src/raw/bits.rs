//! The C entry points of presence bits.
use super::{Bands, CorrectedTile, Series, Tile, Verdict, Window};

unsafe extern "C" {
    pub fn fordcask_to_bits(
        series: Series,
        card: *const u8,
        card_len: usize,
        index: *const u32,
        index_len: usize,
        words: *mut u64,
        words_len: usize,
    ) -> Verdict;
    pub fn fordcask_to_list(
        series: Series,
        card: *const u8,
        card_len: usize,
        words: *const u64,
        words_len: usize,
        index: *mut u32,
        index_len: usize,
    ) -> Verdict;
    pub fn fordcask_bits_tile(
        series: Series,
        card: *const u8,
        card_len: usize,
        words: *const u64,
        words_len: usize,
        count: u64,
        store: *const u8,
        store_len: usize,
        row: i64,
        column: i64,
    ) -> Tile;
    pub fn fordcask_bits_bands(
        series: Series,
        card: *const u8,
        card_len: usize,
        words: *const u64,
        words_len: usize,
        count: u64,
        store: *const u8,
        store_len: usize,
        row: i64,
        column: i64,
    ) -> Bands;
    pub fn fordcask_bits_window(
        series: Series,
        card: *const u8,
        card_len: usize,
        words: *const u64,
        words_len: usize,
        count: u64,
        top: u64,
        left: u64,
        height: u64,
        width: u64,
    ) -> Window;
    pub fn fordcask_corrected_bits_tile(
        series: Series,
        card: *const u8,
        card_len: usize,
        words: *const u64,
        words_len: usize,
        count: u64,
        store: *const u8,
        store_len: usize,
        corrections: *const u32,
        corrections_len: usize,
        corrected: u64,
        corrections_store: *const u8,
        corrections_store_len: usize,
        row: i64,
        column: i64,
    ) -> CorrectedTile;
    pub fn fordcask_corrected_bits_bands(
        series: Series,
        card: *const u8,
        card_len: usize,
        words: *const u64,
        words_len: usize,
        count: u64,
        store: *const u8,
        store_len: usize,
        corrections: *const u32,
        corrections_len: usize,
        corrected: u64,
        corrections_store: *const u8,
        corrections_store_len: usize,
        row: i64,
        column: i64,
    ) -> Bands;
    pub fn fordcask_corrected_bits_window(
        series: Series,
        card: *const u8,
        card_len: usize,
        words: *const u64,
        words_len: usize,
        count: u64,
        corrections: *const u32,
        corrections_len: usize,
        corrected: u64,
        top: u64,
        left: u64,
        height: u64,
        width: u64,
    ) -> Window;
}
