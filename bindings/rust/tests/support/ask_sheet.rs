//! The questions on a card, put to both sides.

use super::ask::{Answer, Ask};
use crate::rule;
use fordcask::{Bands, Card, OnCard, OverviewPixel, Pixel, Place, Sheet, Tiles, Window};

/// A sheet as it is shown in a message.
pub fn shown(sheet: &Sheet) -> String {
    let card = sheet.card.escape_ascii();
    let series = sheet.series;
    format!("{} times {} zone {} b\"{card}\"", series.scale, series.factor, series.zone)
}

/// The card as the rule reads it, with its total of blanks (02, E2).
pub fn read(sheet: &Sheet) -> Answer<OnCard<Card>> {
    rule::read(sheet.series, sheet.card)
}

impl Ask {
    pub fn place(&mut self, sheet: &Sheet, pixel: Pixel) -> Answer<OnCard<Place>> {
        let call = || format!("{} place({pixel:?})", shown(sheet));
        let rule = read(sheet).and_then(|card| rule::place(&card, pixel));
        self.on_card("place", call, sheet.place(pixel), rule)
    }

    /// Both cards are read before the pixel is looked at, the chart's first (02, E4); the totals of
    /// both are told (02, E2).
    pub fn overview_pixel(
        &mut self,
        chart: &Sheet,
        overview: &Sheet,
        pixel: Pixel,
    ) -> Answer<OverviewPixel> {
        let call = || format!("{} overview_pixel({}, {pixel:?})", shown(chart), shown(overview));
        let rule = read(chart).and_then(|card| {
            let overview = read(overview)?;
            rule::overview_pixel(&card, &overview, pixel)
        });
        let library = chart.overview_pixel(overview, pixel);
        let answer = self.same("overview_pixel", call, library, rule)?;
        self.count_total("overview_pixel", answer.blanks);
        self.count_total("overview of a chart", answer.overview_blanks);
        Ok(answer)
    }

    /// The marks, filled with 7 before, are compared whole.
    pub fn index_check(
        &mut self,
        sheet: &Sheet,
        tiles: Tiles,
        marks_len: usize,
    ) -> Answer<OnCard<()>> {
        let call = || format!("{} index_check({tiles:?}, {marks_len})", shown(sheet));
        let mut marks = vec![7; marks_len];
        let library = sheet.index_check(tiles, &mut marks);
        let mut expected = vec![7; marks_len];
        let rule = read(sheet)
            .and_then(|card| rule::index_check(&card, tiles.index, tiles.count, &mut expected));
        assert!(
            marks == expected,
            "marks of {}\n  library {marks:?}\n  rule    {expected:?}",
            call()
        );
        self.on_card("index_check", call, library, rule)
    }

    /// The stored number and the part of the store, as offset and length; each tells the total.
    pub fn tile(
        &mut self,
        sheet: &Sheet,
        tiles: Tiles,
        store: &[u8],
        pixel: Pixel,
    ) -> Answer<OnCard<(u64, usize, usize)>> {
        let call = || {
            let bytes = store.len();
            format!("{} tile({tiles:?}, {bytes}, {pixel:?})", shown(sheet))
        };
        let library = sheet.tile(tiles, store, pixel).map(|OnCard { value: part, blanks }| {
            let offset = part.as_ptr() as usize - store.as_ptr() as usize;
            OnCard { value: (offset, part.len()), blanks }
        });
        let rule = read(sheet)
            .and_then(|card| rule::lookup(&card, tiles.index, tiles.count, store, pixel));
        let stored = self.on_card("stored", call, sheet.stored(tiles, store, pixel), rule);
        let rule = rule.map(|OnCard { value: stored, blanks }| {
            let part = ((stored as usize - 1) * 49_152, 49_152);
            OnCard { value: part, blanks }
        });
        let OnCard { value: (offset, length), .. } = self.on_card("tile", call, library, rule)?;
        stored.map(|OnCard { value, blanks }| OnCard { value: (value, offset, length), blanks })
    }

    pub fn bands(
        &mut self,
        sheet: &Sheet,
        tiles: Tiles,
        store: &[u8],
        pixel: Pixel,
    ) -> Answer<OnCard<Bands>> {
        let call = || {
            let bytes = store.len();
            format!("{} bands({tiles:?}, {bytes}, {pixel:?})", shown(sheet))
        };
        let rule =
            read(sheet).and_then(|card| rule::bands(&card, tiles.index, tiles.count, store, pixel));
        self.on_card("bands", call, sheet.bands(tiles, store, pixel), rule)
    }

    pub fn window(
        &mut self,
        sheet: &Sheet,
        tiles: Tiles,
        window: Window,
    ) -> Answer<OnCard<Option<u64>>> {
        let call = || format!("{} window({tiles:?}, {window:?})", shown(sheet));
        let rule =
            read(sheet).and_then(|card| rule::window(&card, tiles.index, tiles.count, window));
        self.on_card("window", call, sheet.window(tiles, window), rule)
    }
}
