use crate::card::{read_card, Card, OnCard};
use crate::pair::Pair;
use crate::position::{Pixel, Place, Position};
use crate::raw;
use crate::refusal::{answer, Refusal};
use crate::series::Series;

/// A card with its scale, factor and zone, to which the questions on an image are put.
///
/// Each question gives the refusals of [`read_card`] first, then its own. An answer tells the total
/// of blanks met in reading the card ([`OnCard`]); a refusal, the card's or the question's, does not.
#[derive(Clone, Copy, Debug, PartialEq, Eq)]
pub struct Sheet<'a> {
    /// Scale, factor and zone; the zone is 1 to 8 or 10 to 17.
    pub series: Series,
    /// The 98 bytes of the card.
    pub card: &'a [u8],
}

/// A pixel of an overview, and the blanks met in reading the two cards.
#[derive(Clone, Copy, Debug, PartialEq, Eq)]
pub struct OverviewPixel {
    /// The pixel.
    pub pixel: Pixel,
    /// The total of blanks of the chart's card, at most 37.
    pub blanks: u64,
    /// The total of blanks of the overview's card, at most 37.
    pub overview_blanks: u64,
}

impl Sheet<'_> {
    /// The card's values.
    pub fn read(&self) -> Result<OnCard<Card>, Refusal> {
        read_card(self.series, self.card)
    }

    /// The zone grid place of a pixel of the tiles, padding included. Refuses 12.
    pub fn place(&self, pixel: Pixel) -> Result<OnCard<Place>, Refusal> {
        // SAFETY: the pointer and length are those of one slice, which is only read.
        let given = unsafe {
            raw::fordcask_place(
                self.series,
                self.card.as_ptr(),
                self.card.len(),
                pixel.row,
                pixel.column,
            )
        };
        let value = Place { row: given.row, column: given.column };
        answer(given.number, given.at, OnCard { value, blanks: given.blanks })
    }

    /// The position of the centre of a pixel of the chart. Refuses 12, 13.
    pub fn position(&self, pixel: Pixel) -> Result<OnCard<Position>, Refusal> {
        self.position_in(Pair::Centre, pixel)
    }

    /// The position of a pixel of the chart in either pair; its longitude is below 64,800,000.
    /// Refuses 12, 13.
    pub fn position_in(&self, pair: Pair, pixel: Pixel) -> Result<OnCard<Position>, Refusal> {
        let ask = match pair {
            Pair::Corner => raw::fordcask_corner_position,
            Pair::Centre => raw::fordcask_position,
        };
        // SAFETY: the pointer and length are those of one slice, which is only read.
        let given = unsafe {
            ask(self.series, self.card.as_ptr(), self.card.len(), pixel.row, pixel.column)
        };
        let value = Position { lat: given.lat, lon: given.lon };
        answer(given.number, given.at, OnCard { value, blanks: given.blanks })
    }

    /// The pixel of the chart that contains a position. Refuses 4, 5, 12, 13.
    pub fn pixel(&self, position: Position) -> Result<OnCard<Pixel>, Refusal> {
        self.pixel_in(Pair::Centre, position)
    }

    /// The pixel of the chart at a position in either pair. Refuses 4, 5, 12, 13.
    pub fn pixel_in(&self, pair: Pair, position: Position) -> Result<OnCard<Pixel>, Refusal> {
        let ask = match pair {
            Pair::Corner => raw::fordcask_corner_pixel,
            Pair::Centre => raw::fordcask_pixel,
        };
        // SAFETY: the pointer and length are those of one slice, which is only read.
        let given = unsafe {
            ask(self.series, self.card.as_ptr(), self.card.len(), position.lat, position.lon)
        };
        let value = Pixel { row: given.row, column: given.column };
        answer(given.number, given.at, OnCard { value, blanks: given.blanks })
    }

    /// The pixel of `overview` at the position of a pixel of this sheet, the chart, both in the
    /// corner pair. The two need not fit: any two accepted cards are served. The refusals of
    /// [`read_card`] for the chart's card, then for the overview's; then 12, 13 of the chart, then
    /// 12, 13 of the overview.
    pub fn overview_pixel(&self, overview: &Sheet, pixel: Pixel) -> Result<OverviewPixel, Refusal> {
        // SAFETY: each pointer and length are those of one slice; both slices are only read.
        let given = unsafe {
            raw::fordcask_overview_pixel(
                self.series,
                self.card.as_ptr(),
                self.card.len(),
                overview.series,
                overview.card.as_ptr(),
                overview.card.len(),
                pixel.row,
                pixel.column,
            )
        };
        let value = OverviewPixel {
            pixel: Pixel { row: given.row, column: given.column },
            blanks: given.blanks,
            overview_blanks: given.overview_blanks,
        };
        answer(given.number, given.at, value)
    }

    /// The positions of the centres of many pixels, as [`Sheet::positions_in`] answers them.
    pub fn positions(
        &self,
        pixels: &[Pixel],
        positions: &mut [Position],
        numbers: &mut [u32],
    ) -> Result<OnCard<()>, Refusal> {
        self.positions_in(Pair::Centre, pixels, positions, numbers)
    }

    /// The positions of many pixels in either pair: `numbers[i]` is 0 and `positions[i]` the answer
    /// for `pixels[i]`, or `numbers[i]` is 12 or 13 and `positions[i]` is 0, 0. What lies past the
    /// pixels stays.
    ///
    /// Refuses 6 where `positions` or `numbers` is shorter than `pixels`; both then stay.
    pub fn positions_in(
        &self,
        pair: Pair,
        pixels: &[Pixel],
        positions: &mut [Position],
        numbers: &mut [u32],
    ) -> Result<OnCard<()>, Refusal> {
        let ask = match pair {
            Pair::Corner => raw::fordcask_corner_positions,
            Pair::Centre => raw::fordcask_positions,
        };
        // SAFETY: each pointer and length are those of one slice; a Pixel and a Position are two
        // i64 each, with the alignment of i64; the two slices written to are lent for writing.
        let given = unsafe {
            ask(
                self.series,
                self.card.as_ptr(),
                self.card.len(),
                pixels.as_ptr().cast::<i64>(),
                2 * pixels.len(),
                positions.as_mut_ptr().cast::<i64>(),
                2 * positions.len(),
                numbers.as_mut_ptr(),
                numbers.len(),
            )
        };
        answer(given.number, given.at, OnCard { value: (), blanks: given.blanks })
    }

    /// The pixels that contain many positions, as [`Sheet::pixels_in`] answers them.
    pub fn pixels(
        &self,
        positions: &[Position],
        pixels: &mut [Pixel],
        numbers: &mut [u32],
    ) -> Result<OnCard<()>, Refusal> {
        self.pixels_in(Pair::Centre, positions, pixels, numbers)
    }

    /// The pixels at many positions in either pair: `numbers[i]` is 0 and `pixels[i]` the answer for
    /// `positions[i]`, or `numbers[i]` is 4, 5, 12 or 13 and `pixels[i]` is 0, 0. What lies past the
    /// positions stays.
    ///
    /// Refuses 6 where `pixels` or `numbers` is shorter than `positions`; both then stay.
    pub fn pixels_in(
        &self,
        pair: Pair,
        positions: &[Position],
        pixels: &mut [Pixel],
        numbers: &mut [u32],
    ) -> Result<OnCard<()>, Refusal> {
        let ask = match pair {
            Pair::Corner => raw::fordcask_corner_pixels,
            Pair::Centre => raw::fordcask_pixels,
        };
        // SAFETY: each pointer and length are those of one slice; a Pixel and a Position are two
        // i64 each, with the alignment of i64; the two slices written to are lent for writing.
        let given = unsafe {
            ask(
                self.series,
                self.card.as_ptr(),
                self.card.len(),
                positions.as_ptr().cast::<i64>(),
                2 * positions.len(),
                pixels.as_mut_ptr().cast::<i64>(),
                2 * pixels.len(),
                numbers.as_mut_ptr(),
                numbers.len(),
            )
        };
        answer(given.number, given.at, OnCard { value: (), blanks: given.blanks })
    }
}
