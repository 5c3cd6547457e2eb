//! The questions of the two pairs, put to both sides (02, E8).

use super::ask::{Answer, Ask};
use super::ask_sheet::{read, shown};
use super::PAIRS;
use crate::rule;
use fordcask::{OnCard, Pair, Pixel, Position, Sheet};

impl Ask {
    /// In one pair; where none is named it is the centre pair.
    pub fn position_in(
        &mut self,
        pair: Pair,
        sheet: &Sheet,
        pixel: Pixel,
    ) -> Answer<OnCard<Position>> {
        let call = || format!("{} {pair:?} position({pixel:?})", shown(sheet));
        let rule = read(sheet).and_then(|card| rule::position(pair, &card, pixel));
        if pair == Pair::Centre {
            assert_eq!(sheet.position(pixel), rule, "no pair named: {}", call());
        }
        self.on_card(("position", pair), call, sheet.position_in(pair, pixel), rule)
    }

    /// In one pair; where none is named it is the centre pair.
    pub fn pixel_in(
        &mut self,
        pair: Pair,
        sheet: &Sheet,
        position: Position,
    ) -> Answer<OnCard<Pixel>> {
        let call = || format!("{} {pair:?} pixel({position:?})", shown(sheet));
        let rule = read(sheet).and_then(|card| rule::pixel(pair, &card, position));
        if pair == Pair::Centre {
            assert_eq!(sheet.pixel(position), rule, "no pair named: {}", call());
        }
        self.on_card(("pixel", pair), call, sheet.pixel_in(pair, position), rule)
    }

    /// The position of a pixel in each of `PAIRS`.
    pub fn position(&mut self, sheet: &Sheet, pixel: Pixel) -> [Answer<OnCard<Position>>; 2] {
        PAIRS.map(|pair| self.position_in(pair, sheet, pixel))
    }

    /// The pixel at a position in each of `PAIRS`.
    pub fn pixel(&mut self, sheet: &Sheet, position: Position) -> [Answer<OnCard<Pixel>>; 2] {
        PAIRS.map(|pair| self.pixel_in(pair, sheet, position))
    }

    /// The place of a pixel; in each pair its position, and the pixel again from the position.
    pub fn there_and_back(&mut self, sheet: &Sheet, pixel: Pixel) {
        let _ = self.place(sheet, pixel);
        for pair in PAIRS {
            if let Ok(OnCard { value: position, blanks }) = self.position_in(pair, sheet, pixel) {
                assert!(position.lon < 64_800_000, "+180 is answered as -180");
                let back = self.pixel_in(pair, sheet, position);
                assert_eq!(back, Ok(OnCard { value: pixel, blanks }), "there and back, {pair:?}");
            }
        }
    }
}
