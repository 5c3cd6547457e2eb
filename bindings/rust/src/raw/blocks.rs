//! The blocks of numbers that the C entry points hand out and take.

/// A refusal alone.
#[repr(C)]
#[derive(Clone, Copy, Debug, PartialEq)]
pub struct Refusal {
    pub number: u32,
    pub at: u64,
}

/// What is answered on a card beside the buffers.
#[repr(C)]
#[derive(Clone, Copy, Debug, PartialEq)]
pub struct Verdict {
    pub number: u32,
    pub at: u64,
    pub blanks: u64,
}

/// A and B, pixels in the circle.
#[repr(C)]
#[derive(Clone, Copy, Debug, PartialEq)]
pub struct Spacing {
    pub number: u32,
    pub at: u64,
    pub a: u64,
    pub b: u64,
}

/// A zone number.
#[repr(C)]
#[derive(Clone, Copy, Debug, PartialEq)]
pub struct Zone {
    pub number: u32,
    pub at: u64,
    pub zone: u64,
}

/// The zones covering a latitude; unused slots are 0.
#[repr(C)]
#[derive(Clone, Copy, Debug, PartialEq)]
pub struct Cover {
    pub number: u32,
    pub at: u64,
    pub length: u64,
    pub zones: [u64; 6],
}

/// The zones of a rectangle; unused slots are 0.
#[repr(C)]
#[derive(Clone, Copy, Debug, PartialEq)]
pub struct Rectangle {
    pub number: u32,
    pub at: u64,
    pub length: u64,
    pub zones: [u64; 18],
}

/// An origin and the two angles a card stores for it.
#[repr(C)]
#[derive(Clone, Copy, Debug, PartialEq)]
pub struct Origin {
    pub number: u32,
    pub at: u64,
    pub n: i64,
    pub m: i64,
    pub pso: i64,
    pub lso: i64,
}

/// A card that was read; `tif` is 1 for Y and 0 for N.
#[repr(C)]
#[derive(Clone, Copy, Debug, PartialEq)]
pub struct Card {
    pub number: u32,
    pub at: u64,
    pub a: u64,
    pub b: u64,
    pub n: i64,
    pub m: i64,
    pub nul: u64,
    pub nus: u64,
    pub nll: u64,
    pub nls: u64,
    pub nfl: u64,
    pub nfc: u64,
    pub bad: [u8; 12],
    pub tif: u8,
    pub blanks: u64,
}

/// A record to be written; `tif` 0 is N, any other number is Y.
#[repr(C)]
#[derive(Clone, Copy, Debug, PartialEq)]
pub struct Record {
    pub n: i64,
    pub m: i64,
    pub nul: u64,
    pub nus: u64,
    pub nll: u64,
    pub nls: u64,
    pub nfl: u64,
    pub nfc: u64,
    pub bad: [u8; 12],
    pub tif: u8,
}

/// A place of the zone grid.
#[repr(C)]
#[derive(Clone, Copy, Debug, PartialEq)]
pub struct Place {
    pub number: u32,
    pub at: u64,
    pub row: i64,
    pub column: i64,
    pub blanks: u64,
}

/// A position.
#[repr(C)]
#[derive(Clone, Copy, Debug, PartialEq)]
pub struct Position {
    pub number: u32,
    pub at: u64,
    pub lat: i64,
    pub lon: i64,
    pub blanks: u64,
}

/// A pixel.
#[repr(C)]
#[derive(Clone, Copy, Debug, PartialEq)]
pub struct Pixel {
    pub number: u32,
    pub at: u64,
    pub row: i64,
    pub column: i64,
    pub blanks: u64,
}

/// A pixel of an overview, with the blanks of the chart's card and of the overview's.
#[repr(C)]
#[derive(Clone, Copy, Debug, PartialEq)]
pub struct OverviewPixel {
    pub number: u32,
    pub at: u64,
    pub row: i64,
    pub column: i64,
    pub blanks: u64,
    pub overview_blanks: u64,
}

/// An offset from a centre.
#[repr(C)]
#[derive(Clone, Copy, Debug, PartialEq)]
pub struct Offset {
    pub number: u32,
    pub at: u64,
    pub lat: f64,
    pub lon: f64,
}

/// A stored tile, numbered from 1, as a part of the store.
#[repr(C)]
#[derive(Clone, Copy, Debug, PartialEq)]
pub struct Tile {
    pub number: u32,
    pub at: u64,
    pub stored: u64,
    pub offset: u64,
    pub length: u64,
    pub blanks: u64,
}

/// A tile, numbered from 1, as a part of the base store where `source` is 0, of the corrections
/// store where it is 1.
#[repr(C)]
#[derive(Clone, Copy, Debug, PartialEq)]
pub struct CorrectedTile {
    pub number: u32,
    pub at: u64,
    pub source: u64,
    pub stored: u64,
    pub offset: u64,
    pub length: u64,
    pub blanks: u64,
}

/// The three band values of a pixel.
#[repr(C)]
#[derive(Clone, Copy, Debug, PartialEq)]
pub struct Bands {
    pub number: u32,
    pub at: u64,
    pub red: u8,
    pub green: u8,
    pub blue: u8,
    pub blanks: u64,
}

/// The first missing tile of a window, where `missing` is 1.
#[repr(C)]
#[derive(Clone, Copy, Debug, PartialEq)]
pub struct Window {
    pub number: u32,
    pub at: u64,
    pub missing: u64,
    pub tile: u64,
    pub blanks: u64,
}
