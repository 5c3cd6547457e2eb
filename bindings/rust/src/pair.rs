/// The two pairs of questions: a pixel's position, and the pixel at a position (02, E8).
///
/// The position that one pair answers for a pixel is handed to that same pair: mixing the pairs
/// carries no promise.
#[derive(Clone, Copy, Debug, PartialEq, Eq)]
pub enum Pair {
    /// A pixel's upper left corner, and the pixel whose corner is nearest to a position.
    Corner,
    /// A pixel's centre, and the pixel that contains a position: its north and west edges belong to
    /// it, its south and east edges do not. This pair is meant where none is named.
    Centre,
}
