/// What is stated beside a card: scale, factor and zone.
#[repr(C)]
#[derive(Clone, Copy, Debug, PartialEq, Eq, Hash)]
pub struct Series {
    /// The scale 1:S, 5,000 to 20,000,000.
    pub scale: u64,
    /// The factor k of an overview, 1 to 64, and 1 for a chart; S × k is at most 20,000,000.
    pub factor: u64,
    /// The zone, 1 to 18.
    pub zone: u64,
}

impl Series {
    /// Scale and zone of a chart, whose factor is 1.
    pub const fn chart(scale: u64, zone: u64) -> Series {
        Series { scale, factor: 1, zone }
    }
}
