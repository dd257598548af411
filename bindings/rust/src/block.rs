//! What a call says of a block besides its samples.

/// A cube of the world: its lowest point, its side and how many cells lie along it.
#[derive(Clone, Copy, Debug, PartialEq)]
pub struct Block {
    /// The lowest point: x, y, z. Each finite and at most 1,048,576 in size.
    pub base: [f32; 3],
    /// The length of a side, 1/1024 to 1,048,576.
    pub size: f32,
    /// The cells along a side, n: 1 to [`MOST_SUBDIVISIONS`](crate::MOST_SUBDIVISIONS).
    pub subdivisions: usize,
}

/// A block, which of its neighbours are finer, and where inside begins.
#[derive(Clone, Copy, Debug, PartialEq)]
pub struct Header {
    /// The block itself.
    pub block: Block,
    /// The sides at which a neighbour has twice the subdivisions, as bits ([`Side::bit`]).
    pub mask: u8,
    /// A sample at or above the threshold is inside.
    pub threshold: f32,
}

/// A side of a block.
#[derive(Clone, Copy, Debug, PartialEq, Eq, Hash)]
pub enum Side {
    /// Where x is lowest.
    LowX,
    /// Where x is highest.
    HighX,
    /// Where y is lowest.
    LowY,
    /// Where y is highest.
    HighY,
    /// Where z is lowest.
    LowZ,
    /// Where z is highest.
    HighZ,
}

impl Side {
    /// All six, in the order in which sides are numbered and neighbours are lent.
    pub const ALL: [Side; 6] =
        [Side::LowX, Side::HighX, Side::LowY, Side::HighY, Side::LowZ, Side::HighZ];

    /// Its number, 0 to 5.
    pub fn number(self) -> usize {
        self as usize
    }

    /// Its bit in a mask.
    pub fn bit(self) -> u8 {
        1 << self as u8
    }

    /// Its name in words, such as "low x".
    pub fn name(self) -> &'static str {
        ["low x", "high x", "low y", "high y", "low z", "high z"][self.number()]
    }

    /// The sides that a mask names, in order.
    pub fn named(mask: u8) -> impl Iterator<Item = Side> {
        Side::ALL.into_iter().filter(move |side| mask & side.bit() != 0)
    }
}
