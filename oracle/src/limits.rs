//! A card's limits, which are the Rust host's, and where its fields stand, for all that makes cards, damages them and asks
//! about them. The second reading (reading.rs) has its own.

pub use jambolive::{BLOCK, BRIDGES, CANDIDATES, CARD_BYTES, CONTOURS, PAIRS, PAIRS_A_BLOCK, PER_CONTOUR, VERTICES};

/// The most passes of a search, as the card holds them.
pub const PASSES: u16 = jambolive::PASSES as u16;

/// The largest size of a coordinate.
pub const REACH: f64 = 1_048_576.0;

/// Steps of the grid in a millimetre, and how far from the origin demand 3 speaks of it.
pub const PER_MM: f64 = 1024.0;
pub const GRID_REACH: f64 = 8192.0;

/// The numbers of the most bridges, eight each.
pub const BRIDGE_NUMBERS: usize = 8 * BRIDGES;

/// The last direction: by a contour's type.
pub const AUTO: u8 = 2;

/// The most pierces that `sequence_cost` counts.
pub const PIERCES: usize = 1000;

/// Where a block's version stands, and where its payload begins and ends: there stands its check.
pub const VERSION_AT: usize = 1;
pub const PAYLOAD_AT: usize = 8;
pub const CHECK_AT: usize = 508;

/// The bytes of a vertex and of a pair.
pub const VERTEX: usize = 16;
pub const PAIR: usize = 16;

/// Where fields of the head stand in its block.
pub mod head {
    use super::PAYLOAD_AT;
    pub const CONTOURS: usize = PAYLOAD_AT + 4;
    pub const PAIRS: usize = PAYLOAD_AT + 6;
    pub const DIRECTIONS: usize = PAYLOAD_AT + 32;
    // a field in version 2 alone
    pub const GRID: usize = PAYLOAD_AT + 34;
}

/// Where fields of a contour stand in its block.
pub mod contour {
    use super::PAYLOAD_AT;
    pub const COUNT: usize = PAYLOAD_AT + 8;
    pub const TYPE: usize = PAYLOAD_AT + 10;
    pub const ZERO: usize = PAYLOAD_AT + 11;
    pub const VERTICES: usize = PAYLOAD_AT + 12;
    // in version 2
    pub const PART: usize = PAYLOAD_AT + 492;
    pub const INSTANCE: usize = PAYLOAD_AT + 496;
}

/// How large a card may be, as far as request 2026-04 changed it.
#[derive(Clone, Copy)]
pub struct Limits {
    pub contours: usize,
    pub pairs: usize,
}

impl Limits {
    pub const TODAY: Limits = Limits { contours: CONTOURS, pairs: PAIRS };
    /// Those from before the request, for cards that a reader from then takes too.
    pub const BEFORE: Limits = Limits { contours: 40, pairs: 124 };

    /// The most bytes: the head's block, the contours' and the pairs'.
    pub const fn bytes(self) -> usize {
        BLOCK * (1 + self.contours + self.pairs.div_ceil(PAIRS_A_BLOCK))
    }
}

/// The most candidates of each of n contours, where only those of all of them are limited.
pub fn shared(n: usize) -> usize {
    CANDIDATES / n.max(1)
}
