//! The fields of an accepted card that a list shows.

use crate::limits::BLOCK;

/// Where fields stand: of the head in block 0, of contour k in block 1 + k.
const PAYLOAD_AT: usize = 8;
const JOB_AT: usize = PAYLOAD_AT;
const CONTOURS_AT: usize = PAYLOAD_AT + 4;
const DIRECTIONS_AT: usize = PAYLOAD_AT + 32;
const ID_AT: usize = PAYLOAD_AT;
const TAG_AT: usize = PAYLOAD_AT + 4;
const TYPE_AT: usize = PAYLOAD_AT + 10;

/// The job's number.
pub fn job(card: &[u8]) -> u32 {
    word(card, JOB_AT)
}

/// How many contours there are.
pub fn contours(card: &[u8]) -> usize {
    usize::from(u16::from_le_bytes([card[CONTOURS_AT], card[CONTOURS_AT + 1]]))
}

/// A contour's id and tag, and whether it is cut clockwise.
pub fn contour(card: &[u8], position: usize) -> (u32, u32, bool) {
    let block = BLOCK * (1 + position);
    (word(card, block + ID_AT), word(card, block + TAG_AT), clockwise(card, card[block + TYPE_AT]))
}

/// The way a contour of this type is cut: as the head says, and where it leaves that open outlines counter-clockwise and
/// holes clockwise.
fn clockwise(card: &[u8], kind: u8) -> bool {
    match card[DIRECTIONS_AT + usize::from(kind)] {
        0 => false,
        1 => true,
        _ => kind == 1,
    }
}

fn word(card: &[u8], at: usize) -> u32 {
    u32::from_le_bytes([card[at], card[at + 1], card[at + 2], card[at + 3]])
}
