//! The limits of a card and of bridges: the numbers that the proved code names, taken from its source, and what follows from them.

/// Where the code names the limits on contours and pairs, those of a card, that on bridges, and the size of a block.
const PAIRS_CODE: &str = include_str!("../../../crates/closure/src/lib.rt");
const CARD_CODE: &str = include_str!("../../../crates/fields/src/lib.rt");
const BRIDGE_CODE: &str = include_str!("../../../crates/bridge/src/lib.rt");
const BLOCK_CODE: &str = include_str!("../../../crates/block/src/lib.rt");

const fn stands_at(text: &[u8], at: usize, words: &[u8]) -> bool {
    let mut k = 0;
    while k < words.len() {
        if at + k >= text.len() || text[at + k] != words[k] {
            return false;
        }
        k += 1;
    }
    true
}

/// The number behind these words of the code.
const fn named(code: &str, words: &str) -> usize {
    let (code, words) = (code.as_bytes(), words.as_bytes());
    let mut at = 0;
    while !stands_at(code, at, words) {
        at += 1;
        assert!(at < code.len(), "the code does not name this limit");
    }
    at += words.len();
    let mut number = 0;
    while code[at].is_ascii_digit() {
        number = 10 * number + (code[at] - b'0') as usize;
        at += 1;
    }
    assert!(number > 0 && code[at] == b';', "the code names no number here");
    number
}

macro_rules! limits {
    ($($(#[$doc:meta])* $name:ident in $code:ident;)*) => {
        $($(#[$doc])* pub const $name: usize = named($code, concat!("pub const ", stringify!($name), ": usize = "));)*
    };
}

limits! {
    /// The most contours that a card has, so the most entries of a tour.
    CONTOURS in PAIRS_CODE;
    /// The most pairs that are written on a card.
    PAIRS in PAIRS_CODE;
    /// The most candidates that a contour has.
    PER_CONTOUR in CARD_CODE;
    /// The most candidates that a card has in all.
    CANDIDATES in CARD_CODE;
    /// The most passes that a search makes.
    PASSES in CARD_CODE;
    /// The most vertices that a contour has.
    VERTICES in CARD_CODE;
    /// The pairs that a block takes.
    PAIRS_A_BLOCK in CARD_CODE;
    /// The most bytes that a card has.
    CARD_BYTES in CARD_CODE;
    /// The most bridges that a contour has.
    BRIDGES in BRIDGE_CODE;
    /// The bytes of a block.
    BLOCK in BLOCK_CODE;
}

/// The most blocks that a card has: the head, its contours and its pairs.
pub const BLOCKS: usize = CARD_BYTES / BLOCK;
