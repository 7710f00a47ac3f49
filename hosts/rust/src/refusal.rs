//! Why a card or a question about bridges goes back, in words.

use crate::limits::{BLOCK, BLOCKS, BRIDGES, CANDIDATES, CARD_BYTES, CONTOURS, PAIRS, PASSES, PER_CONTOUR, VERTICES};
use std::fmt;

/// Why a card goes back, or a question about bridges. Blocks, contours, pairs, vertices and centres are counted from 0.
#[derive(Clone, Copy, Debug, PartialEq, Eq)]
#[non_exhaustive]
pub enum Refusal {
    /// No bytes, no whole blocks, or more than [`BLOCKS`] of them. Every length above [`CARD_BYTES`] is told as the
    /// next number.
    Length {
        /// How many there are.
        bytes: u32,
    },
    /// A block's check does not fit its bytes.
    Check {
        /// The first such block.
        block: u32,
    },
    /// A block does not begin as its place asks: its kind, its version, which is 1 or 2 in the head and the head's in
    /// every other block, its number or its zeros.
    Start {
        /// The first such block.
        block: u32,
    },
    /// A field of the head is out of its limits: contours 1, pairs 2, candidates 3, passes 4, directions 5
    /// and 6, candidates in all 7 and, in version 2, the byte that asks for the grid 8.
    Field {
        /// The first such field.
        field: u32,
    },
    /// The head speaks of another number of blocks.
    Blocks {
        /// How many there are.
        count: u32,
    },
    /// A contour's vertex count, type or zero byte.
    Contour {
        /// The first such contour.
        position: u32,
    },
    /// A byte that no field uses is not zero.
    Spare {
        /// The first such block.
        block: u32,
    },
    /// A coordinate is not finite or too large: home's (None) or a contour's.
    Coordinate {
        /// The first such contour; None for home, which is looked at first.
        position: Option<u32>,
    },
    /// A contour has the id of an earlier one.
    RepeatedId {
        /// The first such contour.
        position: u32,
    },
    /// A pair names an id that no contour has.
    UnknownId {
        /// The first such pair.
        pair: u32,
    },
    /// A pair's tag is not its contour's.
    OtherTag {
        /// The first such pair.
        pair: u32,
    },
    /// A contour would have to be cut before itself, by the pairs and, in version 2, by holes before outlines.
    Cycle {
        /// The first such contour.
        position: u32,
    },
    /// The room lent for the tour is too small.
    Room {
        /// The entries that it needs.
        needed: u32,
    },
    /// The card has no such candidate.
    Candidate {
        /// The number that was asked about.
        number: u32,
    },
    /// The card was asked about before: no more of it is taken.
    Ended,
    /// Bridges were asked for at more than [`BRIDGES`] centres.
    Centres,
    /// The contour for which bridges were asked has no vertex, or more than [`VERTICES`].
    VertexCount {
        /// How many there are; 2^32 - 1 where there are more.
        count: u32,
    },
    /// A vertex of that contour has a coordinate that is not finite or too large.
    Vertex {
        /// The first such vertex.
        number: u32,
    },
    /// The way around that contour is shorter than 1e-12.
    Way,
    /// The bridges' width is not finite, not above 0, or its half is not below the way around the contour.
    Width,
    /// A bridge's centre is not from 0 up to the way around the contour, which itself is too far.
    Centre {
        /// The first such centre.
        index: u32,
    },
}

impl Refusal {
    /// Takes the library's answer apart: 0, or number times 2^32 plus place.
    pub(crate) fn of(code: u64) -> Result<(), Refusal> {
        let place = code as u32;
        Err(match code >> 32 {
            0 => return Ok(()),
            1 => Refusal::Length { bytes: place },
            2 => Refusal::Check { block: place },
            3 => Refusal::Start { block: place },
            4 => Refusal::Field { field: place },
            5 => Refusal::Blocks { count: place },
            6 => Refusal::Contour { position: place },
            7 => Refusal::Spare { block: place },
            8 => Refusal::Coordinate { position: place.checked_sub(1) },
            9 => Refusal::RepeatedId { position: place },
            10 => Refusal::UnknownId { pair: place },
            11 => Refusal::OtherTag { pair: place },
            12 => Refusal::Cycle { position: place },
            13 => Refusal::Room { needed: place },
            15 => Refusal::Candidate { number: place },
            17 => Refusal::Ended,
            other => unreachable!("the library has no refusal {other}"),
        })
    }

    /// The same of an answer about bridges, where 6, 8 and 13 speak of the one contour and of the centres.
    pub(crate) fn of_bridges(code: u64) -> Result<(), Refusal> {
        let place = code as u32;
        Err(match (code >> 32, place) {
            (0, _) => return Ok(()),
            (6, _) => Refusal::VertexCount { count: place },
            (8, _) => Refusal::Vertex { number: place },
            (13, _) => Refusal::Centres,
            (18, 0) => Refusal::Way,
            (18, 1) => Refusal::Width,
            (18, _) => Refusal::Centre { index: place - 2 },
            (other, _) => unreachable!("the library has no refusal {other} of bridges"),
        })
    }

    /// The number that the program prints.
    pub fn number(&self) -> u32 {
        self.told().0
    }

    /// The place that the program prints.
    pub fn place(&self) -> u32 {
        self.told().1
    }

    fn told(&self) -> (u32, u32) {
        match *self {
            Refusal::Length { bytes } => (1, bytes),
            Refusal::Check { block } => (2, block),
            Refusal::Start { block } => (3, block),
            Refusal::Field { field } => (4, field),
            Refusal::Blocks { count } => (5, count),
            Refusal::Contour { position } => (6, position),
            Refusal::Spare { block } => (7, block),
            Refusal::Coordinate { position } => (8, position.map_or(0, |k| k.saturating_add(1))),
            Refusal::RepeatedId { position } => (9, position),
            Refusal::UnknownId { pair } => (10, pair),
            Refusal::OtherTag { pair } => (11, pair),
            Refusal::Cycle { position } => (12, position),
            Refusal::Room { needed } => (13, needed),
            Refusal::Candidate { number } => (15, number),
            Refusal::Ended => (17, 0),
            Refusal::Centres => (13, BRIDGES as u32),
            Refusal::VertexCount { count } => (6, count),
            Refusal::Vertex { number } => (8, number),
            Refusal::Way => (18, 0),
            Refusal::Width => (18, 1),
            Refusal::Centre { index } => (18, index.saturating_add(2)),
        }
    }
}

/// What a field of the head must be, by the number of [`Refusal::Field`].
fn due(field: u32) -> String {
    match field {
        1 => format!("a card has at most {CONTOURS} contours"),
        2 => format!("a card has at most {PAIRS} written pairs"),
        3 => format!("a contour has 1 to {PER_CONTOUR} candidates"),
        4 => format!("a search makes at most {PASSES} passes"),
        5 => "the direction of outlines is 0, 1 or 2".to_string(),
        6 => "the direction of holes is 0, 1 or 2".to_string(),
        7 => format!("a card has at most {CANDIDATES} candidates in all"),
        8 => "the byte that asks for the grid is 0 or 1".to_string(),
        _ => "a field of the head is out of its limits".to_string(),
    }
}

impl fmt::Display for Refusal {
    fn fmt(&self, f: &mut fmt::Formatter) -> fmt::Result {
        match *self {
            Refusal::Length { bytes } => {
                write!(f, "a card has 1 to {BLOCKS} whole blocks of {BLOCK} bytes, ")?;
                if bytes as usize > CARD_BYTES {
                    f.write_str("and this is longer")
                } else {
                    write!(f, "not {bytes} bytes")
                }
            }
            Refusal::Check { block } => write!(f, "the check of block {block} does not fit its bytes"),
            Refusal::Start { block } => write!(f, "block {block} does not begin as it should"),
            Refusal::Field { field } => f.write_str(&due(field)),
            Refusal::Blocks { count } => write!(f, "the head speaks of another number of blocks than {count}"),
            Refusal::Contour { position } => {
                let rest = "no known type, or a byte that should be zero";
                write!(f, "contour {position} has no 1 to {VERTICES} vertices, {rest}")
            }
            Refusal::Spare { block } => write!(f, "block {block} has a byte that should be zero"),
            Refusal::Coordinate { position: None } => {
                f.write_str("home has a coordinate that is too large or no number")
            }
            Refusal::Coordinate { position: Some(k) } => {
                write!(f, "contour {k} has a coordinate that is too large or no number")
            }
            Refusal::RepeatedId { position } => write!(f, "contour {position} has the id of an earlier contour"),
            Refusal::UnknownId { pair } => write!(f, "pair {pair} names an id that no contour has"),
            Refusal::OtherTag { pair } => write!(f, "pair {pair} names a contour by another tag than its own"),
            Refusal::Cycle { position } => write!(f, "contour {position} would have to be cut before itself"),
            Refusal::Room { needed } => write!(f, "the room for the tour is too small: it needs {needed} entries"),
            Refusal::Candidate { number } => write!(f, "the card has no candidate {number}"),
            Refusal::Ended => f.write_str("the card has ended: it was asked about before"),
            Refusal::Centres => write!(f, "a contour has at most {BRIDGES} bridges"),
            Refusal::VertexCount { count } => write!(f, "a contour has 1 to {VERTICES} vertices, not {count}"),
            Refusal::Vertex { number } => write!(f, "vertex {number} has a coordinate that is too large or no number"),
            Refusal::Way => f.write_str("the way around the contour is too short for bridges"),
            Refusal::Width => {
                f.write_str("a bridge's width is above 0, and its half is below the way around the contour")
            }
            Refusal::Centre { index } => {
                write!(f, "centre {index} is not from 0 up to the way around the contour, which itself is too far")
            }
        }
    }
}

impl std::error::Error for Refusal {}

/// Every answer of the library comes back with its number and place.
#[test]
fn codes() {
    assert_eq!(Refusal::of(0), Ok(()));
    for number in (1..=13).chain([15]) {
        for place in (0..9).chain([u64::from(u32::MAX)]) {
            let refusal = Refusal::of((number << 32) + place).unwrap_err();
            assert_eq!((u64::from(refusal.number()), u64::from(refusal.place())), (number, place));
        }
    }
    for (number, places) in [(6, 0..80), (8, 0..30), (13, BRIDGES as u64..BRIDGES as u64 + 1), (18, 0..18)] {
        for place in places {
            let refusal = Refusal::of_bridges((number << 32) + place).unwrap_err();
            assert_eq!((u64::from(refusal.number()), u64::from(refusal.place())), (number, place));
        }
    }
    assert_eq!(Refusal::of_bridges(0), Ok(()));
    let ended = Refusal::of(17 << 32).unwrap_err();
    assert_eq!((ended, ended.number(), ended.place()), (Refusal::Ended, 17, 0));
}

#[test]
fn sentences() {
    let says = |number: u64, place: usize, sentence: &str| {
        let code = (number << 32) + place as u64;
        assert_eq!(Refusal::of(code).unwrap_err().to_string(), sentence, "{number} at {place}");
    };
    let whole = format!("a card has 1 to {BLOCKS} whole blocks of {BLOCK} bytes");
    says(1, 0, &format!("{whole}, not 0 bytes"));
    says(1, CARD_BYTES - 1, &format!("{whole}, not {} bytes", CARD_BYTES - 1));
    says(1, CARD_BYTES + 1, &format!("{whole}, and this is longer"));
    says(2, 0, "the check of block 0 does not fit its bytes");
    says(3, 4, "block 4 does not begin as it should");
    says(4, 0, "a field of the head is out of its limits");
    says(4, 1, &format!("a card has at most {CONTOURS} contours"));
    says(4, 2, &format!("a card has at most {PAIRS} written pairs"));
    says(4, 3, &format!("a contour has 1 to {PER_CONTOUR} candidates"));
    says(4, 4, &format!("a search makes at most {PASSES} passes"));
    says(4, 5, "the direction of outlines is 0, 1 or 2");
    says(4, 6, "the direction of holes is 0, 1 or 2");
    says(4, 7, &format!("a card has at most {CANDIDATES} candidates in all"));
    says(4, 8, "the byte that asks for the grid is 0 or 1");
    says(5, 2, "the head speaks of another number of blocks than 2");
    let contour = format!("contour 0 has no 1 to {VERTICES} vertices, no known type, or a byte that should be zero");
    says(6, 0, &contour);
    says(7, 0, "block 0 has a byte that should be zero");
    says(8, 0, "home has a coordinate that is too large or no number");
    says(8, 1, "contour 0 has a coordinate that is too large or no number");
    says(9, 4, "contour 4 has the id of an earlier contour");
    says(10, 0, "pair 0 names an id that no contour has");
    says(11, 5, "pair 5 names a contour by another tag than its own");
    says(12, 3, "contour 3 would have to be cut before itself");
    says(13, 3, "the room for the tour is too small: it needs 3 entries");
    says(15, 9, "the card has no candidate 9");
    says(17, 0, "the card has ended: it was asked about before");
    let of_bridges = |number: u64, place: u64, sentence: &str| {
        let refusal = Refusal::of_bridges((number << 32) + place).unwrap_err();
        assert_eq!(refusal.to_string(), sentence, "{number} at {place}");
    };
    of_bridges(13, 16, &format!("a contour has at most {BRIDGES} bridges"));
    of_bridges(6, 0, &format!("a contour has 1 to {VERTICES} vertices, not 0"));
    of_bridges(8, 2, "vertex 2 has a coordinate that is too large or no number");
    of_bridges(18, 0, "the way around the contour is too short for bridges");
    of_bridges(18, 1, "a bridge's width is above 0, and its half is below the way around the contour");
    of_bridges(18, 4, "centre 2 is not from 0 up to the way around the contour, which itself is too far");
}
