//! A card as a programmer writes one: its fields, and the bytes they make.

use crate::limits::{BLOCK, CHECK_AT, PAIRS_A_BLOCK, contour};

#[derive(Clone, Debug, PartialEq)]
pub struct Card {
    pub version: u8,
    pub job: u32,
    pub c: u16,
    pub passes: u16,
    pub limit: u32,
    pub home: (f64, f64),
    pub exterior: u8,
    pub interior: u8,
    /// Version 2 alone writes it: 1 asks that candidates be moved to the grid. In version 1 it is 0.
    pub grid: u8,
    pub contours: Vec<Contour>,
    pub pairs: Vec<Pair>,
}

#[derive(Clone, Debug, Default, PartialEq)]
pub struct Contour {
    pub id: u32,
    pub tag: u32,
    /// Version 2 alone writes the part, 0 for none, and the instance; in version 1 both are 0.
    pub part: u32,
    pub instance: u32,
    pub interior: bool,
    pub vertices: Vec<(f64, f64)>,
}

/// The contour named first is cut before the other; each is named by id and tag.
#[derive(Clone, Copy, Debug, PartialEq)]
pub struct Pair {
    pub before: (u32, u32),
    pub after: (u32, u32),
}

/// A card of version 1 with nothing on it.
impl Default for Card {
    fn default() -> Card {
        Card {
            version: 1,
            job: 0,
            c: 0,
            passes: 0,
            limit: 0,
            home: (0.0, 0.0),
            exterior: 0,
            interior: 0,
            grid: 0,
            contours: Vec::new(),
            pairs: Vec::new(),
        }
    }
}

impl Card {
    /// The file, with good checks. The counts are those of the lists, in or out of the limits.
    pub fn bytes(&self) -> Vec<u8> {
        let mut bytes = self.head();
        for (k, contour) in self.contours.iter().enumerate() {
            bytes.extend(contour.block(self.version, k + 1));
        }
        for (k, pairs) in self.pairs.chunks(PAIRS_A_BLOCK).enumerate() {
            let mut block = start(3, self.version, 1 + self.contours.len() + k);
            for pair in pairs {
                for word in [pair.before.0, pair.before.1, pair.after.0, pair.after.1] {
                    block.extend(word.to_le_bytes());
                }
            }
            bytes.extend(padded(block));
        }
        seal(&mut bytes);
        bytes
    }

    fn head(&self) -> Vec<u8> {
        let mut block = start(1, self.version, 0);
        block.extend(self.job.to_le_bytes());
        for half in [self.contours.len() as u16, self.pairs.len() as u16, self.c, self.passes] {
            block.extend(half.to_le_bytes());
        }
        block.extend(self.limit.to_le_bytes());
        block.extend(self.home.0.to_le_bytes());
        block.extend(self.home.1.to_le_bytes());
        block.extend([self.exterior, self.interior]);
        if self.version == 2 {
            block.push(self.grid);
        }
        padded(block)
    }

    /// Whether the card asks that candidates be moved to the grid.
    pub fn asks_grid(&self) -> bool {
        self.version == 2 && self.grid == 1
    }

    /// The pair of two contours, by their positions.
    pub fn pair(&self, before: usize, after: usize) -> Pair {
        let named = |k: usize| (self.contours[k].id, self.contours[k].tag);
        Pair { before: named(before), after: named(after) }
    }
}

impl Contour {
    fn block(&self, version: u8, number: usize) -> Vec<u8> {
        let mut block = start(2, version, number);
        block.extend(self.id.to_le_bytes());
        block.extend(self.tag.to_le_bytes());
        block.extend((self.vertices.len() as u16).to_le_bytes());
        block.extend([u8::from(self.interior), 0]);
        for (x, y) in &self.vertices {
            block.extend(x.to_le_bytes());
            block.extend(y.to_le_bytes());
        }
        if version == 2 {
            block.resize(contour::PART, 0);
            block.extend(self.part.to_le_bytes());
            block.extend(self.instance.to_le_bytes());
        }
        padded(block)
    }
}

fn start(kind: u8, version: u8, number: usize) -> Vec<u8> {
    let number = (number as u16).to_le_bytes();
    vec![kind, version, number[0], number[1], 0, 0, 0, 0]
}

/// A block's room: what does not fit (one vertex too many) is cut off.
fn padded(mut block: Vec<u8>) -> Vec<u8> {
    block.resize(BLOCK, 0);
    block
}

/// The check that a block should carry.
pub fn check_of(block: &[u8]) -> u32 {
    block[..CHECK_AT].iter().zip(1u32..).map(|(&byte, weight)| weight * u32::from(byte)).sum()
}

/// Makes the check of every whole block good.
pub fn seal(bytes: &mut [u8]) {
    for block in bytes.chunks_exact_mut(BLOCK) {
        let check = check_of(block);
        block[CHECK_AT..].copy_from_slice(&check.to_le_bytes());
    }
}
