//! Numbers to try, from a seed: the same seed gives the same run on every machine.

use crate::limits::{GRID_REACH, PER_MM, REACH};
use std::cell::Cell;

/// SplitMix64: small, and every seed is as good as another.
pub struct Random(Cell<u64>);

impl Random {
    /// The numbers of one case: the run's seed, the part it belongs to, and the case's number.
    pub fn of(seed: u64, part: &str, case: u64) -> Random {
        let mixed = Random(Cell::new(seed));
        for word in part.bytes().map(u64::from).chain([case]) {
            mixed.0.set(mixed.next() ^ word);
        }
        mixed
    }

    pub fn next(&self) -> u64 {
        self.0.set(self.0.get().wrapping_add(0x9e37_79b9_7f4a_7c15));
        let mut z = self.0.get();
        z = (z ^ (z >> 30)).wrapping_mul(0xbf58_476d_1ce4_e5b9);
        z = (z ^ (z >> 27)).wrapping_mul(0x94d0_49bb_1331_11eb);
        z ^ (z >> 31)
    }

    /// A number below `bound`, which is above 0.
    pub fn below(&self, bound: u64) -> u64 {
        ((u128::from(self.next()) * u128::from(bound)) >> 64) as u64
    }

    /// A position in a list of this length, which is above 0.
    pub fn index(&self, length: usize) -> usize {
        self.below(length as u64) as usize
    }

    pub fn from(&self, low: usize, high: usize) -> usize {
        low + self.index(high - low + 1)
    }

    /// Yes once in `times`.
    pub fn one_in(&self, times: u64) -> bool {
        self.below(times) == 0
    }

    pub fn pick<T: Copy>(&self, of: &[T]) -> T {
        of[self.below(of.len() as u64) as usize]
    }

    /// At least 0 and below 1.
    pub fn unit(&self) -> f64 {
        (self.next() >> 11) as f64 / (1u64 << 53) as f64
    }

    pub fn shuffle<T>(&self, list: &mut [T]) {
        for i in (1..list.len()).rev() {
            list.swap(i, self.below(i as u64 + 1) as usize);
        }
    }
}

/// A kind of coordinate. A contour or a question has most of its numbers from one kind, so that sums,
/// ties and cancellations of each kind occur.
#[derive(Clone, Copy)]
pub enum Kind {
    Wide,
    Sheet,
    Grid,
    Whole,
    Tiny,
    Subnormal,
    Edge,
}

pub const KINDS: [Kind; 7] =
    [Kind::Wide, Kind::Sheet, Kind::Grid, Kind::Whole, Kind::Tiny, Kind::Subnormal, Kind::Edge];

impl Random {
    /// A coordinate that is finite and within reach.
    pub fn coordinate(&self, kind: Kind) -> f64 {
        let size = match kind {
            Kind::Wide => self.unit() * REACH,
            Kind::Sheet => self.unit() * 3000.0,
            Kind::Grid => self.below(3000 << 10) as f64 / PER_MM,
            Kind::Whole => self.below(6) as f64,
            Kind::Tiny => self.unit() * self.pick(&[1e-3, 1e-6, 1e-12, 1e-13, 1e-150]),
            Kind::Subnormal => f64::from_bits(self.below(1 << self.pick(&[3, 20, 52]))),
            Kind::Edge => self.pick(&[0.0, REACH, REACH - 1.0, REACH.next_down(), f64::MIN_POSITIVE, 1e-12]),
        };
        self.either_way(size)
    }

    /// A coordinate on the grid and within its reach: a few steps from zero, on a sheet, anywhere, or about the reach.
    pub fn on_grid(&self) -> f64 {
        let most = (GRID_REACH * PER_MM) as u64;
        let steps =
            self.pick(&[self.below(9), self.below(3000 << 10), self.below(most + 1), most - self.below(3), most]);
        self.either_way(steps as f64 / PER_MM)
    }

    /// A coordinate within reach, on the grid or beside it: halfway between two of its points, next to that, elsewhere
    /// between them, or so near to zero that it goes there.
    pub fn about_grid(&self) -> f64 {
        let most = (REACH * PER_MM) as u64;
        let steps = self.pick(&[self.below(9), self.below(3000 << 10), most - self.below(4)]);
        let x = (steps as f64 + self.pick(&[0.0, 0.5, 0.5, 0.25, self.unit()])) / PER_MM;
        let tiny = self.pick(&[0.0, 1e-5, 1e-13, f64::from_bits(1), (0.5 / PER_MM).next_down()]);
        self.either_way(self.pick(&[x, x, x, x.next_up(), x.next_down(), tiny]).min(REACH))
    }

    /// A number of this size, above or below zero.
    pub fn either_way(&self, size: f64) -> f64 {
        if self.one_in(2) { -size } else { size }
    }

    /// A point within reach.
    pub fn point(&self, kind: Kind) -> (f64, f64) {
        (self.coordinate(kind), self.coordinate(kind))
    }

    /// Any f64, most of them coordinates: the edges on both sides of what is accepted come often.
    pub fn number(&self, kind: Kind) -> f64 {
        match self.below(40) {
            0 => self.pick(&[f64::NAN, -f64::NAN, f64::INFINITY, f64::NEG_INFINITY, f64::MAX, f64::MIN]),
            1 => self.pick(&[REACH.next_up(), -REACH.next_up(), 1e300]),
            2 => f64::from_bits(self.next()),
            _ => self.coordinate(kind),
        }
    }
}
