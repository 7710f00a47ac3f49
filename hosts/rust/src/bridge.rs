//! The bridges of a contour.

use crate::{BRIDGES, Refusal};

/// The numbers of a bridge in the library's room, and of the most bridges.
const EACH: usize = 8;
const NUMBERS: usize = EACH * BRIDGES;

unsafe extern "C" {
    fn jl_bridges(
        contour: *const f64,
        numbers: usize,
        width: f64,
        centres: *const f64,
        count: usize,
        room: &mut [f64; NUMBERS],
    ) -> u64;
}

/// A stretch of a contour that stays uncut and holds its part.
#[derive(Clone, Copy, Debug, PartialEq)]
pub struct Bridge {
    /// Where it starts, along the way around the contour.
    pub start: [f64; 2],
    /// Where it ends.
    pub end: [f64; 2],
    /// Where its middle is.
    pub middle: [f64; 2],
    /// The edge that the middle is on, by the vertex at which the edge starts.
    pub edge: usize,
    /// How far along that edge the centre is, 0 at its start and 1 at its end. It is told as it comes out: -0 for a centre of
    /// -0, and it can be above 1 where the centre is at the edge's end, or past it by no more than the 1e-12 by which the end
    /// is taken further; on an edge not longer than 1e-12 it is 0.
    pub place: f64,
}

/// The bridges of a contour: one of this width for each centre, a distance along the way around the contour from its first
/// vertex on, in millimetres. A contour has 1 to [`VERTICES`](crate::VERTICES) vertices, and there are at most [`BRIDGES`]
/// centres.
///
/// ```
/// let square = [[0.0, 0.0], [4.0, 0.0], [4.0, 4.0], [0.0, 4.0]];
/// let found = jambolive::bridges(&square, 2.0, &[2.0, 15.5]).unwrap();
/// assert_eq!((found[0].start, found[0].end, found[0].edge, found[0].place), ([1.0, 0.0], [3.0, 0.0], 0, 0.5));
/// assert_eq!((found[1].start, found[1].end, found[1].edge), ([0.0, 1.5], [0.5, 0.0], 3));
/// assert_eq!(jambolive::bridges(&square, 2.0, &[2.0, 16.0]), Err(jambolive::Refusal::Centre { index: 1 }));
/// ```
pub fn bridges(contour: &[[f64; 2]], width: f64, centres: &[f64]) -> Result<Vec<Bridge>, Refusal> {
    let mut room = [0.0; NUMBERS];
    let numbers = contour.as_flattened();
    // The library reads the contour and the centres, and writes the room.
    Refusal::of_bridges(unsafe {
        jl_bridges(numbers.as_ptr(), numbers.len(), width, centres.as_ptr(), centres.len(), &mut room)
    })?;
    let bridge = |n: &[f64]| Bridge {
        start: [n[0], n[1]],
        end: [n[2], n[3]],
        middle: [n[4], n[5]],
        edge: n[6] as usize,
        place: n[7],
    };
    Ok(room.chunks_exact(EACH).take(centres.len()).map(bridge).collect())
}
