//! A card that arrives in pieces.

use crate::{CARD_BYTES, CONTOURS, Refusal, Tour, fields};

unsafe extern "C" {
    fn jl_feed(state: &mut u64, held: *mut u8, held_room: usize, piece: *const u8, bytes: usize) -> u64;
    fn jl_ask(
        state: &mut u64,
        held: *const u8,
        held_room: usize,
        tour: *mut u8,
        room: usize,
        moves: &mut u64,
        length: &mut u64,
    ) -> u64;
}

/// The state of a new card, and the bytes that one says are held.
const NEW: u64 = 0;
const fn held(state: u64) -> usize {
    (state / 4) as usize
}

/// A card that is fed as its bytes come, and asked about at the end. However it is cut, [`Feed::finish`] answers what
/// [`tour`](crate::tour) does of the whole.
///
/// ```
/// let card = std::fs::read("../../examples/job-41.card").unwrap();
/// let mut feed = jambolive::Feed::new();
/// for piece in card.chunks(100) {
///     feed.push(piece).unwrap();
/// }
/// assert_eq!(feed.held(), card);
/// assert_eq!(feed.finish(), jambolive::tour(&card));
/// assert_eq!(feed.push(&[]), Err(jambolive::Refusal::Ended));
/// ```
#[derive(Clone, Debug)]
pub struct Feed {
    state: u64,
    room: Vec<u8>,
}

impl Feed {
    /// A new card.
    pub fn new() -> Feed {
        Feed { state: NEW, room: vec![0; CARD_BYTES] }
    }

    /// Takes the next bytes, and says how many are held: at most [`CARD_BYTES`], what comes behind them is not. After the
    /// end, even no bytes are refused.
    pub fn push(&mut self, piece: &[u8]) -> Result<usize, Refusal> {
        let (room, size) = (self.room.as_mut_ptr(), self.room.len());
        // The library reads the piece, and writes the room and the state.
        Refusal::of(unsafe { jl_feed(&mut self.state, room, size, piece.as_ptr(), piece.len()) })?;
        Ok(self.held().len())
    }

    /// The bytes that are held.
    pub fn held(&self) -> &[u8] {
        &self.room[..held(self.state)]
    }

    /// The end: finds the tour of all bytes that were pushed. Asked again it answers the same.
    pub fn finish(&mut self) -> Result<Tour, Refusal> {
        let (mut tour, mut moves, mut length) = ([0; CONTOURS], 0, 0);
        let (held, bytes) = (self.room.as_ptr(), self.room.len());
        // The library reads the bytes held, and writes the tour, the two numbers and the state.
        Refusal::of(unsafe {
            jl_ask(&mut self.state, held, bytes, tour.as_mut_ptr(), tour.len(), &mut moves, &mut length)
        })?;
        let candidates = tour[..fields::contours(self.held())].to_vec();
        Ok(Tour { candidates, moves, length: f64::from_bits(length) })
    }
}

impl Default for Feed {
    fn default() -> Feed {
        Feed::new()
    }
}
