//! In which order a machine should cut the contours of a sheet, and where it should start each of them.
//!
//! A job comes as a card, a file of 512-byte blocks (docs/CARD.md). [`check`] says whether a card can be
//! followed, [`tour`] finds its tour, [`list`] prints it as the machine reads it. A card of version 1 or 2 will do; in
//! version 2 a hole is cut before the first outline of its part and instance without a pair that says so, and a card may
//! ask that the points found along its contours are moved to a grid. A card that arrives in pieces goes into a [`Feed`].
//! Of any contour [`bridges`] says where the stretches are that stay uncut. The work is done by a library in which every
//! function is proved: these calls only hand slices over and make numbers into words. They take any bytes and numbers,
//! never panic, and keep nothing but what a [`Feed`] holds. They may run side by side. hosts/c/jambolive.h says how much
//! stack the library takes.
//!
//! ```
//! let mut card = std::fs::read("../../examples/job-41.card").unwrap();
//! let tour = jambolive::tour(&card).unwrap();
//! assert_eq!(tour.candidates, [2, 1, 0]);
//! assert_eq!(tour.length, 24.0);
//! card[1000] += 1;
//! assert_eq!(jambolive::check(&card).unwrap_err().to_string(), "the check of block 1 does not fit its bytes");
//! ```

mod bridge;
mod feed;
mod fields;
mod limits;
mod refusal;

pub use bridge::{Bridge, bridges};
pub use feed::Feed;
pub use limits::*;
pub use refusal::Refusal;

unsafe extern "C" {
    fn jl_check(card: *const u8, bytes: usize) -> u64;
    fn jl_tour(card: *const u8, bytes: usize, tour: *mut u8, room: usize, moves: &mut u64, length: &mut u64) -> u64;
    fn jl_place(card: *const u8, bytes: usize, candidate: u64, contour: &mut u64, within: &mut u64) -> u64;
}

/// Whether a card can be followed.
pub fn check(card: &[u8]) -> Result<(), Refusal> {
    // The library reads the slice and nothing else.
    Refusal::of(unsafe { jl_check(card.as_ptr(), card.len()) })
}

/// What a search ends with.
#[derive(Clone, Debug, PartialEq)]
pub struct Tour {
    /// A candidate of each contour in the order of cutting, numbered over the whole card.
    pub candidates: Vec<u8>,
    /// The trials that the search made.
    pub moves: u64,
    /// The length of the way without cutting, from home on, in millimetres.
    pub length: f64,
}

/// Finds a card's tour. In the turn of a position the search keeps the last candidate that it accepted, where a library from
/// before request 2026-01 did not: with three candidates a contour or more the tour may be another than then, mostly shorter
/// and now and then longer; with fewer it is the same (docs/DIFFERENCES.md). A card with more contours or pairs than a
/// library from before request 2026-04 takes is refused by it (docs/CARD.md, "Larger cards"); that request changed no tour of
/// a card that it takes. Where byte 34 of the head's payload is 1 on a card of version 2, candidates found along a contour are
/// moved to the nearest point of a grid of 1/1024 mm (docs/CARD.md, "The grid").
pub fn tour(card: &[u8]) -> Result<Tour, Refusal> {
    let mut room = [0; CONTOURS];
    let (moves, length) = tour_into(card, &mut room)?;
    Ok(Tour { candidates: room[..fields::contours(card)].to_vec(), moves, length })
}

/// Finds a card's tour and writes it to the start of `room`, one byte an entry; gives the trials and the length. A room
/// that is too small is refused. The rest of the room, and all of it where the card is refused, stays as it was.
pub fn tour_into(card: &[u8], room: &mut [u8]) -> Result<(u64, f64), Refusal> {
    let (mut moves, mut length) = (0, 0);
    // The library reads the card, and writes the room's first entries and the two numbers.
    Refusal::of(unsafe { jl_tour(card.as_ptr(), card.len(), room.as_mut_ptr(), room.len(), &mut moves, &mut length) })?;
    Ok((moves, f64::from_bits(length)))
}

/// The contour that a candidate belongs to, by its position on the card, and the candidate's number within it.
pub fn place(card: &[u8], candidate: u8) -> Result<(usize, usize), Refusal> {
    let (mut contour, mut within) = (0, 0);
    // The library reads the card, and writes the two numbers.
    Refusal::of(unsafe { jl_place(card.as_ptr(), card.len(), u64::from(candidate), &mut contour, &mut within) })?;
    Ok((contour as usize, within as usize))
}

/// The list that the machine follows, as the program `cutlist` prints it; for a refused card its one line.
pub fn list(card: &[u8]) -> String {
    lines(card).unwrap_or_else(|r| format!("REFUSED {} AT {}\n", r.number(), r.place()))
}

fn lines(card: &[u8]) -> Result<String, Refusal> {
    let tour = tour(card)?;
    let mut list = format!("JOB {} CONTOURS {}\n", fields::job(card), fields::contours(card));
    for &candidate in &tour.candidates {
        let (contour, within) = place(card, candidate)?;
        let (id, tag, clockwise) = fields::contour(card, contour);
        let way = if clockwise { "cw" } else { "ccw" };
        list += &format!("{id} {tag} {within} {way}\n");
    }
    Ok(list + &format!("MOVES {}\nRAPID {:016x}\n", tour.moves, tour.length.to_bits()))
}
