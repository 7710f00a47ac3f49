//! The exports of the crate `host`, called as a host calls them, with a watch on every byte that they may
//! not change: the card, and what stands around the rooms and the lent numbers.

use crate::limits::BRIDGE_NUMBERS;

unsafe extern "C" {
    pub fn jl_check(card: *const u8, bytes: usize) -> u64;
    pub fn jl_tour(card: *const u8, bytes: usize, tour: *mut u8, room: usize, moves: *mut u64, length: *mut u64)
    -> u64;
    pub fn jl_place(card: *const u8, bytes: usize, candidate: u64, contour: *mut u64, within: *mut u64) -> u64;
    pub fn jl_feed(state: *mut u64, held: *mut u8, held_room: usize, piece: *const u8, bytes: usize) -> u64;
    pub fn jl_ask(
        state: *mut u64,
        held: *const u8,
        held_room: usize,
        tour: *mut u8,
        room: usize,
        moves: *mut u64,
        length: *mut u64,
    ) -> u64;
    pub fn jl_bridges(
        contour: *const f64,
        numbers: usize,
        width: f64,
        centres: *const f64,
        count: usize,
        room: *mut f64,
    ) -> u64;
}

/// What a call of `jl_tour` or `jl_ask` leaves: its answer, the whole tour room, and the two lent numbers.
#[derive(Clone, Debug, PartialEq)]
pub struct Left {
    pub code: u64,
    pub room: Vec<u8>,
    pub moves: u64,
    pub length: u64,
}

/// What the room and the numbers hold before a call.
pub const UNTOUCHED: u64 = 0xa5a5_a5a5_a5a5_a5a5;
const AROUND: usize = 64;

impl Left {
    /// What stands there before a call.
    pub fn untouched(room: usize) -> Left {
        Left { code: 0, room: vec![UNTOUCHED as u8; room], moves: UNTOUCHED, length: UNTOUCHED }
    }

    /// What a refused call must leave.
    pub fn refused(code: u64, room: usize) -> Left {
        Left { code, ..Left::untouched(room) }
    }

    /// What an accepted call must leave: the tour at the room's start, the rest kept.
    pub fn accepted(tour: &[usize], moves: u64, length: u64, room: usize) -> Left {
        let mut left = Left { moves, length, ..Left::untouched(room) };
        for (entry, &candidate) in left.room.iter_mut().zip(tour) {
            *entry = candidate as u8;
        }
        left
    }
}

/// What is lent to be written, between as much that is not.
struct Padded<T>(Vec<T>);

impl<T: Copy + PartialEq> Padded<T> {
    fn of(size: usize, untouched: T) -> Padded<T> {
        Padded(vec![untouched; AROUND + size + AROUND])
    }

    fn holding(entries: &[T], untouched: T) -> Padded<T> {
        let mut padded = Padded::of(entries.len(), untouched);
        padded.0[AROUND..AROUND + entries.len()].copy_from_slice(entries);
        padded
    }

    fn lent(&mut self) -> *mut T {
        self.0[AROUND..].as_mut_ptr()
    }

    /// What was lent, as a call left it. Fails where something around it changed.
    fn left(&self, untouched: T) -> Result<&[T], String> {
        let inside = AROUND..self.0.len() - AROUND;
        let around = self.0[..inside.start].iter().chain(&self.0[inside.end..]);
        let kept = around.into_iter().all(|entry| *entry == untouched);
        if kept { Ok(&self.0[inside]) } else { Err("something changed around what was lent".to_string()) }
    }
}

/// A number that is lent to be written.
fn number() -> Padded<u64> {
    Padded::of(1, UNTOUCHED)
}

fn told(number: &Padded<u64>) -> Result<u64, String> {
    Ok(number.left(UNTOUCHED)?[0])
}

/// Makes a call on a copy of the card. Fails where the copy is another afterwards.
fn on(card: &[u8], call: impl FnOnce(*const u8, usize) -> u64) -> Result<u64, String> {
    let lent = card.to_vec();
    let code = call(lent.as_ptr(), lent.len());
    if lent == card { Ok(code) } else { Err("the card changed".to_string()) }
}

/// Asks whether a card is good.
pub fn check(card: &[u8]) -> Result<u64, String> {
    on(card, |at, bytes| unsafe { jl_check(at, bytes) })
}

/// Asks for a tour.
pub fn tour(card: &[u8], room: usize) -> Result<Left, String> {
    let (mut tour, mut moves, mut length) = (Padded::of(room, UNTOUCHED as u8), number(), number());
    let code = on(card, |at, bytes| unsafe { jl_tour(at, bytes, tour.lent(), room, moves.lent(), length.lent()) })?;
    let room = tour.left(UNTOUCHED as u8)?.to_vec();
    Ok(Left { code, room, moves: told(&moves)?, length: told(&length)? })
}

/// Asks where a candidate is: the answer, then the contour and the number within it.
pub fn place(card: &[u8], candidate: u64) -> Result<(u64, u64, u64), String> {
    let (mut contour, mut within) = (number(), number());
    let code = on(card, |at, bytes| unsafe { jl_place(at, bytes, candidate, contour.lent(), within.lent()) })?;
    Ok((code, told(&contour)?, told(&within)?))
}

/// What a call of `jl_feed` leaves: its answer, the state and the byte room.
pub type Fed = (u64, u64, Vec<u8>);

/// Feeds a piece.
pub fn feed(state: u64, held: &[u8], piece: &[u8]) -> Result<Fed, String> {
    let (mut number, mut room) = (Padded::holding(&[state], UNTOUCHED), Padded::holding(held, UNTOUCHED as u8));
    let code = on(piece, |at, bytes| unsafe { jl_feed(number.lent(), room.lent(), held.len(), at, bytes) })?;
    Ok((code, told(&number)?, room.left(UNTOUCHED as u8)?.to_vec()))
}

/// Asks at the end of a feed, with the tour's room and the two numbers as something left them. Says the state too.
pub fn ask(state: u64, held: &[u8], before: &Left) -> Result<(u64, Left), String> {
    let (mut number, mut tour) = (Padded::holding(&[state], UNTOUCHED), Padded::holding(&before.room, UNTOUCHED as u8));
    let (mut moves, mut length) =
        (Padded::holding(&[before.moves], UNTOUCHED), Padded::holding(&[before.length], UNTOUCHED));
    let room = before.room.len();
    let code = on(held, |at, bytes| unsafe {
        jl_ask(number.lent(), at, bytes, tour.lent(), room, moves.lent(), length.lent())
    })?;
    let room = tour.left(UNTOUCHED as u8)?.to_vec();
    Ok((told(&number)?, Left { code, room, moves: told(&moves)?, length: told(&length)? }))
}

/// The bits of numbers, which tell -0 from 0 and one not-a-number from another.
fn bits(numbers: &[f64]) -> Vec<u64> {
    numbers.iter().map(|x| x.to_bits()).collect()
}

/// Asks for bridges: the answer, and the bits of the whole room.
pub fn bridges(contour: &[f64], width: f64, centres: &[f64]) -> Result<(u64, Vec<u64>), String> {
    let (lent, asked) = (contour.to_vec(), centres.to_vec());
    let mut room = Padded::of(BRIDGE_NUMBERS, UNTOUCHED);
    let code = unsafe { jl_bridges(lent.as_ptr(), lent.len(), width, asked.as_ptr(), asked.len(), room.lent().cast()) };
    if bits(&lent) != bits(contour) || bits(&asked) != bits(centres) {
        return Err("the contour or the centres changed".to_string());
    }
    Ok((code, room.left(UNTOUCHED)?.to_vec()))
}

/// A byte that changed around what was lent is seen.
#[test]
fn around_is_watched() {
    for at in [0, AROUND - 1, AROUND, AROUND + 2, AROUND + 3, 2 * AROUND + 2] {
        let mut room = Padded::of(3, 7u8);
        room.0[at] = 8;
        let inside = (AROUND..AROUND + 3).contains(&at);
        assert_eq!(room.left(7).is_ok(), inside, "entry {at}");
    }
}
