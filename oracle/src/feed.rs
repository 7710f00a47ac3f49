//! Cards in pieces against the whole: good ones, damaged ones and longer ones than any, cut at random. Every call that is
//! refused on the way keeps all it was lent; the host writes behind the bytes that are held, and lends other rooms. And
//! single calls in any state, against the request read once more.

use crate::doors::refused;
use crate::exports::{self, Left, UNTOUCHED};
use crate::generate::{damaged, good, mutated, regridded, relabelled};
use crate::limits::{BLOCK, CARD_BYTES, CONTOURS};
use crate::random::Random;
use crate::run::{Tally, Wanted, by_version, same};

/// A card, whole, cut short, or with bytes behind it: up to the longest card's, or past them.
pub fn any(r: &Random, version: u8) -> Vec<u8> {
    let mut bytes = match r.below(4) {
        0 | 1 => good(r, version).bytes(),
        2 => damaged(r, version),
        _ => r.pick(&[mutated, relabelled, regridded])(r, version),
    };
    match r.below(16) {
        0 => bytes.resize(r.pick(&[CARD_BYTES, CARD_BYTES + 1, CARD_BYTES + BLOCK, 2 * CARD_BYTES]), r.next() as u8),
        1 => bytes.truncate(r.index(bytes.len() + 1)),
        _ => {}
    }
    bytes
}

/// The size of the next piece, of those that are left.
pub fn size(r: &Random, left: usize) -> usize {
    r.pick(&[0, 1, BLOCK - 1, BLOCK, BLOCK + 1, r.index(left + 1), r.index(left / 4 + 1), left]).min(left)
}

/// What a host holds, and what the library must have made of it.
struct Host {
    fed: Vec<u8>,
    held: Vec<u8>,
    ended: bool,
}

impl Host {
    fn kept(&self) -> usize {
        self.fed.len().min(CARD_BYTES)
    }

    /// The state as it is due.
    fn state(&self) -> u64 {
        4 * self.kept() as u64 + 2 * u64::from(self.fed.len() > CARD_BYTES) + u64::from(self.ended)
    }

    /// Writes behind the bytes that are held, or takes another room with them.
    fn stirs(&mut self, r: &Random) {
        let kept = self.kept();
        match r.below(4) {
            0 => self.held[kept..].fill(r.next() as u8),
            1 => {
                self.held.truncate(kept);
                self.held.resize(CARD_BYTES + r.pick(&[0, 1, BLOCK]), r.next() as u8);
            }
            _ => {}
        }
    }

    /// Feeds a piece that must be taken.
    fn feeds(&mut self, piece: &[u8]) -> Result<u64, String> {
        let (kept, state) = (self.kept(), self.state());
        let ours = exports::feed(state, &self.held, piece)?;
        self.fed.extend_from_slice(piece);
        let now_kept = self.kept();
        self.held[kept..now_kept].copy_from_slice(&self.fed[kept..now_kept]);
        let due = (0, self.state(), self.held.clone());
        same(|| format!("a piece of {} bytes behind {kept}", piece.len()), ours, due)
    }

    /// Feeds a piece that must be refused.
    fn is_refused(&self, held: &[u8], piece: &[u8], number: u64, place: usize) -> Result<u64, String> {
        let due = (refused(number, place as u64), self.state(), held.to_vec());
        same(|| format!("{} bytes that must be refused", piece.len()), exports::feed(self.state(), held, piece)?, due)
    }

    /// Asks, with a tour's room that something was left in.
    fn asks(&mut self, before: &Left) -> Result<Left, String> {
        let (state, left) = exports::ask(self.state(), &self.held, before)?;
        self.ended = true;
        same(|| "the state at the end".to_string(), state, self.state())?;
        Ok(left)
    }

    /// A byte room that is too small.
    fn small(&self, r: &Random) -> &[u8] {
        &self.held[..r.pick(&[0, self.kept(), CARD_BYTES - 1]).min(CARD_BYTES - 1)]
    }

    /// Asks with a byte room that is too small, which changes nothing.
    fn asks_in_vain(&self, r: &Random) -> Result<u64, String> {
        let before = Left::untouched(CONTOURS);
        let due = (self.state(), Left { code: refused(13, CARD_BYTES as u64), ..before.clone() });
        same(|| "asked in a small room".to_string(), exports::ask(self.state(), self.small(r), &before)?, due)
    }

    /// Calls on the way that change nothing: no bytes into any room, and what a small room is refused for.
    fn idles(&self, r: &Random) -> Result<u64, String> {
        let (small, state) = (self.small(r), self.state());
        same(|| "no bytes".to_string(), exports::feed(state, small, &[])?, (0, state, small.to_vec()))?;
        self.is_refused(small, &[1; 3][..r.from(1, 3)], 13, CARD_BYTES)?;
        self.asks_in_vain(r)
    }
}

/// Feeds a card as it is cut, and holds the end against the whole's.
fn one(r: &Random, bytes: &[u8], met: &[Tally; 3]) -> Result<u64, String> {
    let mut host = Host { fed: Vec::new(), held: vec![UNTOUCHED as u8; CARD_BYTES], ended: false };
    let mut pieces = 0;
    while host.fed.len() < bytes.len() && pieces < 40 {
        let left = &bytes[host.fed.len()..];
        host.stirs(r);
        if r.one_in(8) {
            host.idles(r)?;
        }
        host.feeds(&left[..size(r, left.len())])?;
        pieces += 1;
    }
    host.stirs(r);
    host.feeds(&bytes[host.fed.len()..])?;
    host.idles(r)?;

    let room = r.pick(&[CONTOURS, CONTOURS + 3, r.index(CONTOURS)]);
    let whole = exports::tour(bytes, room)?;
    let first = host.asks(&Left::untouched(room))?;
    same(|| "the end".to_string(), &first, &whole)?;
    let again = host.asks(&first)?;
    same(|| "the end, asked again".to_string(), &again, &whole)?;
    same(
        || "the end, in another room".to_string(),
        host.asks(&Left::untouched(CONTOURS))?,
        exports::tour(bytes, CONTOURS)?,
    )?;
    host.asks_in_vain(r)?;
    for piece in [&[][..], &[1]] {
        host.is_refused(&host.held[..r.pick(&[0, CARD_BYTES])], piece, 17, 0)?;
    }
    for (tally, met) in met.iter().zip([bytes.len() > CARD_BYTES, pieces > 2, whole.code == 0]) {
        tally.count(met);
    }
    Ok(1)
}

/// What a piece leaves in any state, read from the request once more.
pub fn fed_due(state: u64, held: &[u8], piece: &[u8]) -> exports::Fed {
    let mut after = held.to_vec();
    if state % 2 == 1 {
        return (refused(17, 0), state, after);
    }
    if !piece.is_empty() && held.len() < CARD_BYTES {
        return (refused(13, CARD_BYTES as u64), state, after);
    }
    let (kept, over) = (state / 4, state / 2 % 2 == 1);
    let taken = piece.len().min((CARD_BYTES as u64).saturating_sub(kept) as usize);
    if taken > 0 {
        after[kept as usize..kept as usize + taken].copy_from_slice(&piece[..taken]);
    }
    (0, 4 * (kept + taken as u64) + 2 * u64::from(over || taken < piece.len()), after)
}

/// Likewise an asking.
pub fn asked_due(state: u64, held: &[u8], room: usize) -> Result<(u64, Left), String> {
    if held.len() < CARD_BYTES {
        return Ok((state, Left::refused(refused(13, CARD_BYTES as u64), room)));
    }
    let kept = (state / 4).min(held.len() as u64) as usize;
    let left = match state / 2 % 2 {
        1 => Left::refused(refused(1, CARD_BYTES as u64 + 1), room),
        _ => exports::tour(&held[..kept], room)?,
    };
    Ok((state | 1, left))
}

/// A state that perhaps no call gave, with a byte room of any size.
fn any_state(r: &Random, bytes: &[u8]) -> Result<u64, String> {
    let most = CARD_BYTES as u64;
    let kept = r.pick(&[bytes.len() as u64, r.below(most), most - 1, most, most + 1, r.below(2 * most), r.next() >> 2]);
    let state = 4 * kept + r.below(4);
    let mut held = bytes.to_vec();
    held.resize(r.pick(&[CARD_BYTES, CARD_BYTES, CARD_BYTES + BLOCK, CARD_BYTES - 1, r.index(CARD_BYTES)]), 0);
    let piece = &bytes[..r.pick(&[0, 1, r.index(bytes.len() + 1), bytes.len()]).min(bytes.len())];
    let what = || format!("state {state}, {} bytes of room, {} more", held.len(), piece.len());
    same(what, exports::feed(state, &held, piece)?, fed_due(state, &held, piece))?;
    let room = r.pick(&[CONTOURS, r.index(CONTOURS)]);
    same(what, exports::ask(state, &held, &Left::untouched(room))?, asked_due(state, &held, room)?)
}

const ALL: u64 = 50_000;
const STATES: u64 = 20_000;

pub fn compare(wanted: Wanted) -> bool {
    let longer = Tally::of("fed cards that are longer than any", 50);
    let cut = Tally::of("fed cards in three pieces or more", 2);
    let met = [longer, cut, Tally::of("fed cards with a tour", 4)];
    by_version(wanted, "fed cards", ALL, |r, version| one(r, &any(r, version), &met))
        & met.into_iter().fold(true, |all, tally| tally.enough(wanted.of(ALL)) & all)
        & by_version(wanted, "feeds in any state", STATES, |r, version| any_state(r, &any(r, version)))
}
