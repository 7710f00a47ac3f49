//! Any bytes through the exports and the safe calls of the crate `jambolive`, every lent part at the edge of a guard
//! page: for what no proof covers, the compiler's back end and the glue of the hosts. What reached code that nothing
//! before it reached is kept, and mutated further: coverage.rs sees that where the archives count (feature `covered`).

use crate::card::seal;
use crate::coverage::Coverage;
use crate::doors::refused;
use crate::exports::{Left, UNTOUCHED, jl_ask, jl_check, jl_feed, jl_place, jl_tour};
use crate::feed;
use crate::generate::{damaged, good, gridded, mutated, regridded, relabelled};
use crate::guard::Guarded;
use crate::limits::{BLOCK, CANDIDATES, CARD_BYTES, CONTOURS, PAIRS, PAYLOAD_AT, REACH, contour, head};
use crate::random::Random;
use crate::reading;
use crate::run::same;
use std::time::Instant;

/// More than the largest card, and than the largest tour.
const LARGEST: usize = 2 * CARD_BYTES.next_power_of_two();
const ROOM: usize = CONTOURS + 10;

/// A card mutated by structure: from the generator, or one that was kept.
fn structured(r: &Random, kept: &[Vec<u8>]) -> Vec<u8> {
    let version = r.pick(&[1, 2]);
    match r.below(if kept.is_empty() { 6 } else { 10 }) {
        0 => good(r, version).bytes(),
        1 => mutated(r, version),
        2 => damaged(r, version),
        3 => relabelled(r, version),
        4 => regridded(r, version),
        5 => gridded(r, r.one_in(2)).bytes(),
        6 => joined(&kept[r.index(kept.len())], &kept[r.index(kept.len())], r),
        _ => kept[r.index(kept.len())].clone(),
    }
}

/// The first blocks of one card and the further ones of another.
fn joined(one: &[u8], other: &[u8], r: &Random) -> Vec<u8> {
    let at = r.index(one.len().min(other.len()) / BLOCK + 1) * BLOCK;
    [&one[..at], &other[at..]].concat()
}

/// A field of a block: numbers at their edges, in one, two, four or eight bytes.
fn field(r: &Random, bytes: &mut [u8]) {
    let width = r.pick(&[1, 2, 4, 8]);
    if bytes.len() < BLOCK {
        return;
    }
    let block = r.index(bytes.len() / BLOCK) * BLOCK;
    // eight bytes still fit
    let part = r.pick(&[contour::PART, contour::INSTANCE]);
    let at = block + r.pick(&[r.from(PAYLOAD_AT, head::DIRECTIONS), part, r.index(BLOCK - 8)]);
    let (contours, pairs) = (r.below(CONTOURS as u64 + 10), r.below(PAIRS as u64 + 6));
    let number = r.pick(&[r.below(3), contours, pairs, r.next(), 1 << r.below(64), REACH.to_bits() + r.below(2)]);
    bytes[at..at + width].copy_from_slice(&number.to_le_bytes()[..width]);
}

/// A card mutated by structure, then perhaps by fields and by plain bytes, its checks most often made good.
fn input(r: &Random, kept: &[Vec<u8>]) -> Vec<u8> {
    let mut bytes = structured(r, kept);
    for _ in 0..r.pick(&[0, 0, 1, 2]) {
        field(r, &mut bytes);
    }
    if r.one_in(8) && bytes.len() >= BLOCK {
        // asked for the grid or no longer, or with a byte that is no answer
        let asked = bytes[head::GRID];
        bytes[head::GRID] = r.pick(&[asked ^ 1, asked ^ 1, 2, 255]);
    }
    for _ in 0..r.pick(&[0, 0, 1, 3, 30]) {
        if !bytes.is_empty() {
            let at = r.index(bytes.len());
            bytes[at] = r.pick(&[r.next() as u8, 0, 1, 255, bytes[at] ^ 1]);
        }
    }
    match r.below(8) {
        0 => bytes.truncate(r.index(bytes.len() + 1)),
        1 => bytes.truncate(r.index(bytes.len() / BLOCK + 1) * BLOCK),
        _ => {}
    }
    if !r.one_in(4) {
        seal(&mut bytes);
    }
    bytes.truncate(LARGEST);
    bytes
}

/// The lent number before a call, as bytes.
fn number() -> [u8; 8] {
    UNTOUCHED.to_ne_bytes()
}

fn told(bytes: &[u8]) -> u64 {
    u64::from_ne_bytes(bytes.try_into().unwrap())
}

/// A tour with its trials and its length's bits.
type Tour = (Vec<u8>, u64, u64);

/// Asks the safe calls about a card, whole and fed: their refusal is the one that is due, or there is a tour.
fn safe(r: &Random, card: &[u8], fault: u64) -> Result<Option<Tour>, String> {
    let code = |r: jambolive::Refusal| refused(u64::from(r.number()), u64::from(r.place()));
    same(|| "jambolive::check".to_string(), jambolive::check(card).map_or_else(code, |()| 0), fault)?;
    let tour = jambolive::tour(card);
    let mut feed = jambolive::Feed::new();
    let (first, rest) = card.split_at(feed::size(r, card.len()));
    same(|| "jambolive::Feed::push".to_string(), feed.push(first), Ok(first.len().min(CARD_BYTES)))?;
    same(|| "jambolive::Feed::push".to_string(), feed.push(rest), Ok(card.len().min(CARD_BYTES)))?;
    same(|| "jambolive::Feed::finish".to_string(), &feed.finish(), &tour)?;
    same(|| "jambolive::tour".to_string(), tour.as_ref().map_or_else(|&r| code(r), |_| 0), fault)?;
    Ok(tour.ok().map(|t| (t.candidates, t.moves, t.length.to_bits())))
}

/// The bytes in a few pieces into a byte room at the edge of a guard page, each piece at one too, and asked for a tour into
/// a room of this size: what the end answers, with the tour's room and the two numbers.
fn fed(r: &Random, memory: &mut Memory, bytes: &[u8], room: &[u8]) -> Result<(u64, Vec<u8>, u64, u64), String> {
    let [piece, tour, first, second, held, state] = memory;
    let edge = |r: &Random| r.one_in(2);
    let filled = vec![UNTOUCHED as u8; CARD_BYTES + r.pick(&[0, 0, 1, BLOCK])];
    let held = held.lend(&filled, edge(r));
    let state = state.lend(&[0; 8], edge(r));
    let (mut at, mut pieces, mut number_due) = (0, r.index(6), 0);
    while at < bytes.len() {
        let size = if pieces == 0 { bytes.len() - at } else { feed::size(r, bytes.len() - at) };
        let piece = piece.lend(&bytes[at..at + size], edge(r));
        let lent_number = state.as_mut_ptr().cast();
        let code = unsafe { jl_feed(lent_number, held.as_mut_ptr(), held.len(), piece.as_ptr(), piece.len()) };
        same(|| format!("{size} bytes fed behind {at}"), code, 0)?;
        (at, pieces) = (at + size, pieces.saturating_sub(1));
        let kept = at.min(CARD_BYTES);
        number_due = 4 * kept as u64 + 2 * u64::from(at > CARD_BYTES);
        same(|| format!("the state after {at} bytes"), told(state), number_due)?;
        same(|| format!("the byte room after {at} bytes"), &*held, &[&bytes[..kept], &filled[kept..]].concat())?;
    }
    let tour = tour.lend(room, edge(r));
    let (first, second) = (first.lend(&number(), edge(r)), second.lend(&number(), edge(r)));
    let (moves, length) = (first.as_mut_ptr().cast(), second.as_mut_ptr().cast());
    let before = held.to_vec();
    let lent_number = state.as_mut_ptr().cast();
    let code = unsafe { jl_ask(lent_number, held.as_ptr(), held.len(), tour.as_mut_ptr(), tour.len(), moves, length) };
    same(|| "the byte room at the end".to_string(), &*held, &before)?;
    same(|| "the end's state".to_string(), told(state), number_due + 1)?;
    Ok((code, tour.to_vec(), told(first), told(second)))
}

/// A piece and an asking in a state that perhaps no call gave, with a byte room of any size.
fn in_any_state(r: &Random, memory: &mut Memory, bytes: &[u8]) -> Result<u64, String> {
    let [piece, tour, first, second, held, lent_state] = memory;
    let state = r.pick(&[r.next(), 4 * r.below(2 * CARD_BYTES as u64) + r.below(4), u64::MAX - r.below(8)]);
    let mut room = bytes.to_vec();
    room.resize(r.pick(&[0, CARD_BYTES - 1, CARD_BYTES, CARD_BYTES + 1, LARGEST]), UNTOUCHED as u8);
    let what = || format!("state {state}, {} bytes of room, {} more", room.len(), bytes.len());
    let edge = |r: &Random| r.one_in(2);
    let held = held.lend(&room, edge(r));
    let lent = lent_state.lend(&state.to_ne_bytes(), edge(r));
    let piece = piece.lend(bytes, edge(r));
    let lent_number = lent.as_mut_ptr().cast();
    let code = unsafe { jl_feed(lent_number, held.as_mut_ptr(), held.len(), piece.as_ptr(), piece.len()) };
    same(what, (code, told(lent), held.to_vec()), feed::fed_due(state, &room, bytes))?;

    held.copy_from_slice(&room);
    lent.copy_from_slice(&state.to_ne_bytes());
    let tour = tour.lend(&[UNTOUCHED as u8; CONTOURS], edge(r));
    let (first, second) = (first.lend(&number(), edge(r)), second.lend(&number(), edge(r)));
    let (moves, length) = (first.as_mut_ptr().cast(), second.as_mut_ptr().cast());
    let code = unsafe { jl_ask(lent_number, held.as_ptr(), held.len(), tour.as_mut_ptr(), tour.len(), moves, length) };
    let left = Left { code, room: tour.to_vec(), moves: told(first), length: told(second) };
    same(what, (told(lent), left), feed::asked_due(state, &room, CONTOURS)?)
}

/// Without the original there is nothing to hold bridges against.
#[cfg(not(feature = "original"))]
fn bridged(_: &Random, _: &mut Memory, _: &[u8]) -> Result<u64, String> {
    Ok(0)
}

/// A question about bridges, now and then with the contour that stands in these bytes or with any bytes for numbers: the
/// contour, the centres and the room each at the edge of a guard page.
#[cfg(feature = "original")]
fn bridged(r: &Random, memory: &mut Memory, bytes: &[u8]) -> Result<u64, String> {
    use crate::bridge;
    use crate::exports::jl_bridges;
    use crate::limits::{BRIDGE_NUMBERS, VERTEX, VERTICES};
    let numbers = |bytes: &[u8]| -> Vec<f64> {
        bytes.chunks_exact(8).map(|b| f64::from_ne_bytes(b.try_into().unwrap())).collect()
    };
    let flat = |numbers: &[f64]| -> Vec<u8> { numbers.iter().flat_map(|x| x.to_ne_bytes()).collect() };
    let mut q = bridge::any(r);
    let at = r.pick(&[0, BLOCK + contour::VERTICES]);
    if r.one_in(3) && at < bytes.len() {
        let end = bytes.len().min(at + VERTEX * r.from(1, VERTICES + 1));
        q.numbers = numbers(&bytes[at..end]);
    }
    let edge = |r: &Random| r.one_in(2);
    let [outline, room, centres, ..] = memory;
    let (outline, centres) = (outline.lend(&flat(&q.numbers), edge(r)), centres.lend(&flat(&q.centres), edge(r)));
    let room = room.lend(&[UNTOUCHED as u8; 8 * BRIDGE_NUMBERS], edge(r));
    let (contour, asked) = (outline.as_ptr().cast(), centres.as_ptr().cast());
    let code =
        unsafe { jl_bridges(contour, q.numbers.len(), q.width, asked, q.centres.len(), room.as_mut_ptr().cast()) };
    same(|| "what was asked about".to_string(), (&*outline, &*centres), (&flat(&q.numbers), &flat(&q.centres)))?;
    same(|| format!("{q:?}"), (code, room.chunks_exact(8).map(told).collect()), bridge::due(&q))
}

/// What is lent: the card or a piece of it, the tour's room, two numbers, the byte room of a feed and its state. A question
/// about bridges is lent the first three.
type Memory = [Guarded; 6];

/// Asks every export, and the safe calls, about these bytes. Says whether they are a card, or what differs.
fn ask(r: &Random, memory: &mut Memory, bytes: &[u8]) -> Result<bool, String> {
    let due = reading::card(bytes);
    let what = || format!("{} bytes, due {:?}", bytes.len(), due.as_ref().err());
    let [card, tour, first, second, ..] = memory;
    let edge = |r: &Random| r.one_in(2);
    let card = card.lend(bytes, edge(r));
    let room = vec![UNTOUCHED as u8; r.pick(&[0, 1, CONTOURS - 1, CONTOURS, CONTOURS + 1, r.index(ROOM)])];
    let tour = tour.lend(&room, edge(r));
    let first = first.lend(&number(), edge(r));
    let second = second.lend(&number(), edge(r));

    let n = due.as_ref().map_or(0, |card| card.contours.len());
    let fault = due.as_ref().err().map_or(0, |&(number, place)| refused(number, place));
    same(what, unsafe { jl_check(card.as_ptr(), card.len()) }, fault)?;
    let code = if fault == 0 && room.len() < n { refused(13, n as u64) } else { fault };
    let (moves, length) = (first.as_mut_ptr().cast(), second.as_mut_ptr().cast());
    let ours = unsafe { jl_tour(card.as_ptr(), card.len(), tour.as_mut_ptr(), tour.len(), moves, length) };
    same(what, ours, code)?;
    if code != 0 {
        same(what, (&*tour, told(first), told(second)), (&*room, UNTOUCHED, UNTOUCHED))?;
    } else {
        same(what, &tour[n..], &room[n..])?;
    }
    let whole = (code, tour.to_vec(), told(first), told(second));
    let tour = (code == 0).then(|| (tour[..n].to_vec(), told(first), told(second)));
    same(|| "the card".to_string(), &*card, bytes)?;
    let tours: Vec<Tour> = tour.into_iter().chain(safe(r, card, fault)?).collect();
    same(|| "the card".to_string(), &*card, bytes)?;

    first.copy_from_slice(&number());
    second.copy_from_slice(&number());
    let most = CANDIDATES as u64;
    let candidate = r.pick(&[0, 1, most - 1, most, 255, u64::MAX, r.below(most + 10)]);
    let (contour, within) = (first.as_mut_ptr().cast(), second.as_mut_ptr().cast());
    let ours = unsafe { jl_place(card.as_ptr(), card.len(), candidate, contour, within) };
    let place = (ours, told(first), told(second));
    match &due {
        Err(_) => same(what, place, (fault, UNTOUCHED, UNTOUCHED))?,
        Ok(card) => answered(card, &tours, candidate, place)?,
    };
    same(|| "the card".to_string(), &*card, bytes)?;
    same(what, fed(r, memory, bytes, &room)?, whole)?;
    in_any_state(r, memory, bytes)?;
    bridged(r, memory, bytes)?;
    Ok(due.is_ok())
}

/// Without the original the export and the safe call can only be held against each other.
#[cfg(not(feature = "original"))]
fn answered(card: &crate::card::Card, tours: &[Tour], _: u64, _: (u64, u64, u64)) -> Result<u64, String> {
    tours.iter().map(|tour| same(|| format!("{card:?}"), tour, &tours[0])).sum()
}

/// An accepted card gets the original's tour wherever there was room, and a candidate is where the original has it.
#[cfg(feature = "original")]
fn answered(card: &crate::card::Card, tours: &[Tour], candidate: u64, place: (u64, u64, u64)) -> Result<u64, String> {
    let problem = crate::answer::Problem::of(card);
    let found = problem.search(card.limit);
    let due = (crate::search::bytes(&found.tour), found.moves, found.length);
    for tour in tours {
        same(|| format!("{card:?}"), tour, &due)?;
    }
    same(|| format!("{card:?}"), place, crate::tour::place_due(&problem, candidate))
}

/// Runs for a time from a seed. A difference leaves its bytes in `failed`.
pub fn run(seed: u64, seconds: u64, failed: &std::path::Path) -> bool {
    let began = Instant::now();
    let mut memory = [LARGEST, ROOM, 8, 8, LARGEST, 8].map(Guarded::new);
    let (mut coverage, mut kept) = (Coverage::begin(), Vec::new());
    let (mut case, mut accepted) = (0u64, 0u64);
    println!("fuzz: seed {seed}, {seconds} s, {}", coverage.kind());
    if cfg!(not(feature = "original")) {
        println!(
            "fuzz: the original is not at hand: tours are held only against each other, places and bridges against nothing"
        );
    }
    while began.elapsed().as_secs() < seconds {
        let r = Random::of(seed, "fuzz", case);
        let bytes = input(&r, &kept);
        // also where the run is stopped by a guard page, the bytes are there
        std::fs::write(failed, &bytes).expect("the bytes can be written");
        coverage.clear();
        match ask(&r, &mut memory, &bytes) {
            Ok(sound) => accepted += u64::from(sound),
            Err(how) => {
                println!("fuzz: DIFFERS at case {case} of seed {seed}, bytes in {}: {how}", failed.display());
                return false;
            }
        }
        if coverage.found() {
            kept.push(bytes);
        }
        case += 1;
    }
    std::fs::remove_file(failed).expect("the bytes can be removed");
    println!("fuzz: {case} inputs agreed, {accepted} of them cards; {} kept, {}", kept.len(), coverage.told());
    true
}
