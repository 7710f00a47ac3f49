//! The example cards, and what every call promises about the memory it is lent.

use jambolive::{BLOCK, CARD_BYTES, CONTOURS, Refusal, check, list, place, tour, tour_into};
use std::fs;
use std::path::PathBuf;

fn example(name: &str) -> Vec<u8> {
    let folder = PathBuf::from(env!("CARGO_MANIFEST_DIR")).join("../../examples");
    fs::read(folder.join(name)).unwrap()
}

/// The card with another byte at this place, and the check that its block then has: byte p counts p + 1 times.
fn with_byte(card: &[u8], at: usize, byte: u8) -> Vec<u8> {
    let mut card = card.to_vec();
    let check_at = at / BLOCK * BLOCK + BLOCK - 4;
    let weight = (at % BLOCK + 1) as u32;
    let sum = u32::from_le_bytes(card[check_at..check_at + 4].try_into().unwrap());
    let sum = sum - weight * u32::from(card[at]) + weight * u32::from(byte);
    card[at] = byte;
    card[check_at..check_at + 4].copy_from_slice(&sum.to_le_bytes());
    card
}

#[test]
fn every_example_prints_its_list() {
    for name in ["job-41", "sheet", "refused", "slit", "holes", "panel", "grid"] {
        let due = String::from_utf8(example(&format!("{name}.list"))).unwrap();
        assert_eq!(list(&example(&format!("{name}.card"))), due, "{name}");
    }
}

#[test]
fn job_41() {
    let card = example("job-41.card");
    assert_eq!(check(&card), Ok(()));
    let found = tour(&card).unwrap();
    assert_eq!((found.candidates.as_slice(), found.moves, found.length), ([2, 1, 0].as_slice(), 1, 24.0));
}

/// The candidate taken in the first turn is kept, though the next one tried is no better.
#[test]
fn slit() {
    let found = tour(&example("slit.card")).unwrap();
    assert_eq!((found.candidates.as_slice(), found.moves, found.length), ([0, 3, 4].as_slice(), 6, 6.0));
}

/// The hole is cut before the outline of its part, which is nearer, though no pair says so; and a block of another version
/// than the head's is refused there.
#[test]
fn holes() {
    let card = example("holes.card");
    assert_eq!(tour(&card).unwrap().candidates, [2, 1, 0]);
    let last = card.len() - BLOCK;
    assert_eq!(check(&with_byte(&card, last + 1, 1)), Err(Refusal::Start { block: 3 }));
}

/// The square is cut at a third of its way, which is no point of the grid: moved there the way is another than where the card
/// does not ask. A byte above 1 asks for nothing that there is.
#[test]
fn grid() {
    let asks_at = 8 + 34;
    let card = example("grid.card");
    let moved = tour(&card).unwrap();
    let found = tour(&with_byte(&card, asks_at, 0)).unwrap();
    assert_eq!(moved.candidates, found.candidates);
    assert!(moved.length != found.length && (moved.length - found.length).abs() < 1.0 / 1024.0);
    assert_eq!(check(&with_byte(&card, asks_at, 2)), Err(Refusal::Field { field: 8 }));
    // job 41 is of version 1, where the byte is spare
    assert_eq!(check(&with_byte(&example("job-41.card"), asks_at, 1)), Err(Refusal::Spare { block: 0 }));
}

/// As many contours as a card has: each is cut once, the outline last.
#[test]
fn panel() {
    let card = example("panel.card");
    let found = tour(&card).unwrap();
    assert_eq!((found.candidates.len(), found.candidates[CONTOURS - 1]), (CONTOURS, 0));
    let mut cut = found.candidates.clone();
    cut.sort();
    assert!((0..CONTOURS as u8).eq(cut));
}

#[test]
fn a_candidate_has_a_place_or_is_refused() {
    let card = example("job-41.card");
    assert_eq!(place(&card, 2), Ok((2, 0)));
    for number in [3, u8::MAX] {
        assert_eq!(place(&card, number), Err(Refusal::Candidate { number: u32::from(number) }));
    }
}

#[test]
fn the_rest_of_a_room_is_kept() {
    let mut room = [99; CONTOURS];
    tour_into(&example("job-41.card"), &mut room).unwrap();
    assert_eq!(room[..3], [2, 1, 0]);
    assert_eq!(room[3..], [99; CONTOURS - 3]);
}

#[test]
fn a_small_room_is_refused_and_kept() {
    let mut room = [99; 2];
    assert_eq!(tour_into(&example("job-41.card"), &mut room), Err(Refusal::Room { needed: 3 }));
    assert_eq!(room, [99; 2]);
}

#[test]
fn any_bytes_get_an_answer() {
    assert_eq!(check(&[]), Err(Refusal::Length { bytes: 0 }));
    assert_eq!(check(&[7; 2 * CARD_BYTES]), Err(Refusal::Length { bytes: CARD_BYTES as u32 + 1 }));
    assert_eq!(check(&[0; BLOCK]), Err(Refusal::Start { block: 0 }));
    assert_eq!(check(&[1; BLOCK]), Err(Refusal::Check { block: 0 }));
}
