//! A card in pieces: however it is cut, the end is the whole's.

use jambolive::{CARD_BYTES, Feed, Refusal, tour};
use std::fs;
use std::path::PathBuf;

fn example(name: &str) -> Vec<u8> {
    fs::read(PathBuf::from(env!("CARGO_MANIFEST_DIR")).join("../../examples").join(name)).unwrap()
}

/// Feeds the pieces, looking at what is held after each.
fn fed<'a>(pieces: impl IntoIterator<Item = &'a [u8]>) -> Feed {
    let (mut feed, mut whole) = (Feed::new(), Vec::new());
    for piece in pieces {
        whole.extend_from_slice(piece);
        let held = whole.len().min(CARD_BYTES);
        assert_eq!(feed.push(piece), Ok(held));
        assert_eq!(feed.held(), &whole[..held]);
    }
    feed
}

#[test]
fn every_cut_of_a_small_card() {
    let card = example("job-41.card");
    for at in 0..=card.len() {
        let mut feed = fed([&card[..at], &[], &card[at..]]);
        assert_eq!(feed.finish(), tour(&card), "cut at {at}");
    }
}

#[test]
fn byte_by_byte() {
    for name in ["job-41.card", "refused.card", "panel.card"] {
        let card = example(name);
        assert_eq!(fed(card.chunks(1)).finish(), tour(&card), "{name}");
    }
}

#[test]
fn nothing_is_a_card_of_no_bytes() {
    assert_eq!(Feed::new().finish(), Err(Refusal::Length { bytes: 0 }));
    assert_eq!(Feed::default().finish(), tour(&[]));
}

/// The longest card is no longer than that; a byte more is, also where it comes in pieces of their own.
#[test]
fn longer_than_any_card() {
    let longer = Err(Refusal::Length { bytes: CARD_BYTES as u32 + 1 });
    let full = [1; CARD_BYTES];
    let mut feed = fed([&full[..], &[]]);
    assert_eq!(feed.clone().finish(), Err(Refusal::Check { block: 0 }));
    assert_eq!(feed.push(&[1]), Ok(CARD_BYTES));
    assert_eq!(feed.push(&[]), Ok(CARD_BYTES));
    assert_eq!(feed.finish(), longer);
    assert_eq!(fed([&full[1..], &full]).finish(), longer);
}

#[test]
fn the_first_asking_is_the_end() {
    let card = example("slit.card");
    let mut feed = fed(card.chunks(512));
    assert_eq!(feed.finish(), tour(&card));
    for piece in [&[][..], &[1]] {
        assert_eq!(feed.push(piece), Err(Refusal::Ended));
    }
    assert_eq!(feed.held(), card);
    assert_eq!(feed.finish(), tour(&card));
    let mut short = fed([&card[..511]]);
    for _ in 0..2 {
        assert_eq!(short.finish(), Err(Refusal::Length { bytes: 511 }));
    }
    assert_eq!(short.push(&card[511..]), Err(Refusal::Ended));
}
