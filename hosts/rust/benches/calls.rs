//! `cargo bench --package jambolive`: how long a check and a tour of each example card take, and its tour where it comes
//! block by block, into a feed or into a list of bytes; the shortest of many rounds.

use std::hint::black_box;
use std::time::{Duration, Instant};

fn shortest(mut call: impl FnMut()) -> Duration {
    let once = |_| {
        let began = Instant::now();
        call();
        began.elapsed()
    };
    (0..200).map(once).min().unwrap()
}

fn main() {
    for name in ["job-41", "sheet", "refused", "slit", "holes", "panel", "grid"] {
        let folder = concat!(env!("CARGO_MANIFEST_DIR"), "/../../examples");
        let card = std::fs::read(format!("{folder}/{name}.card")).unwrap();
        let check = shortest(|| _ = black_box(jambolive::check(black_box(&card))));
        let tour = shortest(|| _ = black_box(jambolive::tour(black_box(&card))));
        let fed = shortest(|| {
            let mut feed = jambolive::Feed::new();
            card.chunks(jambolive::BLOCK).for_each(|piece| _ = feed.push(black_box(piece)));
            _ = black_box(feed.finish());
        });
        let collected = shortest(|| {
            let mut bytes = Vec::with_capacity(jambolive::CARD_BYTES);
            card.chunks(jambolive::BLOCK).for_each(|piece| bytes.extend_from_slice(black_box(piece)));
            _ = black_box(jambolive::tour(black_box(&bytes)));
        });
        println!("{name}: check {check:?}, tour {tour:?}, fed {fed:?}, collected {collected:?}");
    }
}
