//! `differential [--percent P] [--quick-in-full] [--seed S] [--seconds T] [PART..]`: compares the parts, all where none
//! is named, over P percent of the full number of cases, the quick ones in full size where that is asked for, and fails
//! where an answer differs or a name is no part's. With a time it goes on from seed to seed until the time is over.

use oracle::run::Wanted;
use oracle::{
    bridge, candidates, check, cost, exact, feed, grid, hierarchy, large, moved, root, rules, search, start, table,
    tour,
};

/// A part's name, how it is compared, and whether that is quick: in full size a few seconds.
type Part = (&'static str, fn(Wanted) -> bool, bool);

const PARTS: [Part; 16] = [
    ("root", root::compare, true),
    ("cost", cost::compare, true),
    ("hierarchy", hierarchy::compare, true),
    ("moved", moved::compare, true),
    ("candidates", candidates::compare, true),
    ("bridge", bridge::compare, true),
    ("table", table::compare, true),
    ("rules", rules::compare, false),
    ("start", start::compare, false),
    ("search", search::compare, false),
    ("check", check::compare, true),
    ("tour", tour::compare, false),
    ("feed", feed::compare, true),
    ("large", large::compare, false),
    ("grid", grid::compare, false),
    ("exact", exact::compare, true),
];

fn main() {
    let mut wanted = Wanted { seed: 1, percent: 100 };
    let (mut seconds, mut quick_in_full) = (0, false);
    let mut named = Vec::new();
    let mut words = std::env::args().skip(1);
    while let Some(word) = words.next() {
        let mut number = || words.next().and_then(|n| n.parse().ok()).expect("a number after the word");
        match word.as_str() {
            "--percent" => wanted.percent = number(),
            "--quick-in-full" => quick_in_full = true,
            "--seed" => wanted.seed = number(),
            "--seconds" => seconds = number(),
            _ if PARTS.iter().any(|part| part.0 == word) => named.push(word),
            _ => {
                eprintln!(
                    "differential: no part is named {word}; the parts are {}",
                    PARTS.map(|part| part.0).join(", ")
                );
                std::process::exit(2);
            }
        }
    }
    let began = std::time::Instant::now();
    loop {
        let but = if quick_in_full { ", quick parts in full" } else { "" };
        println!("differential: seed {}, {} percent{but}", wanted.seed, wanted.percent);
        let chosen = PARTS.iter().filter(|p| named.iter().any(|n| n == p.0) || named.is_empty());
        let size = |quick: bool| if quick && quick_in_full { Wanted { percent: 100, ..wanted } } else { wanted };
        if !chosen.fold(true, |agreed, &(_, compare, quick)| compare(size(quick)) & agreed) {
            std::process::exit(1);
        }
        if began.elapsed().as_secs() >= seconds {
            return;
        }
        wanted.seed += 1;
    }
}
