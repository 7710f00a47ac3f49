//! `fuzz SEED SECONDS FILE`: any bytes through the exports, for a time from a seed. FILE holds the bytes that a
//! difference, or a touched guard page, came from.

fn main() {
    let words: Vec<String> = std::env::args().skip(1).collect();
    let [seed, seconds, failed] = &words[..] else { panic!("fuzz SEED SECONDS FILE") };
    let number = |word: &String| word.parse().expect("a number");
    if !oracle::fuzz::run(number(seed), number(seconds), failed.as_ref()) {
        std::process::exit(1);
    }
}
