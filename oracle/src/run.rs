//! Runs a comparison over many cases on all processors, and says how many agreed.

use crate::random::Random;
use std::sync::Mutex;
use std::sync::atomic::{AtomicU64, Ordering};

/// What a run is asked to do.
#[derive(Clone, Copy)]
pub struct Wanted {
    pub seed: u64,
    /// Cases are this many percent of the full size.
    pub percent: u64,
}

impl Wanted {
    /// How many cases of a full size.
    pub fn of(self, full: u64) -> u64 {
        (full * self.percent).div_ceil(100)
    }
}

/// Tries cases 0, 1, .. of a part. `compare` says how many questions agreed, or how the first differed.
/// Prints the sum, or the first difference with what repeats it, and says whether all agreed.
pub fn cases(wanted: Wanted, part: &str, full: u64, compare: impl Fn(&Random) -> Result<u64, String> + Sync) -> bool {
    let count = wanted.of(full);
    let began = std::time::Instant::now();
    let (next, agreed) = (AtomicU64::new(0), AtomicU64::new(0));
    let differs: Mutex<Option<(u64, String)>> = Mutex::new(None);
    let work = || loop {
        let case = next.fetch_add(1, Ordering::Relaxed);
        if case >= count {
            break;
        }
        match compare(&Random::of(wanted.seed, part, case)) {
            Ok(questions) => _ = agreed.fetch_add(questions, Ordering::Relaxed),
            Err(how) => {
                next.store(count, Ordering::Relaxed);
                differs.lock().unwrap().get_or_insert((case, how));
            }
        }
    };
    std::thread::scope(|s| {
        for _ in 0..std::thread::available_parallelism().map_or(1, |n| n.get()) {
            s.spawn(work);
        }
    });
    if let Some((case, how)) = differs.into_inner().unwrap() {
        println!("{part}: DIFFERS at case {case} of seed {}: {how}", wanted.seed);
        return false;
    }
    println!("{part}: {} agreed ({count} cases, {:.1} s)", agreed.into_inner(), began.elapsed().as_secs_f64());
    true
}

/// The same with cards of either version, half of the cases each.
pub fn by_version(
    wanted: Wanted,
    part: &str,
    full: u64,
    compare: impl Fn(&Random, u8) -> Result<u64, String> + Sync,
) -> bool {
    let half = |version| cases(wanted, &format!("{part}, version {version}"), full / 2, |r| compare(r, version));
    half(1) & half(2)
}

/// Counts the cases of a kind that a run must meet often enough: one in so many.
pub struct Tally {
    what: &'static str,
    one_in: u64,
    met: AtomicU64,
}

impl Tally {
    pub fn of(what: &'static str, one_in: u64) -> Tally {
        Tally { what, one_in, met: AtomicU64::new(0) }
    }

    pub fn count(&self, met: bool) {
        self.met.fetch_add(u64::from(met), Ordering::Relaxed);
    }

    /// Prints how many of the cases there were, and says whether that is enough.
    pub fn enough(self, cases: u64) -> bool {
        let met = self.met.into_inner();
        let enough = met * self.one_in >= cases;
        println!("{met} {}{}", self.what, if enough { "" } else { ": TOO FEW" });
        enough
    }
}

/// Whether a case is of a kind.
type Test<T> = Box<dyn Fn(&T) -> bool + Sync>;

/// The kinds of cases that a run must meet often enough, each with what tells a case of it.
pub struct Kinds<T>(Vec<(Tally, Test<T>)>);

impl<T> Kinds<T> {
    pub fn none() -> Kinds<T> {
        Kinds(Vec::new())
    }

    /// One kind more: one in so many cases must be of it.
    pub fn and(mut self, what: &'static str, one_in: u64, is: impl Fn(&T) -> bool + Sync + 'static) -> Kinds<T> {
        self.0.push((Tally::of(what, one_in), Box::new(is)));
        self
    }

    pub fn count(&self, case: &T) {
        self.0.iter().for_each(|(tally, is)| tally.count(is(case)));
    }

    /// Prints how many of the cases were of each kind, and says whether those are enough.
    pub fn enough(self, cases: u64) -> bool {
        self.0.into_iter().fold(true, |all, (tally, _)| tally.enough(cases) & all)
    }
}

/// How many candidates of a contour are asked for, told by a kind each.
pub const ASKED_FOR: [&str; 8] = ["with c = 1", "with 2", "with 3", "with 4", "with 5", "with 6", "with 7", "with 8"];

/// Two answers that must be the same.
pub fn same<T: PartialEq + std::fmt::Debug>(what: impl FnOnce() -> String, ours: T, theirs: T) -> Result<u64, String> {
    if ours == theirs { Ok(1) } else { Err(format!("{}: ours {ours:x?}, theirs {theirs:x?}", what())) }
}
