//! Damaged cards against the second reading: the refusal of the check, and of the tour and of a candidate's place, which
//! is the same and leaves every lent byte alone.

use crate::card::seal;
use crate::doors::refused;
use crate::exports::{self, Left, UNTOUCHED};
use crate::generate::{damaged, mutated, regridded, relabelled};
use crate::limits::{BLOCK, CHECK_AT, CONTOURS, VERSION_AT, contour, head};
use crate::random::Random;
use crate::reading::{Refusal, refusal};
use crate::run::{Kinds, Wanted, by_version, same};
use std::sync::atomic::{AtomicU64, Ordering};

unsafe extern "C" {
    fn probe_check(card: *const u8, length: usize) -> u64;
}

/// The check of a card, as the crate `card` makes it.
pub fn check(card: &[u8]) -> u64 {
    unsafe { probe_check(card.as_ptr(), card.len()) }
}

/// How often each number was met: 0 for a good card, then those of a check.
type Seen = [AtomicU64; 13];

/// A card's bytes: whether they say version 2, the byte by which that asks for the grid, and the refusal that is due.
struct Case {
    bytes: Vec<u8>,
    two: bool,
    grid: u8,
    due: Option<Refusal>,
}

impl Case {
    fn of(bytes: Vec<u8>) -> Case {
        let byte = |at: usize| bytes.get(at).copied().unwrap_or(0);
        let (two, grid, due) = (byte(VERSION_AT) == 2, byte(head::GRID), refusal(&bytes));
        Case { bytes, two, grid, due }
    }

    /// The number that is due, 0 for a good card.
    fn number(&self) -> u64 {
        self.due.map_or(0, |due| due.0)
    }
}

/// What a run meets besides each number: cycles that the written pairs alone do not make, and of the byte that asks for the
/// grid good cards with it, a wrong one told, a wrong one that another field before it hides, and one where version 1 has none.
fn kinds() -> Kinds<Case> {
    Kinds::none()
        .and("cards refused with 12 that are not, or elsewhere, without the pairs by rule", 1000, |case: &Case| {
            case.number() == 12 && refusal(&without_parts(&case.bytes)) != case.due
        })
        .and("good cards that ask for the grid", 20, |case| case.two && case.grid == 1 && case.due.is_none())
        .and("cards refused with 4 at 8", 100, |case| case.due == Some((4, 8)))
        .and("cards refused with another 4 before that", 1000, |case| {
            case.two && case.grid > 1 && case.number() == 4 && case.due != Some((4, 8))
        })
        .and("cards of version 1 refused with 7 at 0 for asking", 100, |case| {
            !case.two && case.grid > 0 && case.due == Some((7, 0))
        })
}

/// A card without its parts: no pair of it is by rule.
fn without_parts(bytes: &[u8]) -> Vec<u8> {
    let mut bytes = bytes.to_vec();
    for block in bytes.chunks_exact_mut(BLOCK).filter(|block| block[0] == 2) {
        block[contour::PART..CHECK_AT].fill(0);
    }
    seal(&mut bytes);
    bytes
}

fn one(bytes: Vec<u8>, seen: &[Seen; 2], kinds: &Kinds<Case>) -> Result<u64, String> {
    let case = Case::of(bytes);
    seen[usize::from(case.two)][case.number() as usize].fetch_add(1, Ordering::Relaxed);
    kinds.count(&case);
    let code = case.due.map_or(0, |(number, place)| refused(number, place));
    same(|| "check".to_string(), check(&case.bytes), code)?;
    exported(&case.bytes, code)
}

/// The exports answer the same, and what is refused leaves everything as it was. A good card has no candidate of the
/// largest number; a card's own refusal comes before a candidate's.
fn exported(bytes: &[u8], code: u64) -> Result<u64, String> {
    let place = |candidate: u64, due: u64| {
        same(|| format!("jl_place of {candidate}"), exports::place(bytes, candidate)?, (due, UNTOUCHED, UNTOUCHED))
    };
    same(|| "jl_check".to_string(), exports::check(bytes)?, code)?;
    if code == 0 {
        return place(u64::MAX, refused(15, u64::MAX));
    }
    place(0, code)?;
    place(u64::MAX, code)?;
    same(|| "jl_tour".to_string(), exports::tour(bytes, CONTOURS)?, Left::refused(code, CONTOURS))
}

/// Prints how often each number was met in cards that say these versions, and says whether each was.
fn each_met(versions: &str, seen: Seen) -> bool {
    let seen = seen.map(AtomicU64::into_inner);
    let counts: Vec<String> = seen.iter().enumerate().map(|(k, count)| format!("{k}: {count}")).collect();
    println!("refusals met, {versions}, by number (0: a good card): {}", counts.join(", "));
    if let Some(k) = seen.iter().position(|&count| count == 0) {
        println!("damaged cards: no card of {versions} was refused with {k}");
    }
    !seen.contains(&0)
}

const DAMAGED: u64 = 200_000;

/// Compares, and fails too where a number was not met at all: even one percent meets each some dozen times.
pub fn compare(wanted: Wanted) -> bool {
    let (seen, kinds): ([Seen; 2], _) = (Default::default(), kinds());
    let any = |r: &Random, version| match r.below(8) {
        0 => regridded(r, version),
        1 | 2 => relabelled(r, version),
        _ => damaged(r, version),
    };
    let agreed = by_version(wanted, "damaged cards", DAMAGED, |r, version| one(any(r, version), &seen, &kinds))
        & by_version(wanted, "cards with one byte changed", 150_000, |r, version| {
            one(mutated(r, version), &seen, &kinds)
        });
    let [others, two] = seen;
    agreed & each_met("version 1 and others", others) & each_met("version 2", two) & kinds.enough(wanted.of(DAMAGED))
}
