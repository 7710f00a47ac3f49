//! Good cards against the original: tour, moves and length, the room's rest, where a candidate is, and the list that the Rust
//! host prints. Rooms that are too small are refused.

use crate::answer::Problem;
use crate::card::Card;
use crate::doors::refused;
use crate::exports::{Left, UNTOUCHED, check, place, tour};
use crate::generate::{good, limit_near};
use crate::limits::CANDIDATES;
use crate::random::Random;
use crate::run::{Tally, Wanted, by_version, same};

/// The contour of a candidate and its number within, or 15 where the card has no such candidate.
pub fn place_due(problem: &Problem, candidate: u64) -> (u64, u64, u64) {
    if candidate >= problem.instance.total_candidates as u64 {
        return (refused(15, candidate), UNTOUCHED, UNTOUCHED);
    }
    let (contour, within) = problem.instance.global_to_local(candidate as usize);
    (0, contour as u64, within as u64)
}

const ALL: u64 = 200_000;

/// Compares what is said of one card.
pub fn one(r: &Random, card: &Card, problem: Problem, by_rule: &Tally) -> Result<u64, String> {
    let n = card.contours.len();
    let bytes = card.bytes();
    let what = || format!("{card:?}");
    same(what, check(&bytes)?, 0)?;
    if n > 0 {
        let small = r.index(n);
        same(what, tour(&bytes, small)?, Left::refused(refused(13, n as u64), small))?;
    }
    let found = problem.search(card.limit);
    if card.limit == 0 {
        same(what, &found.tour, &problem.unlimited())?;
    }
    let room = n + r.index(3);
    same(what, tour(&bytes, room)?, Left::accepted(&found.tour, found.moves, found.length, room))?;
    let candidate = r.pick(&[r.below(CANDIDATES as u64), r.below(1 << 32), problem.instance.total_candidates as u64]);
    same(what, place(&bytes, candidate)?, place_due(&problem, candidate))?;
    let agreed = same(what, jambolive::list(&bytes), problem.list(card, &found))?;
    by_rule.count(problem.shows_the_rule(card, &found));
    Ok(agreed)
}

pub fn compare(wanted: Wanted) -> bool {
    let by_rule = Tally::of("good cards with another tour than by the written pairs alone", 20);
    let of_any_size = |r: &Random, version| {
        let mut card = good(r, version);
        let problem = Problem::of(&card);
        limit_near(r, &mut card, || problem.search(0).moves as u32);
        one(r, &card, problem, &by_rule)
    };
    by_version(wanted, "good cards", ALL, of_any_size) && by_rule.enough(wanted.of(ALL))
}
