//! The pairs by rule as the second reading finds them, on good cards of version 2, against the original's own `build`. Its order
//! between parts is that of a hash map, so the pairs are compared in order of ids, and the original's search must be the same
//! in any order of them.

use crate::answer::Problem;
use crate::generate::good;
use crate::random::Random;
use crate::reading::joined;
use crate::run::{Tally, Wanted, cases, same};

fn sorted(pairs: &[(usize, usize)]) -> Vec<(usize, usize)> {
    let mut sorted = pairs.to_vec();
    sorted.sort();
    sorted
}

const ALL: u64 = 60_000;

fn one(r: &Random, ruled: &Tally) -> Result<u64, String> {
    let card = good(r, 2);
    let problem = Problem::of(&card);
    let id = |k: usize| card.contours[k].id as usize;
    let mut pairs: Vec<_> = joined(&card).into_iter().map(|(before, after)| (id(before), id(after))).collect();
    let what = || format!("{card:?}");
    same(what, sorted(&pairs), sorted(problem.dag.precedences()))?;
    ruled.count(pairs.len() > card.pairs.len());
    r.shuffle(&mut pairs);
    let found = problem.search(card.limit);
    same(what, problem.by(pairs).search(card.limit), found)
}

pub fn compare(wanted: Wanted) -> bool {
    let ruled = Tally::of("cards with pairs by rule", 3);
    cases(wanted, "pairs by rule", ALL, |r| one(r, &ruled)) && ruled.enough(wanted.of(ALL))
}
