//! Good cards that ask for the move to the grid against the original with that move, compared as in tour.rs.

use crate::answer::{Found, Problem, stops};
use crate::card::Card;
use crate::generate::{good, gridded, limit_near};
use crate::moved::half;
use crate::random::Random;
use crate::run::{Kinds, Tally, Wanted, cases};
use crate::tour;

const ALL: u64 = 120_000;

/// A card with what is found with the move and without it.
struct Seen {
    card: Card,
    with: Found,
    without: Found,
}

impl Seen {
    fn of(card: &Card, problem: &Problem) -> Seen {
        let without = Problem::of(&Card { grid: 0, ..card.clone() }).search(card.limit);
        Seen { card: card.clone(), with: problem.search(card.limit), without }
    }

    /// Whether this holds of a candidate's coordinate that was halfway between two points of the grid.
    fn halfway(&self, is: fn(f64) -> bool) -> bool {
        let before = stops(&Card { grid: 0, ..self.card.clone() });
        // of one candidate none is found at a distance
        let found = before.iter().filter(|points| points.len() > 1).flatten().flat_map(|p| [p.0, p.1]);
        found.into_iter().any(|x| half(x) && is(x))
    }
}

fn kinds() -> Kinds<Seen> {
    Kinds::none()
        .and("cards about the grid with another length than without the move", 3, |s: &Seen| {
            s.with.length != s.without.length
        })
        .and("with another tour than without it", 20, |s| s.with.tour != s.without.tour)
        .and("with a candidate moved from halfway between two points of the grid, above zero", 10, |s| {
            s.halfway(|x| x > 0.0)
        })
        .and("likewise below zero", 10, |s| s.halfway(|x| x < 0.0))
}

fn one(r: &Random, by_rule: &Tally, kinds: &Kinds<Seen>) -> Result<u64, String> {
    let mut card = match r.below(3) {
        0 => gridded(r, true),
        1 => gridded(r, false),
        _ => Card { grid: 1, ..good(r, 2) },
    };
    let problem = Problem::of(&card);
    limit_near(r, &mut card, || problem.search(0).moves as u32);
    kinds.count(&Seen::of(&card, &problem));
    tour::one(r, &card, problem, by_rule)
}

pub fn compare(wanted: Wanted) -> bool {
    let by_rule = Tally::of("cards about the grid with another tour than by the written pairs alone", 20);
    let kinds = kinds();
    let agreed = cases(wanted, "cards about the grid", ALL, |r| one(r, &by_rule, &kinds));
    by_rule.enough(wanted.of(ALL)) & kinds.enough(wanted.of(ALL)) & agreed
}
