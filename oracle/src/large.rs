//! Good cards with more contours than before request 2026-04, compared as in tour.rs.

use crate::answer::Problem;
use crate::generate::large;
use crate::random::Random;
use crate::run::{Tally, Wanted, by_version};
use crate::tour::one;

const ALL: u64 = 100_000;

pub fn compare(wanted: Wanted) -> bool {
    let by_rule = Tally::of("large cards with another tour than by the written pairs alone", 20);
    let of_many = |r: &Random, version| {
        let card = large(r, version);
        one(r, &card, Problem::of(&card), &by_rule)
    };
    by_version(wanted, "large cards", ALL, of_many) && by_rule.enough(wanted.of(ALL))
}
