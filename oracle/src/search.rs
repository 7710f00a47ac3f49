//! The search against the original's gtsp.rs, mended, on good cards: what a tour's length is, and what is made of the
//! original's start in so many passes and trials.

use crate::answer::Problem;
use crate::card::Card;
use crate::generate::{good, limit_near, turning};
use crate::random::Random;
use crate::reading::joined;
use crate::run::{Tally, Wanted, by_version, same};
use original::gtsp::evaluate_solution;

unsafe extern "C" {
    fn probe_evaluate(
        home: *const f64,
        homes: usize,
        table: *const f64,
        entries: usize,
        t: u8,
        tour: *const u8,
        length: usize,
    ) -> f64;
    fn probe_improve(
        home: *const f64,
        homes: usize,
        table: *const f64,
        entries: usize,
        t: u8,
        owner: *const u8,
        owners: usize,
        first: *const u8,
        firsts: usize,
        pairs: *const u8,
        numbers: usize,
        tour: *mut u8,
        length: usize,
        passes: u32,
        limit: u32,
    ) -> u64;
}

/// A card as the search reads it, taken from the original's instance: distances from home and between the t candidates,
/// the contour of each candidate, each contour's first candidate with the count of all at the end, and the pairs by position,
/// written and by rule.
pub struct Chart {
    pub home: Vec<f64>,
    pub table: Vec<f64>,
    pub t: u8,
    pub owner: Vec<u8>,
    pub first: Vec<u8>,
    pub pairs: Vec<u8>,
}

impl Chart {
    pub fn of(card: &Card, problem: &Problem) -> Chart {
        let instance = &problem.instance;
        let t = instance.total_candidates;
        let first = instance.cluster_offsets.iter().map(|&k| k as u8).chain([t as u8]);
        Chart {
            home: instance.home_distances.clone(),
            table: instance.distances.concat(),
            t: t as u8,
            owner: (0..t).map(|g| instance.global_to_local(g).0 as u8).collect(),
            first: first.collect(),
            pairs: joined(card).into_iter().flat_map(|(before, after)| [before as u8, after as u8]).collect(),
        }
    }

    pub fn evaluate(&self, tour: &[u8]) -> f64 {
        let (home, table) = (&self.home, &self.table);
        unsafe {
            probe_evaluate(home.as_ptr(), home.len(), table.as_ptr(), table.len(), self.t, tour.as_ptr(), tour.len())
        }
    }

    /// Improves a tour in place; the trials made.
    pub fn improve(&self, tour: &mut [u8], passes: u32, limit: u32) -> u64 {
        let Chart { home, table, t, owner, first, pairs } = self;
        unsafe {
            probe_improve(
                home.as_ptr(),
                home.len(),
                table.as_ptr(),
                table.len(),
                *t,
                owner.as_ptr(),
                owner.len(),
                first.as_ptr(),
                first.len(),
                pairs.as_ptr(),
                pairs.len(),
                tour.as_mut_ptr(),
                tour.len(),
                passes,
                limit,
            )
        }
    }
}

pub fn bytes(tour: &[usize]) -> Vec<u8> {
    tour.iter().map(|&g| g as u8).collect()
}

const ALL: u64 = 120_000;

/// The searches that a run must have met: those where alone the rule for a rejected candidate shows, and those where pairs by
/// rule do.
struct Telling {
    after_another: Tally,
    by_rule: Tally,
}

fn one(r: &Random, version: u8, telling: &Telling) -> Result<u64, String> {
    let mut card = if r.one_in(2) { turning(r, version) } else { good(r, version) };
    let problem = Problem::of(&card);
    limit_near(r, &mut card, || problem.search(0).moves as u32);
    let what = || format!("{card:?}");
    let chart = Chart::of(&card, &problem);
    let start = problem.start();
    let ours = chart.evaluate(&bytes(&start)).to_bits();
    same(what, ours, evaluate_solution(&problem.instance, &start).to_bits())?;
    let found = problem.search(card.limit);
    let mut tour = bytes(&start);
    let moves = chart.improve(&mut tour, u32::from(card.passes), card.limit);
    same(what, (&tour, moves), (&bytes(&found.tour), found.moves))?;
    same(what, chart.evaluate(&tour).to_bits(), found.length)?;
    let mut whole = bytes(&start);
    chart.improve(&mut whole, u32::from(card.passes), 0);
    let agreed = same(what, &whole, &bytes(&problem.unlimited()))?;
    telling.after_another.count(card.c > 2 && found.rejected_after > 0);
    telling.by_rule.count(problem.shows_the_rule(&card, &found));
    Ok(agreed)
}

pub fn compare(wanted: Wanted) -> bool {
    let telling = Telling {
        after_another: Tally::of(
            "searches with c of 3 or more and a candidate rejected after one accepted in the same turn",
            6,
        ),
        by_rule: Tally::of("searches with another tour than by the written pairs alone", 15),
    };
    by_version(wanted, "searches", ALL, |r, version| one(r, version, &telling))
        && telling.after_another.enough(wanted.of(ALL)) & telling.by_rule.enough(wanted.of(ALL))
}
