//! Both nearest-neighbour starts against the original's gtsp.rs, on good cards.

use crate::answer::Problem;
use crate::generate::good;
use crate::random::Random;
use crate::run::{Wanted, by_version, same};
use crate::search::{Chart, bytes};
use original::gtsp::solve_nn;

unsafe extern "C" {
    fn probe_start(
        home: *const f64,
        homes: usize,
        table: *const f64,
        entries: usize,
        t: u8,
        first: *const u8,
        firsts: usize,
        pairs: *const u8,
        numbers: usize,
        tour: *mut u8,
        room: usize,
    ) -> usize;
    fn probe_solve_nn(
        home: *const f64,
        homes: usize,
        table: *const f64,
        entries: usize,
        t: u8,
        first: *const u8,
        firsts: usize,
        tour: *mut u8,
        room: usize,
    ) -> usize;
}

/// How many entries a start has, and the tour that it writes to a room of n.
fn written(n: usize, start: impl FnOnce(*mut u8) -> usize) -> (usize, Vec<u8>) {
    let mut tour = vec![u8::MAX; n];
    let count = start(tour.as_mut_ptr());
    (count, tour)
}

/// The start that respects the pairs.
pub fn constrained(s: &Chart, n: usize) -> (usize, Vec<u8>) {
    let Chart { home, table, t, first, pairs, .. } = s;
    written(n, |tour| unsafe {
        probe_start(
            home.as_ptr(),
            home.len(),
            table.as_ptr(),
            table.len(),
            *t,
            first.as_ptr(),
            first.len(),
            pairs.as_ptr(),
            pairs.len(),
            tour,
            n,
        )
    })
}

/// The start that does not.
fn free(s: &Chart, n: usize) -> (usize, Vec<u8>) {
    let (home, table, first) = (&s.home, &s.table, &s.first);
    written(n, |tour| unsafe {
        probe_solve_nn(home.as_ptr(), home.len(), table.as_ptr(), table.len(), s.t, first.as_ptr(), first.len(), tour, n)
    })
}

fn one(r: &Random, version: u8) -> Result<u64, String> {
    let card = good(r, version);
    let n = card.contours.len();
    let problem = Problem::of(&card);
    let chart = Chart::of(&card, &problem);
    let what = || format!("{card:?}");
    same(what, constrained(&chart, n), (n, bytes(&problem.start())))?;
    same(what, free(&chart, n), (n, bytes(&solve_nn(&problem.instance))))?;
    Ok(2)
}

pub fn compare(wanted: Wanted) -> bool {
    by_version(wanted, "both starts", 120_000, one)
}
