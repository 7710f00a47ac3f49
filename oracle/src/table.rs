//! The distances from home and between the candidates of good cards against the original's instance, to the bit; what
//! lies behind them in the lent rooms is kept.

use crate::answer::Problem;
use crate::doors::KEPT;
use crate::generate::good;
use crate::random::Random;
use crate::run::{Wanted, by_version, same};

unsafe extern "C" {
    fn probe_distances(
        card: *const u8,
        bytes: usize,
        home: *mut f64,
        homes: usize,
        table: *mut f64,
        entries: usize,
        count: &mut usize,
    );
}

/// A room of `size` entries that holds these distances, as bits.
fn room(distances: &[f64], size: usize) -> Vec<u64> {
    let mut room = distances.to_vec();
    room.resize(size, KEPT);
    room.into_iter().map(f64::to_bits).collect()
}

fn one(r: &Random, version: u8) -> Result<u64, String> {
    let card = good(r, version);
    let bytes = card.bytes();
    let instance = Problem::of(&card).instance;
    let t = instance.total_candidates;
    let rest = r.index(4);
    let (mut home, mut table, mut count) = (vec![KEPT; t + rest], vec![KEPT; t * t + rest], usize::MAX);
    unsafe {
        let (homes, entries) = (home.len(), table.len());
        probe_distances(bytes.as_ptr(), bytes.len(), home.as_mut_ptr(), homes, table.as_mut_ptr(), entries, &mut count);
    }
    let what = || format!("{card:?}");
    same(what, count, t)?;
    same(what, room(&home, t + rest), room(&instance.home_distances, t + rest))?;
    same(what, room(&table, t * t + rest), room(&instance.distances.concat(), t * t + rest))
}

pub fn compare(wanted: Wanted) -> bool {
    by_version(wanted, "distances of a card", 120_000, one)
}
