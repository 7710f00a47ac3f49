//! The questions on a list of pairs against the original's hierarchy.rs; the refusals against the paper.

use crate::doors::{Back, refused};
use crate::limits::{CONTOURS, PAIRS};
use crate::random::Random;
use crate::reading::led_back;
use crate::run::{Wanted, cases, same};
use original::hierarchy::CuttingDag;

unsafe extern "C" {
    fn probe_num_contours(contours: usize, pairs: *const u32, numbers: usize, out: &mut usize) -> u64;
    fn probe_precedences(
        contours: usize,
        pairs: *const u32,
        numbers: usize,
        ids: &mut [u32; 2 * PAIRS],
        count: &mut usize,
    ) -> u64;
    // 0 for no, 1 for yes
    fn probe_violates(contours: usize, pairs: *const u32, numbers: usize, a: u32, b: u32) -> u64;
    fn probe_predecessors(
        contours: usize,
        pairs: *const u32,
        numbers: usize,
        id: u32,
        ids: &mut [u32; PAIRS],
        count: &mut usize,
    ) -> u64;
    fn probe_successors(
        contours: usize,
        pairs: *const u32,
        numbers: usize,
        id: u32,
        ids: &mut [u32; PAIRS],
        count: &mut usize,
    ) -> u64;
    fn probe_is_valid_sequence(
        contours: usize,
        pairs: *const u32,
        numbers: usize,
        ids: *const u32,
        length: usize,
    ) -> u64;
    fn probe_topological_sort(
        contours: usize,
        pairs: *const u32,
        numbers: usize,
        positions: &mut [u32; CONTOURS],
        count: &mut usize,
    ) -> u64;
}

/// A list that is written to a lent array: the first `count` entries.
type List = Result<Vec<u32>, Back>;

fn list<const N: usize>(ask: impl FnOnce(&mut [u32; N], &mut usize) -> u64) -> List {
    let (mut ids, mut count) = ([u32::MAX; N], usize::MAX);
    match ask(&mut ids, &mut count) {
        0 => Ok(ids[..count].to_vec()),
        code => Err((code, (ids, count) == ([u32::MAX; N], usize::MAX))),
    }
}

fn narrow(ids: &[usize]) -> Vec<u32> {
    ids.iter().map(|&id| id as u32).collect()
}

/// What every question on pairs refuses first.
fn refusal(contours: usize, pairs: &[u32]) -> Option<u64> {
    if contours > CONTOURS {
        Some(refused(4, 1))
    } else if pairs.len().div_ceil(2) > PAIRS {
        Some(refused(4, 2))
    } else if pairs.len() % 2 == 1 {
        Some(refused(10, pairs.len() as u64 / 2))
    } else {
        None
    }
}

/// The whole pairs among ids, two each.
fn by_twos(ids: &[u32]) -> impl Iterator<Item = (usize, usize)> {
    ids.chunks_exact(2).map(|p| (p[0] as usize, p[1] as usize))
}

/// The lowest position that pairs of positions below the count lead back to.
fn on_cycle(contours: usize, pairs: &[u32]) -> Option<u64> {
    let pairs = by_twos(pairs).filter(|p| p.0 < contours && p.1 < contours);
    led_back(contours, pairs).map(|k| k as u64)
}

/// A list of pairs with the questions to ask of it.
struct Asked<'a> {
    contours: usize,
    pairs: &'a [u32],
    id: u32,
    other: u32,
    ids: &'a [u32],
}

fn one(q: &Asked) -> Result<u64, String> {
    let what = || format!("{} contours, pairs {:?}, ids {} {}, sequence {:?}", q.contours, q.pairs, q.id, q.other, q.ids);
    let (at, length, refuses) = (q.pairs.as_ptr(), q.pairs.len(), refusal(q.contours, q.pairs));
    let dag = CuttingDag::from_pairs(q.contours, by_twos(q.pairs).collect());
    let due = |theirs: Vec<u32>| refuses.map_or(Ok(theirs), |code| Err((code, true)));
    let word = |yes: bool| refuses.unwrap_or(u64::from(yes));

    let mut count = usize::MAX;
    let code = unsafe { probe_num_contours(q.contours, at, length, &mut count) };
    same(what, (code, count), refuses.map_or((0, dag.num_contours()), |code| (code, usize::MAX)))?;
    let ours = list(|ids, count| {
        let code = unsafe { probe_precedences(q.contours, at, length, ids, count) };
        *count = count.saturating_mul(2); // pairs are counted, two ids each
        code
    });
    let theirs = dag.precedences().iter().flat_map(|p| [p.0 as u32, p.1 as u32]).collect();
    same(what, ours, due(theirs))?;
    let (id, other) = (q.id as usize, q.other as usize);
    same(what, unsafe { probe_violates(q.contours, at, length, q.id, q.other) }, word(dag.violates(id, other)))?;
    let ours = list(|ids, count| unsafe { probe_predecessors(q.contours, at, length, q.id, ids, count) });
    same(what, ours, due(narrow(&dag.predecessors(id))))?;
    let ours = list(|ids, count| unsafe { probe_successors(q.contours, at, length, q.id, ids, count) });
    same(what, ours, due(narrow(&dag.successors(id))))?;
    let ours = unsafe { probe_is_valid_sequence(q.contours, at, length, q.ids.as_ptr(), q.ids.len()) };
    let sequence: Vec<usize> = q.ids.iter().map(|&id| id as usize).collect();
    let valid = if refuses.is_none() && q.ids.len() > CONTOURS {
        refused(15, q.ids.len() as u64)
    } else {
        word(dag.is_valid_sequence(&sequence))
    };
    same(what, ours, valid)?;
    Ok(6 + order(q, &dag)?)
}

fn order(q: &Asked, dag: &CuttingDag) -> Result<u64, String> {
    let (at, length) = (q.pairs.as_ptr(), q.pairs.len());
    let ours = list(|ids, count| unsafe { probe_topological_sort(q.contours, at, length, ids, count) });
    let theirs = match (refusal(q.contours, q.pairs), dag.topological_sort()) {
        (Some(code), _) => Err((code, true)),
        (None, Some(order)) => Ok(narrow(&order)),
        (None, None) => Err((refused(12, on_cycle(q.contours, q.pairs).expect("the original met a cycle")), true)),
    };
    same(|| format!("order of {} by {:?}", q.contours, q.pairs), ours, theirs)
}

/// Lists of pairs of every kind: without and with cycles, ids beyond the count, and the limits from both sides.
fn random(r: &Random) -> Result<u64, String> {
    let contours = r.pick(&[r.index(6), r.index(CONTOURS + 1), CONTOURS - 1, CONTOURS, CONTOURS + 1]);
    let range = r.pick(&[contours as u64, contours as u64, contours as u64 + 2, 3, 1 << 32]).max(1);
    let count = r.pick(&[r.index(5), r.index(20), r.index(60), r.index(PAIRS), PAIRS - 1, PAIRS, PAIRS + 1]);
    let forward = r.one_in(2);
    let mut pairs = Vec::new();
    for _ in 0..count {
        let (a, b) = (r.below(range) as u32, r.below(range) as u32);
        let keep = !forward || a < b;
        pairs.extend(if keep { [a, b] } else { [b, a] });
        if forward && a == b {
            pairs.truncate(pairs.len() - 2);
        }
    }
    if r.one_in(20) {
        pairs.pop();
    }
    let length = r.pick(&[contours, contours, r.index(CONTOURS + 3), CONTOURS, CONTOURS + 1]);
    let mut ids: Vec<u32> = match r.below(3) {
        0 => (0..length).map(|_| r.below(range) as u32).collect(),
        _ => (0..length as u32).collect(),
    };
    if r.one_in(2) {
        r.shuffle(&mut ids);
    }
    let (id, other) = (r.below(range) as u32, r.below(range) as u32);
    one(&Asked { contours, pairs: &pairs, id, other, ids: &ids })
}

/// Every set of pairs on up to three contours, every two ids and every sequence of up to three ids.
fn small() -> Result<u64, String> {
    let mut agreed = 0;
    for contours in 0..=3u32 {
        let all: Vec<[u32; 2]> = (0..contours * contours).map(|k| [k / contours, k % contours]).collect();
        for set in 0..1u32 << all.len() {
            let pairs: Vec<u32> = (0..all.len()).filter(|k| set >> k & 1 == 1).flat_map(|k| all[k]).collect();
            for word in 0..4u32.pow(3) * 4 {
                let digits = [word % 4, word / 4 % 4, word / 16 % 4];
                let ids = &digits[..(word / 64) as usize];
                let (id, other) = (digits[0], digits[1]);
                agreed += one(&Asked { contours: contours as usize, pairs: &pairs, id, other, ids })?;
            }
        }
    }
    Ok(agreed)
}

pub fn compare(wanted: Wanted) -> bool {
    cases(wanted, "questions on pairs", 220_000, random)
        & cases(Wanted { percent: 100, ..wanted }, "every set of pairs on up to 3 contours", 1, |_| small())
}
