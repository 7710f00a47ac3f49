//! Every function of the crate `cost` against the original's cost.rs; the refusals against the paper.

use crate::doors;
use crate::limits::{CONTOURS, PIERCES, REACH, VERTICES};
use crate::random::{KINDS, Kind, Random};
use crate::run::{Wanted, cases, same};
use original::config::CuttingConfig;
use original::cost;

type Point = (f64, f64);

/// What `probe_closest` answers where there is no vertex, so no closest point.
const NOWHERE: u64 = 1;

unsafe extern "C" {
    fn probe_distance(ax: f64, ay: f64, bx: f64, by: f64, out: &mut f64) -> u64;
    fn probe_distance_sq(ax: f64, ay: f64, bx: f64, by: f64, out: &mut f64) -> u64;
    fn probe_between(ax: f64, ay: f64, bx: f64, by: f64) -> f64;
    fn probe_closest(
        polygon: *const f64,
        numbers: usize,
        x: f64,
        y: f64,
        out_x: &mut f64,
        out_y: &mut f64,
        t: &mut f64,
        vertex: &mut usize,
    ) -> u64;
    fn probe_rapid(x: f64, y: f64, legs: *const f64, numbers: usize, out: &mut f64) -> u64;
    fn probe_sequence_cost(total: f64, count: usize, weight: f64, out: &mut f64) -> u64;
}

/// Code; the closest point and its place on the edge, as bits; the edge.
type Nearest = (u64, [u64; 3], usize);

fn ask_closest(polygon: &[f64], point: Point) -> Nearest {
    let (mut x, mut y, mut t, mut vertex) = (doors::KEPT, doors::KEPT, doors::KEPT, usize::MAX);
    let code = unsafe {
        probe_closest(polygon.as_ptr(), polygon.len(), point.0, point.1, &mut x, &mut y, &mut t, &mut vertex)
    };
    (code, [x, y, t].map(f64::to_bits), vertex)
}

fn bad(p: Point) -> bool {
    !(p.0.abs() <= REACH && p.1.abs() <= REACH)
}

/// The place of refusal 8: the first bad point, if there is one.
pub fn first_bad(points: &[Point]) -> Option<u64> {
    points.iter().position(|&p| bad(p)).map(|k| k as u64)
}

/// Any two numbers.
fn any_point(r: &Random, kind: Kind) -> Point {
    (r.number(kind), r.number(kind))
}

/// Mostly a fine point.
fn point(r: &Random, kind: Kind) -> Point {
    if r.one_in(10) { any_point(r, kind) } else { r.point(kind) }
}

/// Mostly fine points, of one kind: a list of many numbers would else always have a bad one.
fn numbers(r: &Random, kind: Kind, most: usize) -> Vec<f64> {
    let fine = !r.one_in(3);
    let count = r.index(r.pick(&[3, 9, 2 * most + 2]));
    let count = if r.one_in(8) { count } else { count & !1 };
    (0..count).map(|_| if fine { r.coordinate(kind) } else { r.number(kind) }).collect()
}

/// The whole points among numbers, two each.
pub fn points(numbers: &[f64]) -> Vec<Point> {
    numbers.chunks_exact(2).map(|p| (p[0], p[1])).collect()
}

fn distances(r: &Random) -> Result<u64, String> {
    let kind = r.pick(&KINDS);
    let (a, b) = (any_point(r, kind), any_point(r, kind));
    let what = || format!("from {a:?} to {b:?}");
    let (length, square) = match first_bad(&[a, b]) {
        Some(k) => (doors::back(8, k), doors::back(8, k)),
        None => (doors::is(cost::point_distance(a, b)), doors::is(cost::point_distance_sq(a, b))),
    };
    let ours = doors::told(|out| unsafe { probe_distance(a.0, a.1, b.0, b.1, out) });
    same(what, ours, length)?;
    let ours = doors::told(|out| unsafe { probe_distance_sq(a.0, a.1, b.0, b.1, out) });
    same(what, ours, square)
}

/// The form without a refusal, on finite points of a size that cannot overflow.
fn between(r: &Random) -> Result<u64, String> {
    let kind = r.pick(&KINDS);
    let (a, b) = (r.point(kind), r.point(kind));
    let theirs = cost::point_distance(a, b).to_bits();
    let what = || format!("between {a:?} and {b:?}");
    same(what, unsafe { probe_between(a.0, a.1, b.0, b.1) }.to_bits(), theirs)?;
    same(what, unsafe { probe_between(b.0, b.1, a.0, a.1) }.to_bits(), theirs)
}

fn closest(r: &Random) -> Result<u64, String> {
    let kind = r.pick(&KINDS);
    let polygon = numbers(r, kind, VERTICES);
    let at = point(r, kind);
    let vertices = points(&polygon);
    let kept = [doors::KEPT.to_bits(); 3];
    let part = polygon.len() % 2 == 1;
    let due = match first_bad(&vertices) {
        Some(k) => (doors::refused(8, k), kept, usize::MAX),
        None if part || bad(at) => (doors::refused(8, vertices.len() as u64), kept, usize::MAX),
        None => match cost::closest_point_on_polygon(&vertices, at) {
            None => (NOWHERE, kept, usize::MAX),
            Some(((x, y), vertex, t)) => (0, [x, y, t].map(f64::to_bits), vertex),
        },
    };
    same(|| format!("closest to {at:?} of {polygon:?}"), ask_closest(&polygon, at), due)
}

fn rapid(r: &Random) -> Result<u64, String> {
    let kind = r.pick(&KINDS);
    let legs = numbers(r, kind, 2 * CONTOURS);
    let home = point(r, kind);
    let whole = points(&legs);
    let mut all = vec![home];
    all.extend(&whole);
    let due = match first_bad(&all) {
        Some(k) => doors::back(8, k),
        // a number or a point is missing to a whole leg
        None if legs.len() % 4 != 0 => doors::back(8, all.len() as u64),
        None => {
            let positions: Vec<_> = whole.chunks_exact(2).map(|l| (l[0], l[1])).collect();
            doors::is(cost::total_rapid_distance(home, &positions))
        }
    };
    let ours = doors::told(|out| unsafe { probe_rapid(home.0, home.1, legs.as_ptr(), legs.len(), out) });
    same(|| format!("rapid from {home:?} over {legs:?}"), ours, due)
}

fn sequence(r: &Random) -> Result<u64, String> {
    let amount = |r: &Random| match r.below(6) {
        0 => r.number(Kind::Wide),
        1 => f64::from_bits(r.next()),
        2 => r.pick(&[0.0, -0.0, f64::MAX, f64::MIN_POSITIVE, 10.0]),
        _ => r.unit() * 1e4,
    };
    let (total, weight) = (amount(r), amount(r));
    let count = r.pick(&[0, 1, CONTOURS, PIERCES - 1, PIERCES, PIERCES + 1, 1 << 32, usize::MAX, 7]);
    let count = if r.one_in(2) { r.index(PIERCES + 2) } else { count };
    let fine = |x: f64| x.is_finite() && x >= 0.0;
    let due = if !fine(total) {
        doors::back(14, 1)
    } else if !fine(weight) {
        doors::back(14, 2)
    } else if count > PIERCES {
        doors::back(14, 3)
    } else {
        let config = CuttingConfig::new().with_pierce_weight(weight);
        doors::is(cost::sequence_cost(total, count, &config))
    };
    let ours = doors::told(|out| unsafe { probe_sequence_cost(total, count, weight, out) });
    same(|| format!("cost of {total:e}, {count}, {weight:e}"), ours, due)
}

pub fn compare(wanted: Wanted) -> bool {
    let many = |one: fn(&Random) -> Result<u64, String>| {
        move |r: &Random| (0..100).map(|_| one(r)).sum::<Result<u64, String>>()
    };
    cases(wanted, "point_distance, point_distance_sq", 12_000, many(distances))
        & cases(wanted, "distance between candidates", 12_000, many(between))
        & cases(wanted, "closest_point_on_polygon", 12_000, many(closest))
        & cases(wanted, "total_rapid_distance", 12_000, many(rapid))
        & cases(wanted, "sequence_cost", 12_000, many(sequence))
}
