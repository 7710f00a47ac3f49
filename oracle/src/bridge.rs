//! The bridges of a contour against the original's `create_bridge`; the refusals against the request.

use crate::candidates::contour_refusal;
use crate::cost::points;
use crate::doors::refused;
use crate::exports::{self, UNTOUCHED};
use crate::generate::outline;
use crate::limits::{BRIDGE_NUMBERS, BRIDGES, VERTICES};
use crate::random::{KINDS, Kind, Random};
use crate::run::{Tally, Wanted, cases, same};
use original::bridge::{Bridge, create_bridge};
use original::cost::point_distance;

/// The original's bound for an edge, and for a way.
const TINY: f64 = 1e-12;

/// A question about bridges.
#[derive(Clone, Debug)]
pub struct Asked {
    pub numbers: Vec<f64>,
    pub width: f64,
    pub centres: Vec<f64>,
}

/// What a call leaves: its answer, and the bits of the whole room.
pub type Left = (u64, Vec<u64>);

/// What the original works out before it places bridges: the edges' lengths, and how far along each vertex is, with the
/// whole way last.
fn way(vertices: &[(f64, f64)]) -> (Vec<f64>, Vec<f64>) {
    let next = |i: usize| vertices[(i + 1) % vertices.len()];
    let lengths: Vec<f64> = (0..vertices.len()).map(|i| point_distance(vertices[i], next(i))).collect();
    let mut cumulative = vec![0.0];
    for length in &lengths {
        cumulative.push(cumulative[cumulative.len() - 1] + length);
    }
    (lengths, cumulative)
}

fn whole(cumulative: &[f64]) -> f64 {
    cumulative[cumulative.len() - 1]
}

/// The refusal that is due, if one is.
fn refusal(q: &Asked) -> Option<u64> {
    if q.centres.len() > BRIDGES {
        return Some(refused(13, BRIDGES as u64));
    }
    if let Some(code) = contour_refusal(&q.numbers) {
        return Some(code);
    }
    let whole = whole(&way(&points(&q.numbers)).1);
    if whole < TINY {
        return Some(refused(18, 0));
    }
    if !(q.width.is_finite() && q.width > 0.0 && q.width / 2.0 < whole) {
        return Some(refused(18, 1));
    }
    q.centres.iter().position(|c| !(0.0..whole).contains(c)).map(|i| refused(18, 2 + i as u64))
}

/// The original's bridges.
pub fn bridges(q: &Asked) -> Vec<Bridge> {
    let vertices = points(&q.numbers);
    let (lengths, cumulative) = way(&vertices);
    let half = q.width / 2.0;
    let one = |&c: &f64| create_bridge(c, half, &vertices, &cumulative, &lengths, whole(&cumulative)).unwrap();
    q.centres.iter().map(one).collect()
}

/// A bridge as eight numbers.
fn eight(b: &Bridge) -> [u64; 8] {
    [b.start.0, b.start.1, b.end.0, b.end.1, b.midpoint.0, b.midpoint.1, b.edge_index as f64, b.edge_t].map(f64::to_bits)
}

/// The original's bridges as the example of hosts/c prints them.
pub fn printed(q: &Asked) -> String {
    let line = |b: &Bridge| {
        let points = [b.start, b.end, b.midpoint].map(|p| format!("{:.6} {:.6}", p.0, p.1));
        format!("{} {} {:.6}\n", points.join(" "), b.edge_index, b.edge_t)
    };
    bridges(q).iter().map(line).collect()
}

/// What a call must leave.
pub fn due(q: &Asked) -> Left {
    let mut room = vec![UNTOUCHED; BRIDGE_NUMBERS];
    if let Some(code) = refusal(q) {
        return (code, room);
    }
    for (k, bridge) in bridges(q).iter().enumerate() {
        room[8 * k..8 * (k + 1)].copy_from_slice(&eight(bridge));
    }
    (0, room)
}

/// What the safe call gives, as a call's answer with the numbers of all bridges.
fn safe(q: &Asked) -> Left {
    let contour: Vec<[f64; 2]> = points(&q.numbers).iter().map(|p| [p.0, p.1]).collect();
    match jambolive::bridges(&contour, q.width, &q.centres) {
        Err(r) => (refused(u64::from(r.number()), u64::from(r.place())), Vec::new()),
        Ok(all) => {
            let numbers = |b: &jambolive::Bridge| {
                let [start, end, middle] = [b.start, b.end, b.middle];
                [start[0], start[1], end[0], end[1], middle[0], middle[1], b.edge as f64, b.place].map(f64::to_bits)
            };
            (0, all.iter().flat_map(numbers).collect())
        }
    }
}

/// A contour, mostly a good one; some have an edge about as short as one may be.
fn contour(r: &Random, kind: Kind) -> Vec<f64> {
    let mut vertices = outline(r, kind);
    if r.one_in(6) {
        // at the origin, where so short an edge has just that length
        let short = r.pick(&[TINY, TINY.next_up(), TINY.next_down(), TINY / 2.0, 2.0 * TINY, 0.0]);
        let (a, b) = if r.one_in(2) { ((0.0, 0.0), (short, 0.0)) } else { ((0.0, short), (0.0, 0.0)) };
        vertices.truncate(VERTICES - 2);
        let at = r.index(vertices.len() + 1);
        vertices.splice(at..at, [a, b]);
    }
    let mut numbers: Vec<f64> = vertices.iter().flat_map(|p| [p.0, p.1]).collect();
    match r.below(60) {
        0 => _ = numbers.pop(),
        1 => numbers.resize(r.pick(&[0, 1, 2, 2 * VERTICES, 2 * VERTICES + 1, 2 * VERTICES + 2, 200]), 1.5),
        2 => {
            let k = r.index(numbers.len());
            numbers[k] = r.number(kind);
        }
        _ => {}
    }
    numbers
}

/// A width on a way: of any size up to twice the way, at the edges of what fits, and now and then one that does not.
fn width(r: &Random, marks: &[f64]) -> f64 {
    let whole = whole(marks);
    let edge = r.pick(&[2.0 * whole.next_down(), whole, whole * 1.5, 2.0 * r.pick(marks), f64::from_bits(1), 3e-308]);
    match r.below(40) {
        0 => r.pick(&[0.0, -0.0, -1.0, f64::NAN, f64::INFINITY, f64::NEG_INFINITY, 2.0 * whole, f64::MAX, -whole]),
        1 => f64::from_bits(r.next()),
        2..12 => edge,
        12..20 => whole * r.unit(),
        20..24 => 2.0 * whole * r.unit(),
        _ => whole * r.unit() / 16.0,
    }
}

/// A centre on a way: anywhere, at its ends and at corners, and now and then one that is not on it.
fn centre(r: &Random, marks: &[f64], half: f64) -> f64 {
    let (whole, corner) = (whole(marks), r.pick(marks));
    let near = r.pick(&[0.0, TINY, 0.5 * TINY, 1.5 * TINY, -0.5 * TINY, -TINY]);
    let edge = r.pick(&[
        0.0,
        -0.0,
        whole.next_down(),
        corner,
        corner.next_up(),
        corner.next_down(),
        corner + near,
        half,
        half.next_down(),
        whole - half,
        corner + half,
        corner - half,
        f64::from_bits(1),
    ]);
    match r.below(80) {
        0 => r.pick(&[whole, whole.next_up(), -f64::from_bits(1), -1.0, f64::NAN, f64::INFINITY, -half, 2.0 * whole]),
        1 => f64::from_bits(r.next()),
        // the way's end may be a corner: then it is no centre
        2..40 if (0.0..whole).contains(&edge) => edge,
        _ => (whole * r.unit()).min(whole.next_down()),
    }
}

/// Any question, most of them good.
pub fn any(r: &Random) -> Asked {
    let kind = r.pick(&[r.pick(&KINDS), Kind::Sheet, Kind::Grid, Kind::Whole]);
    let numbers = contour(r, kind);
    let vertices = points(&numbers);
    let marks = if vertices.is_empty() { vec![0.0] } else { way(&vertices).1 };
    let width = width(r, &marks);
    let count = r.pick(&[0, 1, 1, 2, 3, 4, BRIDGES, r.from(0, BRIDGES)]);
    let count = if r.one_in(60) { r.pick(&[BRIDGES + 1, BRIDGES + 2, 1000]) } else { count };
    let centres = (0..count).map(|_| centre(r, &marks, width / 2.0)).collect();
    Asked { numbers, width, centres }
}

/// What a run must meet often enough.
struct Met {
    refused: [Tally; 6],
    around: Tally,
    several: Tally,
    past: Tally,
    minus: Tally,
    short: Tally,
    tiny: Tally,
}

/// The refusals: each number, and of 18 each place, the centres' together.
const REFUSALS: [u64; 6] = [13 << 32, 6 << 32, 8 << 32, 18 << 32, (18 << 32) + 1, (18 << 32) + 2];

/// Which of the refusals an answer is.
fn which(code: u64) -> usize {
    let place = if code >> 32 == 18 { (code & 0xffff_ffff).min(2) } else { 0 };
    REFUSALS.iter().position(|&r| r == (code >> 32 << 32) + place).unwrap()
}

impl Met {
    fn count(&self, q: &Asked, due: &Left) {
        if due.0 != 0 {
            return self.refused[which(due.0)].count(true);
        }
        let (lengths, marks) = way(&points(&q.numbers));
        let (half, whole) = (q.width / 2.0, whole(&marks));
        let all = bridges(q);
        let any = |test: &dyn Fn(&Bridge) -> bool| all.iter().any(test);
        self.around.count(any(&|b| b.perimeter_distance < half || b.perimeter_distance + half > whole));
        self.several.count(any(&|b| {
            let (from, to) = (b.perimeter_distance - half, b.perimeter_distance + half);
            marks.iter().filter(|&&m| from < m && m < to).count() > 1
        }));
        self.past.count(any(&|b| b.edge_t > 1.0));
        self.minus.count(any(&|b| b.edge_t.to_bits() == (-0.0f64).to_bits()));
        self.short.count(any(&|b| (0.4 * TINY..2.5 * TINY).contains(&lengths[b.edge_index])));
        // there the two tests against that length differ
        self.tiny.count(any(&|b| lengths[b.edge_index] == TINY && b.perimeter_distance > marks[b.edge_index]));
    }
}

fn one(r: &Random, met: &Met) -> Result<u64, String> {
    let q = any(r);
    let due = due(&q);
    met.count(&q, &due);
    same(|| format!("{q:?}"), exports::bridges(&q.numbers, q.width, &q.centres)?, due.clone())?;
    if q.numbers.len() % 2 == 0 {
        let (code, mut room) = due;
        room.truncate(if code == 0 { 8 * q.centres.len() } else { 0 });
        same(|| format!("jambolive::bridges, {q:?}"), safe(&q), (code, room))?;
    }
    Ok(1)
}

pub fn compare(wanted: Wanted) -> bool {
    const FULL: u64 = 1_000_000;
    let met = Met {
        refused: [
            Tally::of("refused 13", 500),
            Tally::of("refused 6", 500),
            Tally::of("refused 8", 500),
            Tally::of("refused 18 at 0", 500),
            Tally::of("refused 18 at 1", 500),
            Tally::of("refused 18 at a centre", 500),
        ],
        around: Tally::of("with a bridge over the end of the way", 20),
        several: Tally::of("with a bridge over several corners", 20),
        past: Tally::of("with a place above 1", 100),
        minus: Tally::of("with the place -0", 100),
        short: Tally::of("with a middle on an edge of about 1e-12", 1000),
        tiny: Tally::of("with a middle within an edge of just 1e-12", 10_000),
    };
    let agreed = cases(wanted, "bridges of a contour", FULL, |r| one(r, &met));
    let Met { refused, around, several, past, minus, short, tiny } = met;
    let tallies = refused.into_iter().chain([around, several, past, minus, short, tiny]);
    tallies.fold(agreed, |all, tally| tally.enough(wanted.of(FULL)) & all)
}
