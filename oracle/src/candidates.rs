//! The candidates of one contour against the original's, with the move to the grid and without it; the refusals against the
//! paper.

use crate::answer::stops;
use crate::card::{Card, Contour};
use crate::cost::{first_bad, points};
use crate::doors::{Back, KEPT, refused};
use crate::generate::{direction, outline, stepped};
use crate::limits::{PER_CONTOUR, PER_MM, REACH, VERTICES};
use crate::moved::half;
use crate::random::{KINDS, Random};
use crate::run::{ASKED_FOR, Kinds, Wanted, cases, same};
use original::config::CuttingConfig;
use original::cost::point_distance;
use original::grid;
use original::gtsp::{PierceCandidate, discretize_contours};
use original::result::CutDirection;

unsafe extern "C" {
    #[allow(clippy::too_many_arguments)]
    fn probe_candidate(
        numbers: *const f64,
        length: usize,
        c: usize,
        grid: u8,
        kind: u8,
        exterior: u8,
        interior: u8,
        k: usize,
        place: &mut [f64; 4],
        vertex: &mut usize,
        way: &mut u64,
        count: &mut usize,
    ) -> u64;
}

/// A question about one contour.
#[derive(Debug)]
struct Asked {
    numbers: Vec<f64>,
    c: usize,
    /// 1 asks for the move, any other byte does not.
    grid: u8,
    interior: bool,
    preferences: [u8; 2],
}

/// A candidate: point and end point as bits, vertex, whether clockwise.
type Told = ([u64; 4], usize, u64);

fn ours(q: &Asked) -> Result<Vec<Told>, Back> {
    let (lent, mut all) = (([KEPT; 4], usize::MAX, u64::MAX, usize::MAX), Vec::new());
    loop {
        let (mut place, mut vertex, mut way, mut count) = lent;
        let (at, length) = (q.numbers.as_ptr(), q.numbers.len());
        let [exterior, interior] = q.preferences;
        let k = all.len();
        let code = unsafe {
            let (kind, place) = (u8::from(q.interior), &mut place);
            let (vertex, way, count) = (&mut vertex, &mut way, &mut count);
            probe_candidate(at, length, q.c, q.grid, kind, exterior, interior, k, place, vertex, way, count)
        };
        match code {
            0 if k < count => all.push((place.map(f64::to_bits), vertex, way)),
            0 => return Ok(all),
            _ => return Err((code, (place, vertex, way, count) == lent)),
        }
    }
}

fn told(c: &PierceCandidate) -> Told {
    let place = [c.point.0, c.point.1, c.end_point.0, c.end_point.1];
    (place.map(f64::to_bits), c.vertex_index, u64::from(c.direction == CutDirection::Cw))
}

/// The refusal that is due for a contour alone, if one is: its count of vertices, a part of one counted, or the first bad one.
pub fn contour_refusal(numbers: &[f64]) -> Option<u64> {
    let (v, vertices) = (numbers.len().div_ceil(2), points(numbers));
    if !(1..=VERTICES).contains(&v) {
        return Some(refused(6, v as u64));
    }
    let part = (vertices.len() < v).then_some(vertices.len() as u64);
    first_bad(&vertices).or(part).map(|k| refused(8, k))
}

fn theirs(q: &Asked) -> Result<Vec<Told>, u64> {
    if !(1..=PER_CONTOUR).contains(&q.c) {
        return Err(refused(4, 3));
    }
    if let Some(code) = contour_refusal(&q.numbers) {
        return Err(code);
    }
    let vertices = points(&q.numbers);
    let contour = Contour { interior: q.interior, vertices, ..Contour::default() };
    let config = CuttingConfig {
        exterior_direction: crate::answer::preference(q.preferences[0]),
        interior_direction: crate::answer::preference(q.preferences[1]),
        ..CuttingConfig::new().with_pierce_candidates(q.c)
    };
    let contours = [crate::answer::contour(&contour)];
    let clusters = grid::with(q.grid == 1, || discretize_contours(&contours, &config).unwrap());
    Ok(clusters[0].candidates.iter().map(told).collect())
}

/// The points of a good question's candidates once more, with the second reading's move or without it.
fn once_more(q: &Asked, asks: bool) -> Vec<(f64, f64)> {
    let contours = vec![Contour { vertices: points(&q.numbers), ..Contour::default() }];
    let (c, grid) = (q.c as u16, u8::from(asks));
    stops(&Card { version: 2, c, grid, contours, ..Card::default() }).remove(0)
}

/// The bits of points and of the end points, which are the same.
fn places(points: &[(f64, f64)]) -> Vec<[u64; 4]> {
    points.iter().map(|&(x, y)| [x, y, x, y].map(f64::to_bits)).collect()
}

/// A question about the grid with its candidates, none where it is refused: the vertex that the original tells of each, and
/// its point before and after the move.
struct Seen {
    c: usize,
    vertices: Vec<(f64, f64)>,
    told: Vec<usize>,
    before: Vec<(f64, f64)>,
    after: Vec<(f64, f64)>,
}

fn off(x: f64) -> bool {
    (x * PER_MM).fract() != 0.0
}

impl Seen {
    fn of(q: &Asked, due: &Result<Vec<Told>, u64>) -> Seen {
        let (c, vertices) = (q.c, points(&q.numbers));
        match due {
            Ok(all) => {
                let told = all.iter().map(|told| told.1).collect();
                Seen { c, vertices, told, before: once_more(q, false), after: once_more(q, true) }
            }
            Err(_) => Seen { c, vertices, told: Vec::new(), before: Vec::new(), after: Vec::new() },
        }
    }

    fn numbers(&self) -> impl Iterator<Item = f64> {
        self.before.iter().flat_map(|p| [p.0, p.1])
    }

    /// Whether the one candidate is no found one, and off the grid.
    fn stays_off(&self) -> bool {
        self.before.len() == 1 && self.numbers().any(off)
    }

    /// Whether this holds of a coordinate that goes to the grid.
    fn found(&self, is: impl Fn(f64) -> bool) -> bool {
        self.before.len() > 1 && self.numbers().any(is)
    }

    /// Whether candidate k is elsewhere after the move.
    fn moved(&self, k: usize) -> bool {
        self.before[k] != self.after[k]
    }

    fn length(&self, i: usize) -> f64 {
        point_distance(self.vertices[i], self.vertices[(i + 1) % self.vertices.len()])
    }

    /// Whether candidate k is on an edge that is too short to be gone along, whose vertex the lookup answers.
    fn at_a_vertex(&self, k: usize) -> bool {
        self.length(self.told[k]) < 1e-12
    }

    fn short_way(&self) -> bool {
        (0..self.vertices.len()).map(|i| self.length(i)).sum::<f64>() <= 2e-12
    }
}

fn kinds() -> Kinds<Seen> {
    let by_count = Kinds::none().and("questions about the grid that are refused", 100, |s: &Seen| s.before.is_empty());
    let all = (1..).zip(ASKED_FOR).fold(by_count, |kinds, (c, what)| kinds.and(what, 20, move |s: &Seen| s.c == c));
    all.and("moved from halfway between two points of the grid, above zero", 20, |s| s.found(|x| half(x) && x > 0.0))
        .and("likewise below zero", 20, |s| s.found(|x| half(x) && x < 0.0))
        .and("moved to 0 from above", 50, |s| s.found(|x| x > 0.0 && x * PER_MM < 0.5))
        .and("moved to 0 from below", 50, |s| s.found(|x| x < 0.0 && x * PER_MM > -0.5))
        .and("with -0 to be moved", 1000, |s| s.found(|x| x.to_bits() == (-0.0f64).to_bits()))
        .and("with all points on the grid before the move", 40, |s| s.found(|_| true) && !s.found(off))
        .and("moved within a millimetre of the largest coordinate", 50, |s| s.found(|x| off(x) && x.abs() > REACH - 1.0))
        .and("with a moved first vertex", 10, |s| s.found(off) && s.moved(0) && s.before[0] == s.vertices[0])
        .and("with a moved vertex of an edge under 1e-12", 100, |s| {
            s.found(off) && (0..s.before.len()).any(|k| s.moved(k) && s.at_a_vertex(k))
        })
        .and("moved, of a way of 1e-12 to 2e-12", 100, |s| s.found(off) && s.short_way())
        .and("off the grid and not moved, of a way under 1e-12", 50, |s| s.c > 1 && s.stays_off())
        .and("off the grid and not moved, with c = 1", 50, |s| s.c == 1 && s.stays_off())
}

/// A question about the grid that asks for the move. The original's answer, with its own move, is held against the second
/// reading's move too.
fn about_grid(r: &Random, kinds: &Kinds<Seen>) -> Result<u64, String> {
    let on = r.one_in(4);
    let mut numbers: Vec<f64> = stepped(r, on).iter().flat_map(|p| [p.0, p.1]).collect();
    if r.one_in(40) {
        let k = r.index(numbers.len());
        numbers[k] = r.pick(&[f64::NAN, REACH.next_up(), -REACH.next_up(), f64::INFINITY]);
    }
    let (c, interior) = (r.from(1, PER_CONTOUR), r.one_in(2));
    let q = Asked { numbers, c, grid: 1, interior, preferences: [0; 2].map(|_| direction(r)) };
    let what = || format!("{q:?}");
    let due = theirs(&q);
    let seen = Seen::of(&q, &due);
    kinds.count(&seen);
    if let Ok(all) = &due {
        let found: Vec<[u64; 4]> = all.iter().map(|told| told.0).collect();
        same(what, places(&seen.after), found)?;
    }
    same(what, ours(&q), due.map_err(|code| (code, true)))
}

fn one(r: &Random) -> Result<u64, String> {
    let kind = r.pick(&KINDS);
    let mut numbers: Vec<f64> = outline(r, kind).iter().flat_map(|p| [p.0, p.1]).collect();
    match r.below(30) {
        0 => _ = numbers.pop(),
        1 => numbers.resize(r.pick(&[0, 1, 2 * VERTICES, 2 * VERTICES + 1, 2 * VERTICES + 2]), 1.5),
        2 => {
            let k = r.index(numbers.len());
            numbers[k] = r.number(kind);
        }
        _ => {}
    }
    let c = r.pick(&[1, 2, 3, 4, PER_CONTOUR, r.from(1, PER_CONTOUR), r.from(0, PER_CONTOUR + 1)]);
    let (interior, preferences) = (r.one_in(2), [0; 2].map(|_| direction(r)));
    let q = Asked { numbers, c, grid: r.pick(&[0, 1, 2, 255]), interior, preferences };
    same(|| format!("{q:?}"), ours(&q), theirs(&q).map_err(|code| (code, true)))
}

const ABOUT_GRID: u64 = 400_000;

pub fn compare(wanted: Wanted) -> bool {
    let kinds = kinds();
    let agreed = cases(wanted, "candidates of one contour", 1_000_000, one)
        & cases(wanted, "candidates about the grid", ABOUT_GRID, |r| about_grid(r, &kinds));
    kinds.enough(wanted.of(ABOUT_GRID)) & agreed
}
