//! Demand 3 by whole numbers, on cards that ask for the move to the grid and have home and vertices on it within its reach:
//! all candidates are there too, the tour cuts each contour once and in a legal order, the length told is near to both ends
//! between which the exact one lies, and the tour is hardly longer than the start, which is the original's.

use crate::answer::{Problem, stops};
use crate::card::Card;
use crate::exports::{self, Left};
use crate::generate::gridded;
use crate::limits::{GRID_REACH, Limits, PER_MM};
use crate::random::Random;
use crate::reading::joined;
use crate::run::{ASKED_FOR, Kinds, Wanted, cases, same};

/// A point in steps of the grid.
type Spot = (i64, i64);

/// A coordinate in steps of the grid; none where it is off it or beyond its reach. The product is exact.
fn steps(x: f64) -> Option<i64> {
    let steps = x * PER_MM;
    (steps.fract() == 0.0 && x.abs() <= GRID_REACH).then_some(steps as i64)
}

fn spot((x, y): (f64, f64)) -> Result<Spot, String> {
    steps(x).zip(steps(y)).ok_or_else(|| format!("({x}, {y}) is not on the grid within its reach"))
}

/// The largest whole number whose square is at most this, digit by digit.
fn root(square: u128) -> u128 {
    (0..64).rev().map(|digit| 1 << digit).fold(0, |root: u128, one: u128| match root | one {
        more if more * more <= square => more,
        _ => root,
    })
}

/// The ends between which the exact length of a route from home lies, in steps of 2^-40 mm: the legs' roots, and one more for
/// each leg.
fn ends(home: Spot, route: &[Spot]) -> (u128, u128) {
    let legs = std::iter::once(&home).chain(route).zip(route);
    let square = |(a, b): (&Spot, &Spot)| u128::from(a.0.abs_diff(b.0)).pow(2) + u128::from(a.1.abs_diff(b.1)).pow(2);
    let lower: u128 = legs.map(|leg| root(square(leg) << 60)).sum();
    (lower, lower + route.len() as u128)
}

/// How many steps of 2^-62 mm are one of 2^-40 mm.
const FINER: u128 = 1 << 22;

/// A length in steps of 2^-62 mm; none where it is no whole number of them. A leg is nothing or at least a step of the grid, so
/// that the last of its 53 digits, and of any sum of legs, is no finer.
fn told(length: u64) -> Option<u128> {
    let (exponent, fraction) = (length >> 52, u128::from(length & ((1 << 52) - 1)));
    match exponent {
        0 => (fraction == 0).then_some(0),
        1013..1075 => Some(((1 << 52) + fraction) << (exponent - 1013)),
        _ => None,
    }
}

/// The bounds in steps of 2^-40 mm, on a card of n contours: on the length told, and on what the tour is longer than the start.
fn bounds(n: usize) -> (u128, u128) {
    if n <= Limits::BEFORE.contours { (1 << 12, 1 << 13) } else { (1 << 14, 1 << 15) }
}

/// What the tour of a card and the bits of its length must be, with the start that it was made from.
fn demanded(card: &Card, tour: &[usize], length: u64, start: &[usize]) -> Result<(), String> {
    let home = spot(card.home)?;
    for &vertex in card.contours.iter().flat_map(|contour| &contour.vertices) {
        spot(vertex)?;
    }
    // each candidate's contour and where it is, by its number
    let mut all = Vec::new();
    for (contour, points) in stops(card).into_iter().enumerate() {
        for point in points {
            all.push((contour, spot(point)?));
        }
    }
    if let Some(number) = tour.iter().find(|&&number| number >= all.len()) {
        return Err(format!("no candidate has the number {number}"));
    }
    let order: Vec<usize> = tour.iter().map(|&number| all[number].0).collect();
    let mut sorted = order.clone();
    sorted.sort();
    if !sorted.into_iter().eq(0..card.contours.len()) {
        return Err(format!("the contours are cut as {order:?}"));
    }
    let place = |contour: usize| order.iter().position(|&k| k == contour);
    if let Some(pair) = joined(card).into_iter().find(|&(before, after)| place(before) >= place(after)) {
        return Err(format!("of the pair {pair:?} the second is cut first"));
    }
    let ends_of = |tour: &[usize]| ends(home, &tour.iter().map(|&number| all[number].1).collect::<Vec<_>>());
    let ((lower, upper), (near, excess)) = (ends_of(tour), bounds(tour.len()));
    let told = told(length).ok_or_else(|| format!("{length:x} is no length"))?;
    if told + near * FINER < upper * FINER || told > (lower + near) * FINER {
        return Err(format!("{length:x} is told, the exact length is from {lower} to {upper} steps of 2^-40 mm"));
    }
    let least = ends_of(start).0;
    if upper > least + excess {
        return Err(format!("the tour takes up to {upper} steps of 2^-40 mm, the start no fewer than {least}"));
    }
    Ok(())
}

/// A card with its tour and the start.
struct Seen {
    card: Card,
    tour: Vec<usize>,
    start: Vec<usize>,
}

impl Seen {
    fn at_the_reach(&self) -> bool {
        stops(&self.card).concat().iter().any(|&(x, y)| x.abs() == GRID_REACH || y.abs() == GRID_REACH)
    }

    fn moved(&self) -> bool {
        stops(&self.card) != stops(&Card { grid: 0, ..self.card.clone() })
    }
}

fn kinds() -> Kinds<Seen> {
    let many = |s: &Seen| s.card.contours.len() > Limits::BEFORE.contours;
    let many = Kinds::none().and("cards on the grid with more than 40 contours", 200, many);
    let all = (1..).zip(ASKED_FOR).fold(many, |kinds, (c, what)| kinds.and(what, 32, move |s| s.card.c == c));
    all.and("with a candidate at the grid's reach", 3, Seen::at_the_reach)
        .and("with a candidate that was off the grid", 3, Seen::moved)
        .and("with another tour than the start", 4, |s| s.tour != s.start)
        .and("without a limit on trials", 8, |s| s.card.limit == 0)
        .and("with pairs", 3, |s| !joined(&s.card).is_empty())
}

fn one(r: &Random, kinds: &Kinds<Seen>) -> Result<u64, String> {
    let card = gridded(r, true);
    let n = card.contours.len();
    let start = Problem::of(&card).start();
    let Left { code, room, length, .. } = exports::tour(&card.bytes(), n)?;
    let tour: Vec<usize> = room.iter().map(|&number| usize::from(number)).collect();
    let what = || format!("{card:?}");
    same(what, code, 0)?;
    demanded(&card, &tour, length, &start).map_err(|how| format!("{how}; {}", what()))?;
    kinds.count(&Seen { card, tour, start });
    Ok(1)
}

const ALL: u64 = 20_000;

pub fn compare(wanted: Wanted) -> bool {
    let kinds = kinds();
    let agreed = cases(wanted, "demand 3 on the grid", ALL, |r| one(r, &kinds));
    kinds.enough(wanted.of(ALL)) & agreed
}

#[test]
fn roots_of_whole_numbers() {
    for x in [0, 1, 2, 3, 4, 15, 16, 17, (1 << 32) - 1, 1 << 32, (1 << 63) + 12_345, (1 << 64) - 1] {
        let square = x * x;
        assert_eq!(root(square), x);
        assert_eq!([square.saturating_sub(1), square + 2 * x].map(root), [x.saturating_sub(1), x]);
    }
}

/// A tour that is as demanded, and one of each kind that is not.
#[test]
fn what_is_not_as_demanded_is_seen() {
    let mut card = Card { home: (0.0, 0.0), ..crate::generate::moved_square() };
    card.contours[1].vertices = vec![(20.0, 0.0)];
    card.contours[2].vertices = vec![(20.0, 4.0)];
    card.pairs = vec![card.pair(1, 2)];
    let step = 1u64 << (52 - 4 - 28);
    let of = |tour: &[usize], length: u64, start: &[usize]| demanded(&card, tour, length, start).is_ok();
    let (tour, length) = ([0, 3, 4], 24f64.to_bits());
    assert!(of(&tour, length, &tour));
    // 2^-28 mm from the lower end, and as much from the upper one, which is three steps of 2^-40 mm further
    assert!(of(&tour, length + step, &tour) && !of(&tour, length + step + 1, &tour));
    let least = length - step + 3 * (step >> 12);
    assert!(of(&tour, least, &tour) && !of(&tour, least - 1, &tour));
    assert!(!of(&tour, length | 1 << 63, &tour) && !of(&tour, f64::NAN.to_bits(), &tour));
    // another contour twice, none at all, the pair the other way round, a number that is no candidate's
    assert!(!of(&[0, 3, 3], length, &tour) && !of(&[0, 3], 20f64.to_bits(), &tour));
    assert!(!of(&[0, 4, 3], length, &tour) && !of(&[0, 3, 5], length, &tour));
    // the way by another candidate is longer than by this start
    let longer = crate::answer::Problem::of(&card).instance;
    let length = original::gtsp::evaluate_solution(&longer, &[1, 3, 4]).to_bits();
    assert!(of(&[1, 3, 4], length, &[1, 3, 4]) && !of(&[1, 3, 4], length, &tour));
    card.contours[1].vertices = vec![(20.0 + 1.0 / 2048.0, 0.0)];
    assert!(demanded(&card, &tour, 24f64.to_bits(), &tour).is_err());
    // a vertex off the grid, though every candidate is moved to it
    card.contours[1].vertices = vec![(20.0, 0.0)];
    card.contours[0].vertices[2] = (10.0 + 1.0 / 2048.0, 10.0);
    assert!(demanded(&card, &tour, 24f64.to_bits(), &tour).is_err());
}
