//! The move of one number to the grid, and the line by which the copies of the original make it, against the second reading's
//! by whole numbers.

use crate::limits::PER_MM;
use crate::random::Random;
use crate::reading::moved;
use crate::root::plain;
use crate::run::{Kinds, Wanted, cases, same};
use original::grid::nearest;

unsafe extern "C" {
    fn probe_moved(x: f64) -> f64;
}

/// Those that stand for a kind of their own.
const SPECIAL: [f64; 14] = [
    0.0,
    1.0,
    0.5 / 1024.0,
    // its product with 1024 is the last number below a half, and that plus a half rounds to 1
    0.499_999_999_999_999_94 / 1024.0,
    f64::NAN,
    f64::INFINITY,
    f64::MAX,
    f64::MIN_POSITIVE,
    f64::from_bits(1),
    f64::EPSILON,
    8192.0,
    1_048_576.0,
    // from here on each number is on the grid, and behind the next one the product with 1024 is too large
    4_398_046_511_104.0,
    f64::MAX / 1024.0,
];

/// Any number, of either sign.
fn input(r: &Random) -> f64 {
    let near = |x: f64| f64::from_bits(x.to_bits().wrapping_add(r.below(7)).wrapping_sub(3));
    // so few steps that with half a step more they are a number too
    let steps = || r.below(1 << r.from(1, 52)) as f64;
    r.either_way(match r.below(10) {
        0 | 1 => f64::from_bits(r.next()),
        2 => (steps() + 0.5) / PER_MM,
        3 => near((steps() + 0.5) / PER_MM),
        4 => steps() / PER_MM,
        5 => near(f64::from_bits(((1023 - 20 + r.below(80)) << 52) + (r.below(2) << 51))),
        6 => f64::from_bits(r.below(1 << r.from(1, 52))),
        7 => r.about_grid(),
        8 => r.unit() / PER_MM,
        _ => near(r.pick(&SPECIAL)),
    })
}

/// The numbers of a case.
const EACH: u64 = 1000;
const CASES: u64 = 1000;

fn kinds() -> Kinds<f64> {
    Kinds::none()
        .and("numbers halfway between two points of the grid, above zero", 20, |&x| half(x) && x > 0.0)
        .and("likewise below zero", 20, |&x| half(x) && x < 0.0)
        .and("next to halfway", 50, |&x| !half(x) && (half(x.next_up()) || half(x.next_down())))
        .and("moved to 0 from above", 20, |&x| x > 0.0 && x * PER_MM < 0.5)
        .and("moved to 0 from below", 20, |&x| x < 0.0 && x * PER_MM > -0.5)
        .and("subnormal", 20, |&x| x != 0.0 && x.abs() < f64::MIN_POSITIVE)
        .and("0", 1000, |&x| x.to_bits() == 0)
        .and("-0", 1000, |&x| x.to_bits() == (-0.0f64).to_bits())
        .and("about 2^42 in size, from where on all are on the grid", 500, |&x| (2e12..8e12).contains(&x.abs()))
        .and("from 2^51 to 2^55 in size", 500, |&x| (2e15..3.6e16).contains(&x.abs()))
        .and("so large that 1024 times as much is infinite", 500, |&x| too_large(x))
        .and("infinite", 5000, |&x| x.is_infinite())
        .and("not a number", 500, |&x| x.is_nan())
}

/// Halfway between two points of the grid. The product is exact.
pub fn half(x: f64) -> bool {
    (x * PER_MM).fract().abs() == 0.5
}

fn too_large(x: f64) -> bool {
    x.is_finite() && (x * PER_MM).is_infinite()
}

fn one(x: f64) -> Result<u64, String> {
    let what = || format!("{x:e} ({:#x}) moved", x.to_bits());
    let due = plain(moved(x));
    same(what, plain(unsafe { probe_moved(x) }), due)?;
    // the line is for coordinates: it loses the largest numbers
    if !too_large(x) {
        same(|| format!("{} by the copies' line", what()), plain(nearest(x)), due)?;
    }
    Ok(1)
}

pub fn compare(wanted: Wanted) -> bool {
    let kinds = kinds();
    let agreed = cases(wanted, "numbers moved to the grid", CASES, |r| {
        for _ in 0..EACH {
            let x = input(r);
            kinds.count(&x);
            one(x)?;
        }
        Ok(EACH)
    });
    kinds.enough(wanted.of(CASES) * EACH) & agreed
}

/// The special values, where the comparison must start.
#[test]
fn the_special_values() {
    for x in SPECIAL {
        assert_eq!([one(x), one(-x)], [Ok(1), Ok(1)]);
    }
}
