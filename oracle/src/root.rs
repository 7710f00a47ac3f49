//! The root against the processor's own instruction.

use crate::doors;
use crate::random::Random;
use crate::run::{Wanted, cases, same};

unsafe extern "C" {
    fn probe_root(x: f64, out: &mut f64) -> u64;
    fn probe_sqrt(x: f64) -> f64;
}

/// The root as users ask for it.
pub fn root(x: f64) -> doors::Told {
    doors::told(|out| unsafe { probe_root(x, out) })
}

/// The root as distances use it: nothing is refused.
pub fn sqrt(x: f64) -> f64 {
    unsafe { probe_sqrt(x) }
}

/// What the paper says of a root: the refusal of NaN, infinity and numbers below zero, else IEEE 754's.
fn due(x: f64) -> doors::Told {
    if x.is_finite() && x >= 0.0 { doors::is(x.sqrt()) } else { doors::back(14, 0) }
}

/// A number's bits; the proved code and the processor may have different bits for what is not a number. (Were that told
/// as some 64 bits that a NaN has too, the compiler could take the processor's own NaN for it.)
pub fn plain(x: f64) -> Option<u64> {
    (!x.is_nan()).then(|| x.to_bits())
}

const SPECIAL: [f64; 21] = [
    0.0,
    -0.0,
    1.0,
    4.0,
    0.25,
    -1.0,
    f64::NAN,
    -f64::NAN,
    f64::INFINITY,
    f64::NEG_INFINITY,
    f64::MAX,
    f64::MIN,
    f64::MIN_POSITIVE,
    -f64::MIN_POSITIVE,
    f64::from_bits(1),
    f64::EPSILON,
    1.0 + f64::EPSILON,
    1.0 - f64::EPSILON / 2.0,
    9_007_199_254_740_991.0,
    1.000_000_000_000_000_4,
    2.000_000_000_000_000_4,
];

fn input(r: &Random) -> f64 {
    let near = |bits: u64, r: &Random| bits.wrapping_add(r.below(7)).wrapping_sub(3);
    match r.below(8) {
        0 | 1 => f64::from_bits(r.next()),
        2 => f64::from_bits(r.next() >> 1),
        3 => f64::from_bits(r.below(1 << r.from(1, 52))),
        4 => {
            // next to the square of a value with half the digits: the root lies next to a tie or a value
            let a = f64::from_bits((r.below(2046) << 52) + (r.next() >> 12 << r.from(20, 30) & ((1 << 52) - 1)));
            f64::from_bits(near((a * a).to_bits(), r))
        }
        5 => {
            let whole = r.below(1 << r.from(1, 27)) as f64;
            f64::from_bits(near((whole * whole).to_bits(), r))
        }
        6 => r.unit() * 4.0,
        _ => {
            let special = r.pick(&SPECIAL);
            f64::from_bits(near(special.to_bits(), r))
        }
    }
}

pub fn compare(wanted: Wanted) -> bool {
    cases(wanted, "root", 24_000, |r| {
        for _ in 0..1000 {
            let x = input(r);
            let what = || format!("root of {x:e} ({:#x})", x.to_bits());
            same(what, root(x), due(x))?;
            same(what, plain(sqrt(x)), plain(x.sqrt()))?;
        }
        Ok(1000)
    })
}

/// The starred values, where the comparison must start.
#[test]
fn the_special_values() {
    for x in SPECIAL {
        assert_eq!(root(x), due(x), "root of {x:e}");
        assert_eq!(plain(sqrt(x)), plain(x.sqrt()), "sqrt of {x:e}");
    }
}
