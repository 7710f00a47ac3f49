//! The original's own modules, as build.rs copies them, and stand-ins for what they import.
//!
//! `given` is the original search, unchanged. `gtsp` is the same file with the rule for a rejected candidate
//! mended and with the move to the grid, which is made where it is asked for; `counted` is that with its limit by the
//! clock replaced by a count of trials.

#![allow(dead_code, unused, unexpected_cfgs, clippy::all)]

extern crate self as u_nesting_core;

macro_rules! copied {
    ($($name:ident)*) => {
        $(pub mod $name { include!(concat!(env!("OUT_DIR"), "/", stringify!($name), ".rs")); })*
    };
}
copied!(config contour cost bridge result hierarchy given gtsp counted);

pub type Result<T> = std::result::Result<T, Error>;

/// The refusals that config.rs can give. No run asks for one.
#[derive(Debug)]
pub enum Error {
    OutOfRange {
        parameter: String,
        id: Option<String>,
        min: Option<f64>,
        max: Option<f64>,
        exclusive_min: Option<f64>,
        exclusive_max: Option<f64>,
        got: f64,
        range: String,
    },
    UnknownOption {
        parameter: String,
        got: String,
        expected: Vec<String>,
    },
}

pub mod error {
    pub fn whole_at_least(_: &str, value: i128, _: i128) -> crate::Result<usize> {
        Ok(value as usize)
    }
    pub fn check_at_least(_: &str, _: f64, _: f64) -> crate::Result<()> {
        Ok(())
    }
    pub fn check_above(_: &str, _: f64, _: f64) -> crate::Result<()> {
        Ok(())
    }
}

/// A clock that stands still: every run has the time limit 0.
pub mod timing {
    pub struct Timer;
    impl Timer {
        pub fn now() -> Timer {
            Timer
        }
        pub fn elapsed_ms(&self) -> u64 {
            unreachable!("no run has a time limit")
        }
    }
}

/// What the nesting of parts in holes needs. That rule is left out, so nothing asks.
pub mod geom {
    pub mod collision {
        pub fn boundary_distance(_: &[(f64, f64)], _: &[(f64, f64)]) -> Option<f64> {
            unreachable!("no part is looked for in a hole")
        }
    }
    pub mod polygon {
        pub fn contains_point(_: &[(f64, f64)], _: (f64, f64)) -> bool {
            unreachable!("no part is looked for in a hole")
        }
    }
}

/// The move of request 2026-07 in the copies `gtsp` and `counted`. It is off but where a question asks for it.
pub mod grid {
    use std::cell::Cell;
    thread_local! {
        static ASKED: Cell<bool> = const { Cell::new(false) };
    }

    /// Makes candidates, with the move or without it.
    pub fn with<T>(asked: bool, make: impl FnOnce() -> T) -> T {
        ASKED.set(asked);
        let made = make();
        ASKED.set(false);
        made
    }

    /// A point that was found at a perimeter distance, moved where that is asked for.
    pub fn moved(point: (f64, f64)) -> (f64, f64) {
        if ASKED.get() {
            (nearest(point.0), nearest(point.1))
        } else {
            point
        }
    }

    /// The nearest whole number of steps of 1/1024 mm: halves go away from zero, and a zero is +0.
    pub fn nearest(v: f64) -> f64 {
        (v * 1024.0).round() / 1024.0 + 0.0
    }
}

/// The counted move limit of the copy `counted`, and what else it counts.
pub mod count {
    use std::cell::Cell;
    thread_local! {
        static LIMIT: Cell<u64> = const { Cell::new(0) };
        static MOVES: Cell<u64> = const { Cell::new(0) };
        static AFTER: Cell<u64> = const { Cell::new(0) };
    }

    /// Before a search: no trial yet, and at most `limit` of them (0: as many as it takes).
    pub fn begin(limit: u64) {
        LIMIT.set(limit);
        MOVES.set(0);
        AFTER.set(0);
    }

    /// The trials that began since.
    pub fn moves() -> u64 {
        MOVES.get()
    }

    /// The candidates since that were rejected after another was accepted in the same turn.
    pub fn rejected_after() -> u64 {
        AFTER.get()
    }

    /// A candidate is rejected, in a turn that has accepted another or not.
    pub fn rejected(after_another: bool) {
        AFTER.set(AFTER.get() + u64::from(after_another));
    }

    /// A trial is about to begin: whether it may not. Otherwise it is counted.
    pub fn spent() -> bool {
        let (limit, moves) = (LIMIT.get(), MOVES.get());
        if limit > 0 && moves == limit {
            return true;
        }
        MOVES.set(moves + 1);
        false
    }
}
