//! The speed figures of docs/SPEED.md: ours and what it is held against, in turns in one run, the best of
//! several rounds each.

use std::time::Instant;

/// Times `a` and `b` in turns and gives the shortest time of each, in nanoseconds.
fn both(rounds: usize, mut a: impl FnMut(), mut b: impl FnMut()) -> (f64, f64) {
    let once = |work: &mut dyn FnMut()| {
        let began = Instant::now();
        work();
        began.elapsed().as_nanos() as f64
    };
    let mut best = (f64::MAX, f64::MAX);
    for _ in 0..rounds {
        best = (best.0.min(once(&mut a)), best.1.min(once(&mut b)));
    }
    best
}

fn root() {
    use oracle::random::Random;
    use std::hint::black_box;
    let r = Random::of(1, "bench", 0);
    let inputs: Vec<f64> = (0..4096).map(|_| r.unit() * 4_398_046_511_104.0).collect();
    let sum = |f: fn(f64) -> f64| inputs.iter().fold(0.0, |sum, &x| sum + f(x));
    let (ours, hardware) = both(
        200,
        || _ = black_box(sum(oracle::root::sqrt)),
        || _ = black_box(inputs.iter().fold(0.0, |sum, &x| sum + x.sqrt())),
    );
    let each = inputs.len() as f64;
    println!("root: {:.2} ns, the instruction {:.2} ns, {:.1} times", ours / each, hardware / each, ours / hardware);
}

/// The largest cards, from before request 2026-04 and of today. Of the latter in one the pairs lead from every other contour to
/// the next one and no further, in another from each contour to the next, and so to all that come after it: what that one takes
/// longer is the closure on dense pairs.
fn check() {
    use oracle::limits::{BLOCK, CONTOURS, Limits, PAIRS, shared};
    use oracle::{card::Card, check, generate, random::Random, reading};
    use std::hint::black_box;
    let largest = |limits: Limits| {
        let Limits { contours, pairs } = limits;
        generate::sheet(&Random::of(1, "bench", 0), contours, shared(contours), pairs)
    };
    let (before, sheet) = (largest(Limits::BEFORE), largest(Limits::TODAY));
    let led = |forward: &dyn Fn(usize) -> (usize, usize)| {
        let pairs = (0..PAIRS).map(|q| sheet.pair(forward(q).0, forward(q).1)).collect();
        Card { pairs, ..sheet.clone() }
    };
    let cards = [
        ("pairs", before.clone()),
        ("pairs and rule", generate::holed(before)),
        ("pairs", sheet.clone()),
        ("pairs and rule", generate::holed(sheet.clone())),
        ("pairs by twos", led(&|q| (2 * q % CONTOURS, 2 * q % CONTOURS + 1))),
        ("pairs in a chain", led(&|q| (q % (CONTOURS - 1), q % (CONTOURS - 1) + 1))),
    ];
    for (pairs, card) in cards {
        let bytes = card.bytes();
        let (ours, plain) = both(
            300,
            || assert_eq!(check::check(black_box(&bytes)), 0),
            || assert_eq!(reading::refusal(black_box(&bytes)), None),
        );
        println!(
            "check of {} blocks, {pairs}: {:.1} µs, plain Rust {:.1} µs, {:.2} times",
            bytes.len() / BLOCK,
            ours / 1e3,
            plain / 1e3,
            ours / plain
        );
    }
}

/// The classes of cards: version, the byte that asks for the grid, contours, candidates a contour, written pairs. In version 2
/// each two contours are a hole and its outline. All but the third have as many candidates as a card takes.
#[cfg(feature = "original")]
const CLASSES: [(u8, u8, usize, usize, usize); 10] = {
    use oracle::limits::{CANDIDATES as ALL, CONTOURS, Limits, PAIRS, PER_CONTOUR as EACH};
    [
        (1, 0, ALL / 2, 2, 0),
        (1, 0, ALL / 2, 2, ALL / 2),
        (1, 0, Limits::BEFORE.contours, 1, Limits::BEFORE.pairs),
        (1, 0, CONTOURS, 1, 0),
        (1, 0, CONTOURS, 1, PAIRS),
        (1, 0, ALL / 4, 4, 0),
        (1, 0, ALL / EACH, EACH, 0),
        (2, 0, ALL / 2, 2, 0),
        (2, 0, ALL / EACH, EACH, 0),
        (2, 1, ALL / EACH, EACH, 0),
    ]
};

/// Times ten cards of each class. `ours` and `theirs` make of a card what is timed.
#[cfg(feature = "original")]
fn classes<A: FnMut(), B: FnMut()>(
    what: &str,
    ours: impl Fn(&oracle::card::Card) -> A,
    theirs: impl Fn(&oracle::card::Card) -> B,
) {
    use oracle::{answer::Problem, card::Card, generate, random::Random};
    const CARDS: u64 = 10;
    for (version, grid, n, c, m) in CLASSES {
        let (mut a, mut b, mut trials) = (0.0, 0.0, 0);
        for case in 0..CARDS {
            let sheet = generate::sheet(&Random::of(1, "bench", case), n, c, m);
            let card = Card { grid, ..if version == 2 { generate::holed(sheet) } else { sheet } };
            let times = both(5, ours(&card), theirs(&card));
            (a, b) = (a + times.0, b + times.1);
            trials += Problem::of(&card).search(0).moves;
        }
        println!(
            "{what} n={n} c={c} m={m} version {version}, grid {grid}: {:.0} µs a card, {:.0} ns a trial; the original {:.0} µs, {:.0} ns; {:.1} times as fast",
            a / 1e3 / CARDS as f64,
            a / trials as f64,
            b / 1e3 / CARDS as f64,
            b / trials as f64,
            b / a
        );
    }
}

/// The search alone, on distances that are there: the start and what is made of it.
#[cfg(feature = "original")]
fn search() {
    use oracle::{answer::Problem, search, start};
    use std::hint::black_box;
    classes(
        "search",
        |card| {
            let chart = search::Chart::of(card, &Problem::of(card));
            let (n, passes) = (card.contours.len(), u32::from(card.passes));
            move || {
                let (_, mut tour) = start::constrained(&chart, n);
                black_box(chart.improve(&mut tour, passes, 0));
                black_box(tour);
            }
        },
        |card| {
            let problem = Problem::of(card);
            move || _ = black_box(problem.unlimited())
        },
    );
}

/// From a card's bytes, or for the original from its fields, to the tour.
#[cfg(feature = "original")]
fn tour() {
    use oracle::answer;
    use std::hint::black_box;
    classes(
        "tour",
        |card| {
            let bytes = card.bytes();
            move || _ = black_box(jambolive::tour(&bytes).unwrap())
        },
        |card| {
            let card = card.clone();
            move || _ = black_box(answer::solved(&card))
        },
    );
}

/// Bridges of regular outlines: four on those of few vertices, and the most on one of the most.
#[cfg(feature = "original")]
fn bridges() {
    use oracle::limits::{BRIDGE_NUMBERS, BRIDGES, VERTICES};
    use oracle::{bridge, exports};
    use std::hint::black_box;
    const CALLS: usize = 100;
    for (v, count) in [(4, 4), (12, 4), (VERTICES, BRIDGES)] {
        let vertex = |j: usize| {
            let angle = std::f64::consts::TAU * j as f64 / v as f64;
            [500.0 + 80.0 * angle.cos(), 400.0 + 80.0 * angle.sin()]
        };
        let numbers: Vec<f64> = (0..v).flat_map(vertex).collect();
        let centres: Vec<f64> = (0..count).map(|k| 440.0 * (k as f64 + 0.5) / count as f64).collect();
        let q = bridge::Asked { numbers, width: 2.0, centres };
        let mut room = [0.0; BRIDGE_NUMBERS];
        let (ours, theirs) = both(
            300,
            || {
                for _ in 0..CALLS {
                    let (contour, centres) = (black_box(&q.numbers), black_box(&q.centres));
                    let (outline, asked) = (contour.as_ptr(), centres.as_ptr());
                    let code = unsafe {
                        exports::jl_bridges(outline, contour.len(), q.width, asked, centres.len(), room.as_mut_ptr())
                    };
                    assert_eq!(code, 0);
                }
            },
            || (0..CALLS).for_each(|_| _ = black_box(bridge::bridges(black_box(&q)))),
        );
        let each = |time: f64| time / 1e3 / CALLS as f64;
        println!(
            "bridges, {count} of {v} vertices: {:.2} µs, the original {:.2} µs, {:.1} times",
            each(ours),
            each(theirs),
            ours / theirs
        );
    }
}

fn main() {
    root();
    check();
    #[cfg(feature = "original")]
    {
        search();
        tour();
        bridges();
    }
    #[cfg(not(feature = "original"))]
    println!("search, tour, bridges: left out, the original is not at hand");
}
