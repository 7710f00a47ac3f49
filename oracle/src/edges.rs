//! The cards at the edges that the paper names ("Both sides of each edge") and at further limits of its table, with what
//! it says of each; then those of requests 2026-02, 2026-04 and 2026-07. The first stand where the paper's limits stood before
//! request 2026-04.

use crate::card::{Card, Contour, Pair, seal};
use crate::generate::{holes, moved_square, sheet, slit};
use crate::limits::{
    AUTO, BLOCK, CANDIDATES, CARD_BYTES, CHECK_AT, CONTOURS, GRID_REACH, Limits, PAIRS, PAIRS_A_BLOCK, PASSES,
    PER_CONTOUR, PER_MM, REACH, VERSION_AT, VERTICES, contour, head, shared,
};
use crate::random::Random;
use crate::reading::Refusal;

/// A sheet of plain parts.
fn parts(n: usize, c: usize, m: usize) -> Card {
    sheet(&Random::of(2026, "edges", n as u64), n, c, m)
}

/// Two plain parts, the first with another outline.
fn outlined(vertices: Vec<(f64, f64)>) -> Card {
    let mut card = parts(2, 2, 1);
    card.contours[0].vertices = vertices;
    card
}

/// So many vertices on a saw's edge.
fn saw(v: usize) -> Card {
    outlined((0..v).map(|k| (10.0 * k as f64, 7.0 * (k % 2) as f64)).collect())
}

/// No contour, and these pairs.
fn empty(pairs: Vec<Pair>) -> Card {
    Card { contours: Vec::new(), pairs, ..parts(1, 1, 0) }
}

/// Contours in a row, a vertex each, and pairs of their positions.
fn row(n: u32, pairs: &[(usize, usize)]) -> Card {
    let one = |k| Contour { id: 10 + k, tag: k, vertices: vec![(f64::from(k), 1.0)], ..Contour::default() };
    let mut card = Card { contours: (0..n).map(one).collect(), ..parts(1, 1, 0) };
    card.pairs = pairs.iter().map(|&(before, after)| card.pair(before, after)).collect();
    card
}

/// A coordinate of a vertex, then one of home.
fn reaching(far: f64) -> [Card; 2] {
    let home = Card { home: (0.0, far), ..parts(2, 2, 1) };
    [outlined(vec![(0.0, 0.0), (far, 0.0), (5.0, 5.0)]), home]
}

/// A card and its refusal, none where it passes.
pub type Edge = (Vec<u8>, Option<Refusal>);

/// The edges that the paper names, and those of its further limits.
pub fn edges() -> Vec<Edge> {
    let pair = Pair { before: (1, 1), after: (2, 2) };
    let Limits { contours, pairs } = Limits::BEFORE;
    let mut all = vec![
        (parts(contours, shared(contours), 0), None),
        (parts(contours, shared(contours), pairs), None),
        (parts(contours + 1, 1, 0), None),
        (parts(CANDIDATES / 3, 3, 0), None),
        (parts(CANDIDATES / 3 + 1, 3, 0), Some((4, 7))),
        (parts(CANDIDATES / PER_CONTOUR, PER_CONTOUR, 0), None),
        (parts(CANDIDATES / PER_CONTOUR + 1, PER_CONTOUR, 0), Some((4, 7))),
        (parts(3, PER_CONTOUR + 1, 0), Some((4, 3))),
        (saw(1), None),
        (saw(0), Some((6, 0))),
        (saw(VERTICES), None),
        (saw(VERTICES + 1), Some((6, 0))),
        (parts(3, 2, pairs), None),
        (parts(3, 2, pairs + 1), None),
        (empty(vec![]), None),
        (empty(vec![pair]), Some((10, 0))),
        (row(4, &[(3, 3)]), Some((12, 3))),
        (row(4, &[(2, 3)]), None),
        (row(3, &[(1, 2), (2, 1), (1, 0)]), Some((12, 1))),
        (row(3, &[(1, 2), (1, 0)]), None),
    ];
    for far in [REACH, -REACH] {
        all.extend(reaching(far).map(|card| (card, None)));
    }
    for far in [REACH.next_up(), -REACH.next_up()] {
        let [vertex, home] = reaching(far);
        all.extend([(vertex, Some((8, 1))), (home, Some((8, 0)))]);
    }
    written(all)
}

fn written(cards: Vec<(Card, Option<Refusal>)>) -> Vec<Edge> {
    cards.into_iter().map(|(card, due)| (card.bytes(), due)).collect()
}

/// A row of version 2: each contour's type, part and instance, and pairs of positions.
fn grouped(contours: &[(bool, u32, u32)], pairs: &[(usize, usize)]) -> Card {
    let mut card = Card { version: 2, ..row(contours.len() as u32, pairs) };
    for (contour, &group) in card.contours.iter_mut().zip(contours) {
        (contour.interior, contour.part, contour.instance) = group;
    }
    card
}

/// So many vertices, and a part and an instance behind them.
fn saw_of_a_part(v: usize) -> Card {
    let mut card = Card { version: 2, ..saw(v) };
    (card.contours[0].part, card.contours[0].instance) = (u32::MAX, u32::MAX);
    card
}

/// As many contours and written pairs as these limits allow, and by rule one pair more for every contour but the last, whose
/// holes they all are.
fn all_by_rule(limits: Limits) -> Card {
    let Limits { contours, pairs } = limits;
    let mut card = Card { version: 2, ..parts(contours, shared(contours), pairs) };
    for (k, contour) in card.contours.iter_mut().enumerate() {
        (contour.part, contour.interior) = (1, k + 1 < contours);
    }
    card
}

/// The edges of the rule that holes go before their outline.
fn of_the_rule() -> Vec<(Card, Option<Refusal>)> {
    const OUTLINE: bool = false;
    const HOLE: bool = true;
    let plate = |instance| [(OUTLINE, 1, 0), (HOLE, 1, instance)];
    let twice = [(OUTLINE, 1, 0), (OUTLINE, 1, 0), (HOLE, 1, 0)];
    let two_parts = [(OUTLINE, 1, 0), (HOLE, 1, 0), (OUTLINE, 2, 0), (HOLE, 2, 0)];
    vec![
        // a hole that is written behind its outline; behind that of another instance, of another part, of no part
        (grouped(&plate(0), &[]), None),
        (grouped(&plate(0), &[(1, 0)]), None),
        (grouped(&plate(0), &[(0, 1)]), Some((12, 0))),
        (grouped(&plate(1), &[(0, 1)]), None),
        (grouped(&[(OUTLINE, 1, 0), (HOLE, 2, 0)], &[(0, 1)]), None),
        (grouped(&[(OUTLINE, 0, 7), (HOLE, 0, 7)], &[(0, 1)]), None),
        (grouped(&[(OUTLINE, 1 << 24, 1 << 16), (HOLE, 1 << 24, 1 << 16)], &[(0, 1)]), Some((12, 0))),
        (Card { version: 1, ..grouped(&plate(0), &[(0, 1)]) }, None),
        // a contour in front that only waits on the cycle
        (grouped(&[(OUTLINE, 2, 0), (OUTLINE, 1, 0), (HOLE, 1, 0)], &[(1, 2), (1, 0)]), Some((12, 1))),
        // of two outlines the first waits; without an outline none does, and no outline waits for another
        (grouped(&twice, &[(0, 2)]), Some((12, 0))),
        (grouped(&twice, &[(1, 2)]), None),
        (grouped(&[(HOLE, 1, 0), (HOLE, 1, 0)], &[(1, 0)]), None),
        (grouped(&[(OUTLINE, 1, 0), (OUTLINE, 1, 0)], &[(1, 0)]), None),
        // a cycle by two rules
        (grouped(&two_parts, &[(0, 3), (2, 1)]), Some((12, 0))),
        (grouped(&two_parts, &[(0, 3)]), None),
        (all_by_rule(Limits::BEFORE), None),
    ]
}

/// A card with other bytes at these places, its checks made good.
fn with(card: &Card, changes: &[(usize, u8)]) -> Vec<u8> {
    let mut bytes = card.bytes();
    for &(at, byte) in changes {
        bytes[at] = byte;
    }
    seal(&mut bytes);
    bytes
}

/// The edges of the version: a card's limits with it, and single bytes of a card, given by their places.
fn of_the_version() -> Vec<Edge> {
    let mut all = written(vec![
        (saw_of_a_part(VERTICES), None),
        (saw_of_a_part(VERTICES + 1), Some((6, 0))),
        (Card { version: 2, ..parts(3, 2, Limits::BEFORE.pairs + 1) }, None),
        (Card { version: 2, ..empty(vec![]) }, None),
        (Card { version: 0, ..row(2, &[]) }, Some((3, 0))),
        (Card { version: 3, ..row(2, &[]) }, Some((3, 0))),
    ]);
    let changed = |version: u8, at: usize, byte: u8| with(&Card { version, ..row(2, &[(0, 1)]) }, &[(at, byte)]);
    let start = |block: usize| block * BLOCK + VERSION_AT;
    let in_contour = |at: usize| BLOCK + at;
    all.extend([
        (changed(1, start(0), 2), Some((3, 1))),
        (changed(2, start(0), 1), Some((3, 1))),
        (changed(1, start(2), 2), Some((3, 2))),
        (changed(2, start(2), 1), Some((3, 2))),
        (changed(2, start(3), 3), Some((3, 3))),
        (changed(1, in_contour(contour::PART - 1), 1), Some((7, 1))),
        (changed(2, in_contour(contour::PART - 1), 1), Some((7, 1))),
        (changed(2, head::GRID, 1), None),
    ]);
    // each byte of a part and an instance is a field in version 2 alone
    for at in contour::PART..CHECK_AT {
        all.extend([(changed(1, in_contour(at), 1), Some((7, 1))), (changed(2, in_contour(at), 1), None)]);
    }
    all
}

/// The edges of request 2026-02.
pub fn edges_of_parts() -> Vec<Edge> {
    [written(of_the_rule()), of_the_version()].concat()
}

/// The edges of request 2026-04, in either version: the most contours, pairs and bytes, and more.
pub fn edges_of_size() -> Vec<Edge> {
    /// What is longer than any card.
    const LONG: Option<Refusal> = Some((1, CARD_BYTES as u64 + 1));
    // with a contour too many so many pairs still fit into the longest card
    let fitting = PAIRS - PAIRS_A_BLOCK;
    let sizes = [
        (CONTOURS - 1, 1, 0, None),
        (CONTOURS, 1, 0, None),
        (CONTOURS, 1, PAIRS, None),
        (CONTOURS, 2, 0, Some((4, 7))),
        (CANDIDATES / 2 + 1, 2, 0, Some((4, 7))),
        (CONTOURS + 1, 1, 0, Some((4, 1))),
        (CONTOURS + 1, 1, fitting, Some((4, 1))),
        (CONTOURS + 1, 1, fitting + 1, LONG),
        (CONTOURS, 1, PAIRS + 1, LONG),
        (CONTOURS - 1, 1, PAIRS, None),
        (CONTOURS - 1, 1, PAIRS + 1, Some((4, 2))),
        (2, 1, PAIRS, None),
        (2, 1, PAIRS + 1, Some((4, 2))),
    ];
    let of = |version: u8| {
        let mut all = written(sizes.map(|(n, c, m, due)| (Card { version, ..parts(n, c, m) }, due)).into());
        let longest = Card { version, ..parts(CONTOURS, 1, PAIRS) }.bytes();
        assert_eq!(longest.len(), CARD_BYTES);
        let cut = |bytes: usize| {
            let mut card = longest.clone();
            card.resize(bytes, 0);
            card
        };
        all.push((cut(CARD_BYTES - 1), Some((1, CARD_BYTES as u64 - 1))));
        all.extend([1, BLOCK].map(|more| (cut(CARD_BYTES + more), LONG)));
        all
    };
    [of(1), of(2), written(vec![(all_by_rule(Limits::TODAY), None)])].concat()
}

/// The edges of the byte that asks for the move to the grid: what it may be, what is told before it and what after it.
fn of_the_byte() -> Vec<Edge> {
    const WRONG: Option<Refusal> = Some((4, 8));
    let one = row(2, &[(0, 1)]);
    let two = |grid| Card { version: 2, grid, ..one.clone() };
    let mut all: Vec<Edge> = [0, 1].map(|grid| (two(grid).bytes(), None)).into();
    all.extend([2, 3, 128, 255].map(|grid| (two(grid).bytes(), WRONG)));
    all.extend([1, 2, 255].map(|byte| (with(&one, &[(head::GRID, byte)]), Some((7, 0)))));
    // what stands behind it is spare in either version
    all.extend([
        (with(&one, &[(head::GRID + 1, 1)]), Some((7, 0))),
        (with(&two(0), &[(head::GRID + 1, 1)]), Some((7, 0))),
        (with(&two(1), &[(head::GRID + 1, 1)]), Some((7, 0))),
        (with(&two(1), &[(CHECK_AT - 1, 255)]), Some((7, 0))),
        (with(&two(2), &[(head::GRID + 1, 1)]), WRONG),
    ]);
    // every other field is told first, with whatever byte
    let many = |grid| with(&Card { c: PER_CONTOUR as u16, ..two(grid) }, &[(head::CONTOURS, 11)]);
    all.extend([
        (with(&two(2), &[(head::CONTOURS, CONTOURS as u8 + 1)]), Some((4, 1))),
        (with(&two(2), &[(head::PAIRS, PAIRS as u8 + 1)]), Some((4, 2))),
        (Card { c: 0, ..two(2) }.bytes(), Some((4, 3))),
        (Card { c: PER_CONTOUR as u16 + 1, ..two(2) }.bytes(), Some((4, 3))),
        (Card { passes: PASSES + 1, ..two(2) }.bytes(), Some((4, 4))),
        (Card { exterior: AUTO + 1, ..two(2) }.bytes(), Some((4, 5))),
        (Card { interior: AUTO + 1, ..two(255) }.bytes(), Some((4, 6))),
        (many(0), Some((4, 7))),
        (many(1), Some((4, 7))),
        (many(2), Some((4, 7))),
        (many(255), Some((4, 7))),
    ]);
    // and so is what is wrong with the length, a check or the head's start
    let unsealed = |at: usize| {
        let mut bytes = two(1).bytes();
        bytes[at] += 1;
        bytes
    };
    all.extend([
        (two(2).bytes()[..BLOCK - 1].to_vec(), Some((1, BLOCK as u64 - 1))),
        (unsealed(head::GRID), Some((2, 0))),
        (unsealed(BLOCK + CHECK_AT), Some((2, 1))),
        (with(&two(2), &[(0, 2)]), Some((3, 0))),
        (with(&two(2), &[(VERSION_AT, 0)]), Some((3, 0))),
        (with(&two(2), &[(VERSION_AT, 3)]), Some((3, 0))),
        // by the head's version it is spare, and that is told behind the other blocks' versions
        (with(&two(1), &[(VERSION_AT, 1)]), Some((3, 1))),
    ]);
    // all else is told behind it
    let behind = |grid: u8| {
        let changed = |at: usize, byte: u8| with(&two(grid), &[(at, byte)]);
        [
            (changed(head::CONTOURS, 3), (5, 4)),
            (changed(BLOCK + VERSION_AT, 1), (3, 1)),
            (changed(BLOCK + contour::COUNT, 0), (6, 0)),
            (Card { home: (f64::NAN, 0.0), ..two(grid) }.bytes(), (8, 0)),
            (Card { version: 2, grid, ..row(2, &[(0, 1), (1, 0)]) }.bytes(), (12, 0)),
        ]
    };
    all.extend(behind(1).map(|(bytes, due)| (bytes, Some(due))));
    all.extend(behind(2).map(|(bytes, _)| (bytes, WRONG)));
    all
}

/// A card that asks for the move: contours by their vertices, and two dots, so that there is something to search.
fn moving(c: usize, outlines: &[&[(f64, f64)]]) -> Card {
    let dots: [&[(f64, f64)]; 2] = [&[(4.0, 0.0)], &[(0.0, 4.0)]];
    let contour = |(id, vertices): (u32, &&[(f64, f64)])| Contour {
        id,
        tag: 10 * id,
        vertices: vertices.to_vec(),
        ..Contour::default()
    };
    let contours = (5..).zip(outlines.iter().chain(&dots)).map(contour).collect();
    Card { job: 49, c: c as u16, home: (3.0 / PER_MM, 1.0), contours, ..moved_square() }
}

/// The edges of the move itself: where it goes, what it leaves alone, and the same without it.
fn of_the_move() -> Vec<Card> {
    let square = |x: f64, y: f64, side: f64| [(x, y), (x + side, y), (x + side, y + side), (x, y + side)];
    let in_steps = |outline: &[(f64, f64)]| -> Vec<(f64, f64)> {
        outline.iter().map(|&(x, y)| (x / PER_MM, y / PER_MM)).collect()
    };
    let stepping = |c: usize, outline: &[(f64, f64)]| moving(c, &[&in_steps(outline)]);
    let mut all: Vec<Card> = (1..=PER_CONTOUR).map(|c| moving(c, &[&square(1.0, 2.0, 10.0)])).collect();
    for way in [1.0, -1.0] {
        let half = 0.5 * way;
        all.extend([
            // halfway between zero and the next point, and further out, along and across
            stepping(4, &[(0.0, 0.0), (way, 0.0)]),
            stepping(4, &[(0.0, 0.0), (0.0, way)]),
            stepping(4, &[(way, 3.0), (4.0 * way, 3.0)]),
            stepping(8, &[(0.0, way), (0.0, 7.0 * way)]),
            // vertices that are there themselves, the first one too
            stepping(2, &square(half, half, way)),
            stepping(2, &square(3.0 * half, 0.0, 4.0 * way)),
            // the last before halfway goes to zero, the next does not
            stepping(2, &[(way * 0.5f64.next_down(), 1.0), (2.0 * way, 1.0)]),
            stepping(2, &[(way * 0.5f64.next_up(), 1.0), (2.0 * way, 1.0)]),
            // to zero from all around it
            stepping(4, &square(-0.5 * half, -0.5 * half, half)),
            stepping(2, &[(way * f64::MIN_POSITIVE, way * 1e-300), (way, 0.0)]),
            stepping(2, &[(0.0 * way, 0.0 * way), (way, way)]),
            // at the grid's reach and at the largest coordinate, halfway to it too
            moving(4, &[&square(way * GRID_REACH, way * GRID_REACH, -5.0 * way / PER_MM)]),
            moving(4, &[&square(way * REACH, 0.0, -5.0 * way / PER_MM)]),
            moving(2, &[&square(way * (REACH - 0.5 / PER_MM), 0.0, -way)]),
        ]);
    }
    // a dot stays where it is, with one candidate or more, and a way about as short as it may be
    let off = (0.3 / PER_MM, 0.7 / PER_MM);
    all.extend([1, 2, 8].map(|c| moving(c, &[&[off]])));
    const SHORT: f64 = 5e-13;
    all.extend([SHORT.next_down(), SHORT, SHORT.next_up()].map(|there| moving(2, &[&[(0.0, off.1), (there, off.1)]])));
    // edges of no length: what is found at their vertex is found on the edge before
    all.push(moving(2, &[&[(off.0, 0.0), (off.0 + 1.0, 0.0), (off.0 + 1.0, 0.0), (off.0 + 1.0, 0.0)]]));
    let sheet = |n, c| Card { version: 2, grid: 1, ..parts(n, c, 0) };
    all.extend([sheet(CANDIDATES / 3, 3), sheet(CANDIDATES / PER_CONTOUR, PER_CONTOUR), sheet(CONTOURS, 1)]);
    all.extend([moved_square(), Card { grid: 1, ..holes() }, Card { version: 2, grid: 1, ..slit() }]);
    let plain = [&all[2], &all[8], &all[12], &moved_square()].map(|card| Card { grid: 0, ..card.clone() });
    all.extend(plain);
    all.push(Card { version: 1, grid: 0, ..moved_square() });
    all
}

/// The edges of request 2026-07.
pub fn edges_of_grid() -> Vec<Edge> {
    let moved = of_the_move().into_iter().map(|card| (card.bytes(), None));
    of_the_byte().into_iter().chain(moved).collect()
}

/// The second reading, the check and the export say what the paper says.
#[test]
fn each_edge_is_as_the_paper_says() {
    use crate::{check, doors::refused, exports, reading};
    let all = [edges(), edges_of_parts(), edges_of_size(), edges_of_grid()].concat();
    for (k, (bytes, due)) in all.into_iter().enumerate() {
        let code = due.map_or(0, |(number, place)| refused(number, place));
        assert_eq!(reading::refusal(&bytes), due, "edge {k}");
        assert_eq!((check::check(&bytes), exports::check(&bytes)), (code, Ok(code)), "edge {k}");
    }
}
