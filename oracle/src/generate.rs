//! Cards to try: good ones of every shape, and damaged ones of every kind.

use crate::card::{Card, Contour, Pair, seal};
use crate::limits::{
    AUTO, BLOCK, CANDIDATES, CHECK_AT, GRID_REACH, Limits, PAIR, PAIRS_A_BLOCK, PASSES, PAYLOAD_AT, PER_CONTOUR,
    PER_MM, REACH, VERSION_AT, VERTEX, VERTICES, contour, head, shared,
};
use crate::random::{KINDS, Kind, Random};
use crate::reading::by_rule;

/// The job that the paper prints whole.
pub fn job_41() -> Card {
    let one = |id, tag, interior, vertex| Contour { id, tag, interior, vertices: vec![vertex], ..Contour::default() };
    let contours = vec![one(7, 70, false, (12.0, 12.0)), one(9, 90, false, (3.0, 0.0)), one(2, 20, true, (3.0, 4.0))];
    let mut card = Card { job: 41, c: 1, passes: 10, exterior: AUTO, interior: AUTO, contours, ..Card::default() };
    card.pairs.push(card.pair(2, 1));
    card
}

/// Job 41 with its pair forgotten, in version 2: that the hole and the second outline are one part says it too.
pub fn holes() -> Card {
    let mut card = Card { version: 2, job: 47, pairs: Vec::new(), ..job_41() };
    for k in [1, 2] {
        (card.contours[k].part, card.contours[k].instance) = (5, 1);
    }
    card
}

/// A card of crates/witnesses: all stands on the line y = 0, home and each contour's vertices by their x; ids count from 5.
fn on_a_line(job: u32, c: u16, home: f64, contours: &[&[f64]]) -> Card {
    let on = |x| (x, 0.0);
    let along = |(id, xs): (u32, &&[f64])| {
        let vertices = xs.iter().map(|&x| on(x)).collect();
        Contour { id, tag: 10 * id, vertices, ..Contour::default() }
    };
    let contours = (5..).zip(contours).map(along).collect();
    Card { job, c, passes: 10, home: on(home), exterior: AUTO, interior: AUTO, contours, ..Card::default() }
}

/// The one whose search accepts candidates and a reversal, also in its second pass: two slits and a dot.
pub fn aligned(limit: u32) -> Card {
    let mut card = Card { limit, ..on_a_line(43, 2, 5.0, &[&[2.0, 10.0], &[1.0, 8.0], &[9.0]]) };
    card.pairs.push(card.pair(0, 1));
    card
}

/// The one on which the rule for a rejected candidate shows: a slit with three candidates, of which the first is better than
/// the one held and the last is not, and two dots.
pub fn slit() -> Card {
    on_a_line(45, 3, 7.0, &[&[4.0, 10.0], &[2.0], &[1.0]])
}

/// A square whose candidates but the first are off the grid, and are moved to it, and two dots off it, which are not.
pub fn moved_square() -> Card {
    let square = vec![(0.0, 0.0), (10.0, 0.0), (10.0, 10.0), (0.0, 10.0)];
    let outlines = [square, vec![(20.3, 0.0)], vec![(20.3, 3.3)]];
    let contour = |(id, vertices)| Contour { id, tag: 10 * id, vertices, ..Contour::default() };
    let contours = (5..).zip(outlines).map(contour).collect();
    let (version, grid, home) = (2, 1, (30.0, 5.0));
    Card { version, grid, job: 48, c: 3, passes: 10, home, exterior: AUTO, interior: AUTO, contours, ..Card::default() }
}

/// Good cards of every shape, of either version. Any may have more pairs than before request 2026-04; few have more contours,
/// over which the original takes long. In version 2 every other asks for the move to the grid.
pub fn good(r: &Random, version: u8) -> Card {
    let few_contours = Limits { contours: Limits::BEFORE.contours, ..Limits::TODAY };
    let card = if r.one_in(32) { large(r, version) } else { good_within(r, version, few_contours) };
    perhaps_gridded(r, card)
}

/// A card of version 2 asks for the move to the grid, or does not. That is drawn behind all else, so that the rest of a card
/// is as it was before request 2026-07.
fn perhaps_gridded(r: &Random, card: Card) -> Card {
    Card { grid: u8::from(card.version == 2 && r.one_in(2)), ..card }
}

/// Good cards of version 2 that ask for the move, with contours as `stepped` makes them and every number of candidates: home
/// and all vertices on the grid and within its reach, or not.
pub fn gridded(r: &Random, on: bool) -> Card {
    let c = r.from(1, PER_CONTOUR);
    let most = CANDIDATES / c;
    let n = r.pick(&[r.from(1, 3), r.from(3, most.min(8)), r.from(3, most.min(20)), r.from(1, most), most]);
    let mut card = sized(r, 2, n, Limits::TODAY);
    (card.c, card.grid) = (c as u16, 1);
    card.home = if on { (r.on_grid(), r.on_grid()) } else { (r.about_grid(), r.about_grid()) };
    for contour in &mut card.contours {
        contour.vertices = stepped(r, on);
    }
    // over many contours the original takes long
    if n > Limits::BEFORE.contours && !r.one_in(32) {
        card.limit = r.pick(&[r.from(1, 3), r.from(3, 2000)]) as u32;
    }
    card
}

/// A contour's vertices about the grid, in plain forms: with sides of whole steps, candidates are often halfway between two
/// of its points. `on` keeps all of them on it and within its reach; else they lie beside it too, sides are parts of a step,
/// and some ways are about as short as they may be for more than one candidate.
pub fn stepped(r: &Random, on: bool) -> Vec<(f64, f64)> {
    let coordinate = || if on { r.on_grid() } else { r.about_grid() };
    let (x, y) = (coordinate(), coordinate());
    let step = if on { 1.0 } else { r.pick(&[1.0, 1.0, 0.5, 0.25, 1.0 / 3.0]) } / PER_MM;
    let side = || r.either_way(step * r.pick(&[0, 1, 2, 3, 5, 7, 16, 100, 1001, 10_240, r.below(1 << 20)]) as f64);
    let (a, b) = (side(), side());
    let rectangle = [(0.0, 0.0), (a, 0.0), (a, b), (0.0, b)];
    let corners = match r.below(if on { 9 } else { 10 }) {
        0 => vec![(0.0, 0.0)],
        1 => vec![(0.0, 0.0), (a, 0.0)],
        2 => vec![(0.0, 0.0), (0.0, b)],
        // its length is a whole number of steps too
        3 => vec![(0.0, 0.0), (3.0 * a, 4.0 * a)],
        4 | 5 => rectangle.to_vec(),
        // with edges of no length
        6 => rectangle.iter().flat_map(|&corner| vec![corner; r.from(1, 3)]).collect(),
        7 => (0..r.from(2, 12)).map(|_| (side(), side())).collect(),
        8 => return (0..r.from(2, VERTICES)).map(|_| (coordinate(), coordinate())).collect(),
        _ => {
            // at x = 0, where the way there and back has just that length
            const HALF: f64 = 5e-13;
            let there = r.pick(&[HALF, HALF.next_up(), HALF.next_down(), HALF / 2.0, 2.0 * HALF]);
            return vec![(0.0, y), (there, y)];
        }
    };
    let reach = if on { GRID_REACH } else { REACH };
    // a sum would make a -0 a 0
    let by = |v: f64, d: f64| if d == 0.0 { v } else { (v + d).clamp(-reach, reach) };
    corners.into_iter().map(|(dx, dy)| (by(x, dx), by(y, dy))).collect()
}

/// Good cards with more contours than before request 2026-04. One in 32 has no limit, so that its search goes to its end.
pub fn large(r: &Random, version: u8) -> Card {
    let most = Limits::TODAY.contours;
    let n = r.pick(&[r.from(Limits::BEFORE.contours + 1, most), r.from(Limits::BEFORE.contours + 1, most), most]);
    let card = sized(r, version, n, Limits::TODAY);
    let limit = r.pick(&[r.from(1, 3), r.from(3, 200), r.from(200, 2000)]);
    Card { limit: if r.one_in(32) { 0 } else { limit as u32 }, ..card }
}

/// Good cards of every shape within these limits.
pub fn good_within(r: &Random, version: u8, limits: Limits) -> Card {
    let most = limits.contours;
    let n = match r.below(10) {
        0 => r.index(3),
        1..=4 => r.from(3, 8),
        5..=7 => r.from(9, most / 2),
        _ => r.from(most / 2 + 1, most),
    };
    sized(r, version, n, limits)
}

/// Good cards with n contours, and no more pairs than these limits allow.
fn sized(r: &Random, version: u8, n: usize, limits: Limits) -> Card {
    let most = shared(n).min(PER_CONTOUR);
    let c = r.pick(&[1, most.min(2), r.from(1, most), most]) as u16;
    // plain sheets come most often: there a search has most to do
    let kind = r.pick(&[r.pick(&KINDS), Kind::Sheet, Kind::Grid]);
    let mut card = Card {
        version,
        job: r.next() as u32,
        c,
        passes: r.pick(&[0, 1, 2, 3, 10, 10, 100, PASSES]),
        limit: limit(r),
        home: r.point(kind),
        exterior: direction(r),
        interior: direction(r),
        ..Card::default()
    };
    let named = r.below(4);
    // 64 where that is enough, so that the cards of before stay as they were
    let apart = if n > 64 { 128 } else { 64 };
    for k in 0..n {
        let id = match named {
            0 => k as u32,
            1 => u32::MAX - k as u32,
            2 => (n - k) as u32 * 1000,
            // its last bits are k: no id comes twice
            _ => (r.next() as u32) / apart * apart + k as u32,
        };
        let tag = if r.one_in(3) { 7 } else { r.next() as u32 };
        let interior = r.one_in(2);
        card.contours.push(Contour { id, tag, interior, vertices: outline(r, kind), ..Contour::default() });
    }
    if version == 2 {
        parts(r, &mut card);
    }
    pairs(r, &mut card, limits.pairs);
    card
}

/// Parts and instances, few of each, so that groups are common. On a card they differ in one byte of the four. Without a
/// part the instance is any number, and often another's.
fn parts(r: &Random, card: &mut Card) {
    let (parts, instances) = (r.pick(&[0, 1, 1, 2, 3]), r.pick(&[1, 1, 2, 3]));
    let (part_byte, instance_byte) = (8 * r.below(4), 8 * r.below(4));
    for contour in &mut card.contours {
        contour.part = (r.from(0, parts) as u32) << part_byte;
        contour.instance = match contour.part {
            0 => r.pick(&[0, 1, 7, r.next() as u32]),
            _ => (r.index(instances) as u32) << instance_byte,
        };
    }
}

/// Good cards with three contours or more and up to three candidates a contour or more, so that a turn may have two trials.
pub fn turning(r: &Random, version: u8) -> Card {
    let n = r.from(3, CANDIDATES / 3);
    let mut card = sized(r, version, n, Limits::TODAY);
    card.c = r.from(3, shared(n).min(PER_CONTOUR)) as u16;
    perhaps_gridded(r, card)
}

/// A sheet of plain parts, for the speed figures and the examples: n contours of four to twelve vertices on a sheet of 3000
/// by 1500 mm, c candidates each, m pairs, no limit.
pub fn sheet(r: &Random, n: usize, c: usize, m: usize) -> Card {
    let mut card = Card { job: 1, c: c as u16, passes: PASSES, exterior: AUTO, interior: AUTO, ..Card::default() };
    for k in 0..n {
        let middle = (100.0 + r.unit() * 2800.0, 100.0 + r.unit() * 1300.0);
        let (v, size) = (r.from(4, 12), 20.0 + r.unit() * 80.0);
        let vertex = |j: usize| {
            let angle = std::f64::consts::TAU * j as f64 / v as f64;
            (middle.0 + size * angle.cos(), middle.1 + size * angle.sin())
        };
        let vertices = (0..v).map(vertex).collect();
        let (id, tag, interior) = (k as u32 + 1, 100 + k as u32, r.one_in(3));
        card.contours.push(Contour { id, tag, interior, vertices, ..Contour::default() });
    }
    for _ in 0..m {
        let after = r.from(1, n - 1);
        let pair = card.pair(r.index(after), after);
        card.pairs.push(pair);
    }
    card
}

/// A sheet in version 2: by twos its contours are a part, the first of the two a hole. So the pairs by rule lead forward, as
/// those that are written do.
pub fn holed(sheet: Card) -> Card {
    let mut card = Card { version: 2, ..sheet };
    for (k, contour) in card.contours.iter_mut().enumerate() {
        (contour.part, contour.interior) = (k as u32 / 2 + 1, k % 2 == 0);
    }
    card
}

/// One of the directions.
pub fn direction(r: &Random) -> u8 {
    r.index(usize::from(AUTO) + 1) as u8
}

fn limit(r: &Random) -> u32 {
    match r.below(6) {
        0 | 1 => 0,
        2 => r.from(1, 3) as u32,
        3 => r.from(3, 200) as u32,
        4 => r.from(200, 20_000) as u32,
        _ => r.pick(&[u32::MAX, 1 << 31, 1_000_000]),
    }
}

/// Now and then sets a card's limit to its edge: as many trials as the search takes without one, or one more or less.
pub fn limit_near(r: &Random, card: &mut Card, trials: impl FnOnce() -> u32) {
    if r.one_in(6) {
        let trials = trials();
        card.limit = r.pick(&[trials, trials + 1, trials.max(2) - 1]);
    }
}

/// A contour's vertices. Small steps around a corner give plain parts; some have edges of no length, or
/// lie on one point.
pub fn outline(r: &Random, kind: Kind) -> Vec<(f64, f64)> {
    let v = r.pick(&[1, 2, 3, 4, 4, 4, 5, 8, VERTICES, r.from(1, VERTICES)]);
    let corner = r.point(kind);
    let size = r.pick(&[0.0, 4e-13, 1e-12, 1.0, 10.0, 100.0, 100.0]);
    let form = r.below(8);
    let mut vertices: Vec<(f64, f64)> = Vec::new();
    for k in 0..v {
        let next = match form {
            0 => corner,
            1 | 2 => {
                let (dx, dy) = [(0.0, 0.0), (size, 0.0), (size, size), (0.0, size)][k % 4];
                (corner.0 + dx, corner.1 + dy)
            }
            3 => (corner.0 + r.below(3) as f64 * size, corner.1 + r.below(3) as f64 * size),
            4 if k > 0 && r.one_in(2) => vertices[k - 1],
            _ => r.point(kind),
        };
        vertices.push((next.0.clamp(-REACH, REACH), next.1.clamp(-REACH, REACH)));
    }
    vertices
}

/// Pairs that a legal order exists for: each leads forward in some hidden order of the contours, and so do those by rule, of
/// which some are written too; no more than so many are written.
fn pairs(r: &Random, card: &mut Card, limit: usize) {
    let n = card.contours.len();
    if n < 2 || r.one_in(4) {
        return;
    }
    let rules = by_rule(card);
    let hidden = hidden_order(r, n, &rules);
    let add = |card: &mut Card, i: usize, j: usize| {
        let pair = card.pair(hidden[i], hidden[j]);
        card.pairs.push(pair);
    };
    match r.below(4) {
        0 => (1..n).for_each(|j| add(card, j - 1, j)),
        1 => (1..n).for_each(|j| add(card, j / 2, j)),
        _ => {
            let most = r.pick(&[1, 4, n, PAIRS_A_BLOCK, PAIRS_A_BLOCK + 1, 2 * PAIRS_A_BLOCK, limit]);
            for _ in 0..r.from(1, most) {
                let j = r.from(1, n - 1);
                let i = r.index(j);
                add(card, i, j);
            }
        }
    }
    if !rules.is_empty() && r.one_in(4) {
        let written: Vec<Pair> = rules.iter().map(|&(hole, outline)| card.pair(hole, outline)).collect();
        card.pairs.extend(written);
        card.pairs.truncate(limit);
    }
    if r.one_in(2) {
        r.shuffle(&mut card.pairs);
    }
}

/// An order of n contours in which the pairs by rule lead forward: an outline that stands before a hole of its part changes
/// places with it.
fn hidden_order(r: &Random, n: usize, rules: &[(usize, usize)]) -> Vec<usize> {
    let mut order: Vec<usize> = (0..n).collect();
    r.shuffle(&mut order);
    for pair in rules {
        let place = |contour| order.iter().position(|&k| k == contour).unwrap();
        let (hole, outline) = (place(pair.0), place(pair.1));
        if outline < hole {
            order.swap(hole, outline);
        }
    }
    order
}

/// A damaged card, or one that stands just inside a limit: of those that hold or, now and then, of those from before.
pub fn damaged(r: &Random, version: u8) -> Vec<u8> {
    let limits = if r.one_in(4) { Limits::BEFORE } else { Limits::TODAY };
    damaged_within(r, good(r, version), limits)
}

/// A good card with one or two faults, or just inside these limits.
pub fn damaged_within(r: &Random, card: Card, limits: Limits) -> Vec<u8> {
    let faults = if r.one_in(3) { 2 } else { 1 };
    let kinds: Vec<usize> = (0..faults).map(|_| r.from(1, 13)).collect();
    with_faults(r, card, &kinds, limits)
}

/// A card with other versions, or other bytes where parts and instances stand, and now and then with a further fault.
pub fn relabelled(r: &Random, version: u8) -> Vec<u8> {
    relabelled_within(r, good(r, version), Limits::TODAY)
}

/// The same of a good card.
pub fn relabelled_within(r: &Random, card: Card, limits: Limits) -> Vec<u8> {
    let mut kinds = vec![r.pick(&[14, 15])];
    if r.one_in(3) {
        kinds.push(r.from(1, 15));
    }
    with_faults(r, card, &kinds, limits)
}

/// A card with another byte where version 2 asks for the move, whether the card has that field or not, and every other time
/// with a further fault, often in another field of the head.
pub fn regridded(r: &Random, version: u8) -> Vec<u8> {
    regridded_within(r, good(r, version), Limits::TODAY)
}

/// The same of a good card.
pub fn regridded_within(r: &Random, card: Card, limits: Limits) -> Vec<u8> {
    let mut kinds = vec![16];
    if r.one_in(2) {
        kinds.push(r.pick(&[4, r.from(1, 15)]));
    }
    with_faults(r, card, &kinds, limits)
}

fn with_faults(r: &Random, mut card: Card, kinds: &[usize], limits: Limits) -> Vec<u8> {
    for &kind in kinds {
        in_fields(r, &mut card, kind, limits);
    }
    let mut bytes = card.bytes();
    for &kind in kinds {
        in_bytes(r, &mut bytes, kind, limits);
    }
    seal(&mut bytes);
    for &kind in kinds {
        after_seal(r, &mut bytes, kind, limits);
    }
    bytes
}

/// Faults that a card's fields can have, on both sides of each limit.
fn in_fields(r: &Random, card: &mut Card, kind: usize, limits: Limits) {
    let n = card.contours.len();
    match kind {
        4 => match r.below(4) {
            0 => card.c = r.pick(&[0, 1, PER_CONTOUR, PER_CONTOUR + 1, 65_535, shared(n), shared(n) + 1]) as u16,
            1 => card.passes = r.pick(&[PASSES, PASSES + 1, u16::MAX]),
            2 => (card.exterior, card.interior) = (r.pick(&[AUTO, AUTO + 1, 0]), r.pick(&[0, AUTO, AUTO + 1, 255])),
            _ => count_edges(r, card, limits),
        },
        6 if n > 0 => {
            let k = r.index(n);
            let v = r.pick(&[0, 1, VERTICES, VERTICES + 1, VERTICES + 10]);
            card.contours[k].vertices = vec![(1.0, 2.0); v];
        }
        8 => {
            let bad = r.number(Kind::Edge);
            let far = r.pick(&[bad, REACH.next_up(), -REACH.next_up(), f64::NAN, f64::INFINITY, -REACH, REACH]);
            if n == 0 || r.one_in(4) {
                card.home.1 = far;
            } else {
                let k = r.index(n);
                let vertices = &mut card.contours[k].vertices;
                if let Some(vertex) = vertices.last_mut() {
                    *if r.one_in(2) { &mut vertex.0 } else { &mut vertex.1 } = far;
                }
            }
        }
        9 if n > 1 => {
            let (from, to) = (r.index(n), r.index(n));
            card.contours[to].id = card.contours[from].id;
        }
        10 | 11 if !card.pairs.is_empty() => {
            let q = r.index(card.pairs.len());
            let pair = &mut card.pairs[q];
            let side = if r.one_in(2) { &mut pair.before } else { &mut pair.after };
            *(if kind == 10 { &mut side.0 } else { &mut side.1 }) ^= 1 << r.below(32);
        }
        12 if n > 0 => cycle(r, card, limits),
        _ => {}
    }
}

/// More or fewer contours or pairs, at the limits.
fn count_edges(r: &Random, card: &mut Card, limits: Limits) {
    let Limits { contours, pairs } = limits;
    // a block of pairs less than the most: with one contour too many the card is not yet too long
    let fewer = pairs - PAIRS_A_BLOCK;
    if r.one_in(2) {
        card.c = r.pick(&[1, 2]);
        let n = r.pick(&[contours - 1, contours, contours + 1, contours + 2]);
        while card.contours.len() < n {
            let id = card.contours.len() as u32 + 5_000_000;
            card.contours.push(Contour { id, vertices: vec![(3.0, 4.0)], ..Contour::default() });
        }
        card.pairs.truncate(r.pick(&[0, PAIRS_A_BLOCK, fewer]));
    } else if let Some(&pair) = card.pairs.first() {
        let m = r.pick(&[PAIRS_A_BLOCK, PAIRS_A_BLOCK + 1, fewer, fewer + 1, pairs, pairs + 1, pairs + 2]);
        card.pairs.resize(m, pair);
    }
}

/// A walk of pairs that comes back, on few or many contours. Steps by rule are often on it, and are not written.
fn cycle(r: &Random, card: &mut Card, limits: Limits) {
    let n = card.contours.len();
    let length = r.from(1, n.min(r.pick(&[1, 2, 5, limits.contours])));
    let mut ring: Vec<usize> = (0..n).collect();
    r.shuffle(&mut ring);
    ring.truncate(length);
    let rules = by_rule(card);
    if !rules.is_empty() && !r.one_in(3) {
        // the pairs that are there often lead from a hole to its outline too
        card.pairs.truncate(r.pick(&[0, 0, limits.pairs]));
        for _ in 0..r.from(1, 2) {
            let (hole, outline) = r.pick(&rules);
            ring.retain(|&k| k != hole && k != outline);
            ring.extend([hole, outline]);
        }
    }
    card.pairs.truncate(limits.pairs - ring.len());
    for k in 0..ring.len() {
        let (before, after) = (ring[k], ring[(k + 1) % ring.len()]);
        if !rules.contains(&(before, after)) {
            let pair = card.pair(before, after);
            card.pairs.push(pair);
        }
    }
    r.shuffle(&mut card.pairs);
}

/// Faults that only bytes can have. The checks are made good afterwards.
fn in_bytes(r: &Random, bytes: &mut Vec<u8>, kind: usize, limits: Limits) {
    let blocks = bytes.len() / BLOCK;
    let block = |r: &Random| if r.one_in(3) { 0 } else { r.index(blocks) } * BLOCK;
    match kind {
        3 => {
            let at = block(r) + r.index(PAYLOAD_AT);
            bytes[at] = r.pick(&[0, 1, 2, 3, 4, bytes[at] ^ 1, r.next() as u8]);
        }
        5 if r.one_in(2) => bytes.truncate(bytes.len() - BLOCK * usize::from(blocks > 1)),
        5 => {
            let last = bytes[bytes.len() - BLOCK..].to_vec();
            bytes.extend(last);
        }
        6 if blocks > 1 => {
            let block = r.from(1, blocks - 1) * BLOCK;
            let at = block + r.pick(&[contour::COUNT, contour::COUNT + 1, contour::TYPE, contour::ZERO]);
            bytes[at] = r.pick(&[0, 1, 2, VERTICES as u8, VERTICES as u8 + 1, 255]);
        }
        7 => {
            const LAST: usize = CHECK_AT - 1;
            const FULL: usize = PAYLOAD_AT + PAIRS_A_BLOCK * PAIR;
            let (block, any) = (block(r), r.from(PAYLOAD_AT, LAST));
            let at = block + r.pick(&[any, LAST, FULL - 1, FULL, head::GRID - 1, head::GRID, head::GRID + 1]);
            bytes[at] = r.pick(&[0, 1, 128, 255]);
        }
        13 => {
            // a head whose counts do not fit what follows
            let at = r.pick(&[head::CONTOURS, head::PAIRS, head::CONTOURS + 1, head::PAIRS + 1]);
            let (more, less) = (bytes[at].wrapping_add(1), bytes[at].wrapping_sub(1));
            bytes[at] = r.pick(&[more, less, 0, limits.contours as u8, limits.pairs as u8]);
        }
        14 => {
            // another version: of the head alone, of any block alone, or of all
            let (version, one) = (r.pick(&[0, 1, 2, 2, 3, 255]), r.index(blocks));
            let changed = r.pick(&[(0, 1), (one, one + 1), (0, blocks)]);
            for block in changed.0..changed.1 {
                bytes[block * BLOCK + VERSION_AT] = version;
            }
        }
        15 => {
            // about a part and an instance, whether the card has them or not
            let at = block(r) + r.pick(&[r.from(contour::PART - 1, CHECK_AT - 1), head::GRID]);
            bytes[at] = r.pick(&[0, 1, 2, 255]);
        }
        16 => bytes[head::GRID] = r.pick(&[0, 1, 1, 2, 3, 128, 255]),
        _ => {}
    }
}

/// Faults of the length and of the checks, and single bytes changed with the checks left as they are.
fn after_seal(r: &Random, bytes: &mut Vec<u8>, kind: usize, limits: Limits) {
    match kind {
        1 => {
            let short = [0, 1, BLOCK - 1, BLOCK, BLOCK + 1, bytes.len() + 1];
            let most = limits.bytes();
            let long = [most - 1, most, most + 1, most + BLOCK, most + 16_960];
            bytes.resize(r.pick(&[&short[..], &long].concat()), 0);
            if r.one_in(2) {
                seal(bytes);
            }
        }
        2 if !bytes.is_empty() => {
            let at = r.index(bytes.len());
            // the check's four bytes
            let at = if r.one_in(2) { at | CHECK_AT } else { at };
            if let Some(byte) = bytes.get_mut(at) {
                *byte = byte.wrapping_add(r.pick(&[1, 255, 128]));
            }
        }
        _ => {}
    }
}

/// A good card with one byte changed, with or without the check made good.
pub fn mutated(r: &Random, version: u8) -> Vec<u8> {
    let mut bytes = good(r, version).bytes();
    let block = r.index(bytes.len() / BLOCK) * BLOCK;
    // two vertices: most contours have as many
    let used = contour::VERTICES + 2 * VERTEX;
    let last = r.from(contour::PART - 1, CHECK_AT - 1);
    let at = block + r.pick(&[r.index(PAYLOAD_AT), r.from(PAYLOAD_AT, used), last, r.index(BLOCK)]);
    bytes[at] = r.pick(&[bytes[at] ^ (1 << r.below(8)), 0, 255, r.next() as u8]);
    if !r.one_in(4) {
        seal(&mut bytes);
    }
    bytes
}
