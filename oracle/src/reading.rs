//! A second reading of the card's format and of the table of refusals, written from the paper alone:
//! plain loops, one for each row of the table, in the paper's order. Its numbers are its own too, not those of limits.rs.

use crate::card::{Card, Contour, Pair, check_of};
use std::ops::Range;

// "The card": the bytes of a block, of its start, of a point and of a pair; where a block's version and check stand; the
// pairs that one takes. Request 2026-02 adds the second version.
const BLOCK: usize = 512;
const START: usize = 8;
const CHECK: usize = 508;
const PAYLOAD: Range<usize> = START..CHECK;
const VERSION: usize = 1;
const VERSIONS: [u8; 2] = [1, 2];
const POINT: usize = 16;
const PAIR: usize = 16;
const PAIRS_A_BLOCK: usize = 31;

// "When a card goes back": the most that rows 4, 6 and 8 let pass, and so row 1.
// Request 2026-04 raises contours and pairs.
const CONTOURS: usize = 80;
const PAIRS: usize = 248;
const PER_CONTOUR: usize = 8;
const PASSES: usize = 1000;
const DIRECTION: u8 = 2;
const GRID: u8 = 1;
const CANDIDATES: usize = 80;
const VERTICES: usize = 30;
const TYPE: u8 = 1;
const COORDINATE: f64 = 1_048_576.0;
const LONGEST: usize = BLOCK * (1 + CONTOURS + PAIRS.div_ceil(PAIRS_A_BLOCK));

/// Where the head's fields stand in its payload.
mod head {
    pub const JOB: usize = 0;
    pub const CONTOURS: usize = 4;
    pub const PAIRS: usize = 6;
    pub const PER_CONTOUR: usize = 8;
    pub const PASSES: usize = 10;
    pub const LIMIT: usize = 12;
    pub const HOME: [usize; 2] = [16, 24];
    pub const EXTERIOR: usize = 32;
    pub const INTERIOR: usize = 33;
    // in version 2: request 2026-07
    pub const GRID: usize = 34;
}

/// Where a contour's fields stand in its payload.
mod contour {
    pub const ID: usize = 0;
    pub const TAG: usize = 4;
    pub const COUNT: usize = 8;
    pub const TYPE: usize = 10;
    pub const ZERO: usize = 11;
    pub const POINTS: usize = 12;
    // in version 2
    pub const PART: usize = 492;
    pub const INSTANCE: usize = 496;
}

/// The number of a refusal and its place.
pub type Refusal = (u64, u64);

fn u16_at(bytes: &[u8], at: usize) -> usize {
    usize::from(u16::from_le_bytes([bytes[at], bytes[at + 1]]))
}

fn u32_at(bytes: &[u8], at: usize) -> u32 {
    u32::from_le_bytes(bytes[at..at + 4].try_into().unwrap())
}

fn f64_at(bytes: &[u8], at: usize) -> f64 {
    f64::from_le_bytes(bytes[at..at + 8].try_into().unwrap())
}

/// A file of whole blocks whose head has been looked at.
struct File<'a> {
    bytes: &'a [u8],
    version: u8,
    n: usize,
    m: usize,
}

impl<'a> File<'a> {
    fn of(bytes: &'a [u8]) -> File<'a> {
        let head = &bytes[PAYLOAD];
        File { bytes, version: bytes[VERSION], n: u16_at(head, head::CONTOURS), m: u16_at(head, head::PAIRS) }
    }

    fn block(&self, number: usize) -> &'a [u8] {
        &self.bytes[number * BLOCK..][..BLOCK]
    }

    /// Byte `at` of a block's payload begins here.
    fn payload(&self, number: usize) -> &'a [u8] {
        &self.block(number)[PAYLOAD]
    }

    fn contour(&self, position: usize) -> &'a [u8] {
        self.payload(1 + position)
    }

    fn v(&self, position: usize) -> usize {
        u16_at(self.contour(position), contour::COUNT)
    }

    fn id(&self, position: usize) -> u32 {
        u32_at(self.contour(position), contour::ID)
    }

    fn tag(&self, position: usize) -> u32 {
        u32_at(self.contour(position), contour::TAG)
    }

    fn interior(&self, position: usize) -> bool {
        self.contour(position)[contour::TYPE] == 1
    }

    /// A contour's part and instance. Version 1 has neither: it reads as part 0.
    fn group(&self, position: usize) -> (u32, u32) {
        match self.version {
            1 => (0, 0),
            _ => [contour::PART, contour::INSTANCE].map(|at| u32_at(self.contour(position), at)).into(),
        }
    }

    fn vertex(&self, position: usize, number: usize) -> (f64, f64) {
        let at = contour::POINTS + POINT * number;
        (f64_at(self.contour(position), at), f64_at(self.contour(position), at + POINT / 2))
    }

    /// The four words of a pair.
    fn pair(&self, number: usize) -> [u32; 4] {
        let payload = self.payload(1 + self.n + number / PAIRS_A_BLOCK);
        [0, 4, 8, 12].map(|at| u32_at(payload, number % PAIRS_A_BLOCK * PAIR + at))
    }

    fn position(&self, id: u32) -> Option<usize> {
        (0..self.n).find(|&k| self.id(k) == id)
    }

    /// The contour that waits for an interior of a part by rule: the first exterior with its part and instance.
    fn outline(&self, hole: usize) -> Option<usize> {
        let (part, _) = self.group(hole);
        if part == 0 || !self.interior(hole) {
            return None;
        }
        (0..self.n).find(|&k| !self.interior(k) && self.group(k) == self.group(hole))
    }

    /// The pairs by rule, as positions, in the order of the interiors.
    fn by_rule(&self) -> impl Iterator<Item = (usize, usize)> {
        (0..self.n).filter_map(|k| Some((k, self.outline(k)?)))
    }

    /// The pairs that tours and cycles go by, as positions: the written ones, then those by rule.
    fn joined(&self) -> impl Iterator<Item = (usize, usize)> {
        let position = |id| self.position(id).unwrap();
        let written = (0..self.m).map(|q| self.pair(q));
        written.map(move |[before, _, after, _]| (position(before), position(after))).chain(self.by_rule())
    }
}

/// What a block must start with.
fn due_start(number: usize, n: usize, version: u8) -> [u8; START] {
    let kind = match number {
        0 => 1,
        k if k <= n => 2,
        _ => 3,
    };
    [kind, version, number as u8, (number >> 8) as u8, 0, 0, 0, 0]
}

fn far(x: f64) -> bool {
    !x.is_finite() || x.abs() > COORDINATE
}

/// The first row of the table that holds of a file, and its place. None: the card is good.
pub fn refusal(bytes: &[u8]) -> Option<Refusal> {
    let length = bytes.len();
    if length == 0 || length % BLOCK != 0 || length > LONGEST {
        return Some((1, length.min(LONGEST + 1) as u64));
    }
    let blocks = length / BLOCK;
    let lowest = |number: u64, place: Option<usize>| place.map(|p| (number, p as u64));

    let check = |b: &usize| {
        let block = &bytes[b * BLOCK..][..BLOCK];
        u32_at(block, CHECK) != check_of(block)
    };
    if let Some(at) = (0..blocks).find(check) {
        return Some((2, at as u64));
    }
    let version = bytes[VERSION];
    if !VERSIONS.contains(&version) || bytes[..START] != due_start(0, 0, version) {
        return Some((3, 0));
    }
    let head = &bytes[PAYLOAD];
    if let Some(field) = bad_field(head, version) {
        return Some((4, field));
    }
    let file = File::of(bytes);
    if blocks != 1 + file.n + file.m.div_ceil(PAIRS_A_BLOCK) {
        return Some((5, blocks as u64));
    }
    lowest(3, (1..blocks).find(|&b| file.block(b)[..START] != due_start(b, file.n, version)))
        .or_else(|| lowest(6, (0..file.n).find(|&k| bad_contour(file.contour(k)))))
        .or_else(|| lowest(7, (0..blocks).find(|&b| spare(&file, b).iter().any(|&byte| byte != 0))))
        .or_else(|| lowest(8, far_place(&file)))
        .or_else(|| lowest(9, (0..file.n).find(|&k| (0..k).any(|j| file.id(j) == file.id(k)))))
        .or_else(|| {
            let unknown = |q: &usize| {
                let pair = file.pair(*q);
                file.position(pair[0]).is_none() || file.position(pair[2]).is_none()
            };
            lowest(10, (0..file.m).find(unknown))
        })
        .or_else(|| {
            let other_tag = |q: &usize| {
                let [before, before_tag, after, after_tag] = file.pair(*q);
                let tag = |id| file.tag(file.position(id).unwrap());
                tag(before) != before_tag || tag(after) != after_tag
            };
            lowest(11, (0..file.m).find(other_tag))
        })
        .or_else(|| lowest(12, led_back(file.n, file.joined())))
}

/// Row 4: which field of the head is out of its limits. The last of them version 1 has not.
fn bad_field(head: &[u8], version: u8) -> Option<u64> {
    let (n, m) = (u16_at(head, head::CONTOURS), u16_at(head, head::PAIRS));
    let (c, passes) = (u16_at(head, head::PER_CONTOUR), u16_at(head, head::PASSES));
    let faults = [
        n > CONTOURS,
        m > PAIRS,
        !(1..=PER_CONTOUR).contains(&c),
        passes > PASSES,
        head[head::EXTERIOR] > DIRECTION,
        head[head::INTERIOR] > DIRECTION,
        n * c > CANDIDATES,
        version == 2 && head[head::GRID] > GRID,
    ];
    faults.iter().position(|&fault| fault).map(|k| k as u64 + 1)
}

/// Row 6.
fn bad_contour(payload: &[u8]) -> bool {
    let v = u16_at(payload, contour::COUNT);
    !(1..=VERTICES).contains(&v) || payload[contour::TYPE] > TYPE || payload[contour::ZERO] != 0
}

/// Row 7: the payload bytes of a block that no field has.
fn spare<'a>(file: &File<'a>, block: usize) -> &'a [u8] {
    let all = PAYLOAD.len();
    let spare = match block {
        0 if file.version == 1 => head::GRID..all,
        0 => head::GRID + 1..all,
        b if b <= file.n => {
            let end = if file.version == 1 { all } else { contour::PART };
            contour::POINTS + POINT * file.v(b - 1)..end
        }
        b => PAIR * (file.m - (b - 1 - file.n) * PAIRS_A_BLOCK).min(PAIRS_A_BLOCK)..all,
    };
    &file.payload(block)[spare]
}

/// Row 8: 0 for home, else one more than the contour's position.
fn far_place(file: &File) -> Option<usize> {
    let head = file.payload(0);
    if head::HOME.iter().any(|&at| far(f64_at(head, at))) {
        return Some(0);
    }
    let bad = |k: &usize| (0..file.v(*k)).map(|j| file.vertex(*k, j)).any(|(x, y)| far(x) || far(y));
    (0..file.n).find(bad).map(|k| k + 1)
}

/// Row 12: the lowest of n positions that pairs of them lead back to. A flag for each two positions: pairs lead from one to the
/// other.
pub fn led_back(n: usize, pairs: impl Iterator<Item = (usize, usize)>) -> Option<usize> {
    let mut leads = [[false; CONTOURS]; CONTOURS];
    for (before, after) in pairs {
        leads[before][after] = true;
    }
    for k in 0..n {
        let further = leads[k];
        for row in leads.iter_mut().filter(|row| row[k]) {
            for (flag, by_way_of_k) in row.iter_mut().zip(further) {
                *flag |= by_way_of_k;
            }
        }
    }
    (0..n).find(|&k| leads[k][k])
}

/// What a good file says.
pub fn card(bytes: &[u8]) -> Result<Card, Refusal> {
    if let Some(refusal) = refusal(bytes) {
        return Err(refusal);
    }
    let file = File::of(bytes);
    let head = file.payload(0);
    let contour = |k: usize| {
        let (part, instance) = file.group(k);
        let vertices = (0..file.v(k)).map(|j| file.vertex(k, j)).collect();
        Contour { id: file.id(k), tag: file.tag(k), part, instance, interior: file.interior(k), vertices }
    };
    let pair = |q: usize| {
        let [a, b, c, d] = file.pair(q);
        Pair { before: (a, b), after: (c, d) }
    };
    Ok(Card {
        version: file.version,
        job: u32_at(head, head::JOB),
        c: u16_at(head, head::PER_CONTOUR) as u16,
        passes: u16_at(head, head::PASSES) as u16,
        limit: u32_at(head, head::LIMIT),
        home: head::HOME.map(|at| f64_at(head, at)).into(),
        exterior: head[head::EXTERIOR],
        interior: head[head::INTERIOR],
        grid: if file.version == 1 { 0 } else { head[head::GRID] },
        contours: (0..file.n).map(contour).collect(),
        pairs: (0..file.m).map(pair).collect(),
    })
}

/// A number of millimetres at the nearest point of the grid of 1/1024 mm; a half goes outward, and no zero has a sign: request
/// 2026-07 by whole numbers. What is not a number or infinite stays as it is.
pub fn moved(x: f64) -> f64 {
    let (exponent, fraction) = (x.to_bits() >> 52 & 0x7ff, x.to_bits() & ((1 << 52) - 1));
    // its size is `digits` times 2^`power`; of infinities and of what is not a number the power is the largest
    let (digits, power) = match exponent {
        0 => (fraction, -1074),
        _ => (fraction + (1 << 52), exponent as i32 - 1075),
    };
    if power >= -10 {
        return x;
    }
    // the size in halves of a step, the rest cut off: an odd number of them, with or without a rest, goes up
    let halves = digits.checked_shr(-(power + 11) as u32).unwrap_or(0);
    let size = halves.div_ceil(2) as f64 / 1024.0;
    if x.is_sign_negative() && size > 0.0 { -size } else { size }
}

/// The pairs of a good card that tours and cycles go by, as positions: the written ones, then those by rule.
pub fn joined(card: &Card) -> Vec<(usize, usize)> {
    File::of(&card.bytes()).joined().collect()
}

/// The pairs by rule alone, in the order of the interiors. The written ones may name what they will.
pub fn by_rule(card: &Card) -> Vec<(usize, usize)> {
    File::of(&card.bytes()).by_rule().collect()
}

/// The written pairs come first, repeats and all; those by rule follow the interiors, not the parts.
#[test]
fn joined_in_order() {
    let contour = |id, part, interior| Contour { id, part, interior, vertices: vec![(0.0, 0.0)], ..Contour::default() };
    let groups = [(2, true), (1, true), (1, false), (2, true), (2, false), (1, false), (0, true), (0, false)];
    let contours = (0..).zip(groups).map(|(id, (part, interior))| contour(id, part, interior)).collect();
    let mut card = Card { version: 2, c: 1, contours, ..Card::default() };
    card.pairs = [(7, 6), (1, 2), (1, 2)].map(|(before, after)| card.pair(before, after)).into();
    assert_eq!(joined(&card), [(7, 6), (1, 2), (1, 2), (0, 4), (1, 2), (3, 4)]);
    assert_eq!(joined(&Card { version: 1, ..card }), [(7, 6), (1, 2), (1, 2)]);
}

/// The request's words: the nearest point, halves away from zero, a zero always +0.
#[test]
fn moved_as_the_request_says() {
    let step = 1.0 / 1024.0;
    let due = [
        (0.0, 0.0),
        (0.25, 0.0),
        (0.5f64.next_down(), 0.0),
        (0.5, 1.0),
        (1.0, 1.0),
        (1.5f64.next_down(), 1.0),
        (1.5, 2.0),
        (2.5, 3.0),
        (8_388_607.5, 8_388_608.0),
        (1_073_741_823.5, 1_073_741_824.0),
        (4_503_599_627_370_495.5, 4_503_599_627_370_496.0),
        (4_503_599_627_370_497.0, 4_503_599_627_370_497.0),
    ];
    for (from, to) in due {
        let (from, to) = (from * step, to * step);
        let back = if to == 0.0 { 0.0 } else { -to };
        assert_eq!([moved(from), moved(-from)].map(f64::to_bits), [to, back].map(f64::to_bits), "{from}");
    }
    for (tiny, due) in [(f64::from_bits(1), 0.0), (f64::MIN_POSITIVE, 0.0), (f64::MAX, f64::MAX)] {
        assert_eq!(moved(tiny).to_bits(), f64::to_bits(due));
    }
    assert!(moved(f64::NAN).is_nan() && [f64::INFINITY, f64::NEG_INFINITY].iter().all(|&x| moved(x) == x));
}

/// Byte 34 of the head is a field in version 2 and spare in version 1.
#[test]
fn the_grid_is_a_field_of_version_2() {
    let empty = |version, grid| Card { version, grid, c: 1, ..Card::default() };
    for grid in [0, 1] {
        assert_eq!(card(&empty(2, grid).bytes()), Ok(empty(2, grid)));
    }
    assert_eq!(card(&empty(2, 2).bytes()), Err((4, 8)));
    let mut bytes = empty(1, 0).bytes();
    bytes[crate::limits::head::GRID] = 1;
    crate::card::seal(&mut bytes);
    assert_eq!(card(&bytes), Err((7, 0)));
}

/// The Rust host's limits are those that this reading takes from the paper.
#[test]
fn the_host_has_the_same() {
    use crate::limits::Limits;
    assert_eq!([jambolive::CONTOURS, jambolive::PAIRS], [CONTOURS, PAIRS]);
    assert_eq!([jambolive::PER_CONTOUR, jambolive::CANDIDATES], [PER_CONTOUR, CANDIDATES]);
    assert_eq!([jambolive::PASSES, jambolive::VERTICES], [PASSES, VERTICES]);
    assert_eq!([jambolive::BLOCKS * BLOCK, jambolive::CARD_BYTES, Limits::TODAY.bytes()], [LONGEST; 3]);
    assert_eq!([jambolive::BLOCK, jambolive::PAIRS_A_BLOCK], [BLOCK, PAIRS_A_BLOCK]);
}
