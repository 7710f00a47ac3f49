//! `samples [FOLDER]`: writes the cards of examples/ and, from the mended original's answers, their lists and the bridges of
//! a contour; with the folder of the crate `replay` also its cards and what it must print.

use oracle::answer::printed;
use oracle::bridge;
use oracle::card::{Card, Contour};
use oracle::edges::{Edge, edges, edges_of_grid, edges_of_parts, edges_of_size};
use oracle::generate;
use oracle::limits::{AUTO, BLOCK, CARD_BYTES, CONTOURS, Limits, VERSION_AT, head};
use oracle::random::Random;
use std::fs;
use std::path::Path;

/// Twenty plates with a hole each, two candidates a contour: each hole before its plate.
fn plates() -> Card {
    const PLATES: usize = 20;
    let mut card = generate::sheet(&Random::of(2026, "sheet", 0), 2 * PLATES, 2, 0);
    card.job = 4_001;
    for k in 0..PLATES {
        let (plate, hole) = (2 * k, 2 * k + 1);
        let middle = card.contours[plate].vertices[0];
        card.contours[plate].interior = false;
        card.contours[hole].interior = true;
        card.contours[hole].vertices =
            [(0.0, -8.0), (-8.0, -16.0), (-16.0, -8.0), (-8.0, 0.0)].map(|d| (middle.0 + d.0, middle.1 + d.1)).into();
        let pair = card.pair(hole, plate);
        card.pairs.push(pair);
    }
    card
}

/// A perforated panel with as many contours as a card takes: its outline, and holes in rows of ten, a candidate each. That the
/// holes go first its parts say.
fn panel() -> Card {
    let holes = CONTOURS - 1;
    let square = |(x, y): (f64, f64), size: f64| vec![(x, y), (x + size, y), (x + size, y + size), (x, y + size)];
    let hole = |k: usize| square((20.0 + 40.0 * (k % 10) as f64, 20.0 + 40.0 * (k / 10) as f64), 16.0);
    let outlines = std::iter::once(square((0.0, 0.0), 420.0)).chain((0..holes).map(hole));
    let contours = (0..).zip(outlines).map(|(k, vertices)| Contour {
        id: k,
        tag: 100 + k,
        interior: k > 0,
        part: 1,
        vertices,
        ..Contour::default()
    });
    let contours = contours.collect();
    Card { version: 2, job: 4_004, c: 1, passes: 100, exterior: AUTO, interior: AUTO, contours, ..Card::default() }
}

/// The fifth contour has the id of the second.
fn refused() -> Card {
    let mut card = generate::sheet(&Random::of(2026, "refused", 0), 6, 2, 0);
    card.contours[4].id = card.contours[1].id;
    card
}

/// The original's bridges of a card's first contour, 2 wide, at three centres: the first goes on over the end of the way.
fn bridges(card: &Card) -> String {
    let numbers = card.contours[0].vertices.iter().flat_map(|p| [p.0, p.1]).collect();
    bridge::printed(&bridge::Asked { numbers, width: 2.0, centres: vec![0.0, 30.5, 100.0] })
}

/// The examples: each card beside its list, and the bridges of a contour of the sheet.
fn examples() {
    fs::create_dir_all("examples").unwrap();
    let cards = [
        ("job-41", generate::job_41()),
        ("sheet", plates()),
        ("refused", refused()),
        ("slit", generate::slit()),
        ("holes", generate::holes()),
        ("panel", panel()),
        ("grid", generate::moved_square()),
    ];
    for (name, card) in cards {
        fs::write(format!("examples/{name}.card"), card.bytes()).unwrap();
        fs::write(format!("examples/{name}.list"), printed(&card.bytes())).unwrap();
    }
    fs::write("examples/sheet.bridges", bridges(&plates())).unwrap();
}

/// Cards from the generator within the limits from before request 2026-04, by turns good and damaged, in version 2 by turns
/// in another way. Most are small, so that the file is; every twenty-fifth has any size up to one byte too many for then.
fn random(part: &str, cases: u64, version: u8) -> impl Iterator<Item = Vec<u8>> {
    const THEN: Limits = Limits::BEFORE;
    let made = move |case: u64| {
        let r = Random::of(2026, part, case);
        let card = generate::good_within(&r, version, THEN);
        match case % 4 {
            0 | 2 => card.bytes(),
            3 if version == 2 => generate::relabelled_within(&r, card, THEN),
            _ => generate::damaged_within(&r, card, THEN),
        }
    };
    let most = |case: u64| if case % 25 == 0 { THEN.bytes() + 1 } else { 6 * BLOCK };
    (0..cases).map(move |case| (case, made(case))).filter(move |made| made.1.len() <= most(made.0)).map(|made| made.1)
}

/// Larger cards, good and damaged by turns, of version 1 and 2.
fn large(case: u64) -> Vec<u8> {
    let (r, version) = (Random::of(2026, "replay, large", case), 1 + (case / 2 % 2) as u8);
    let card = generate::large(&r, version);
    if case % 2 == 0 { card.bytes() } else { generate::damaged_within(&r, card, Limits::TODAY) }
}

/// Small cards about the grid, by turns on it and beside it, every third with another byte where the move is asked for.
fn gridded(case: u64) -> Vec<u8> {
    let r = Random::of(2026, "replay, grid", case);
    let card = generate::gridded(&r, case % 2 == 0);
    if case % 3 == 2 { generate::regridded_within(&r, card, Limits::TODAY) } else { card.bytes() }
}

/// The cards that the program `replay` runs over, each after its length in four bytes, and what it must print: first the
/// edges that the paper names, then the card with a slit, then cards from the generator; then the same again for version 2;
/// then the edges of request 2026-04 and larger cards; then those of request 2026-07 and cards about the grid. The first of
/// them stay as they are, so that what a request leaves alone is seen.
fn replay(crate_folder: &Path) {
    let (mut cards, mut lists, mut of_two, mut of_grid) = (Vec::new(), String::new(), 0, 0);
    let written = |edges: Vec<Edge>| edges.into_iter().map(|edge| edge.0);
    let one = written(edges()).chain([generate::slit().bytes()]).chain(random("replay", 2000, 1));
    let two = written(edges_of_parts()).chain([generate::holes().bytes()]).chain(random("replay, version 2", 400, 2));
    // no reader of the list has room for more
    let three = written(edges_of_size()).chain((0..16).map(large)).filter(|card| card.len() <= CARD_BYTES + 1);
    let small = |card: &Vec<u8>| card.len() <= 6 * BLOCK;
    let four = written(edges_of_grid()).chain((0..120).map(gridded).filter(small));
    for bytes in one.chain(two).chain(three).chain(four) {
        cards.extend((bytes.len() as u32).to_le_bytes());
        cards.extend(&bytes);
        lists += &printed(&bytes);
        of_two += u32::from(bytes.get(VERSION_AT) == Some(&2));
        of_grid += u32::from(bytes.get(head::GRID).is_some_and(|&asked| asked > 0));
    }
    assert!(of_two >= 60, "{of_two} cards of version 2");
    assert!(of_grid >= 60, "{of_grid} cards whose byte 34 is not 0");
    fs::create_dir_all(crate_folder.join("data")).unwrap();
    fs::write(crate_folder.join("data/cards"), cards).unwrap();
    fs::write(crate_folder.join("stdout"), lists).unwrap();
}

fn main() {
    examples();
    if let Some(folder) = std::env::args().nth(1) {
        replay(Path::new(&folder));
    }
}
