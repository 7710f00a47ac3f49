//! The bridges of a contour: those of an example card as the original has them, and every refusal.

use jambolive::{BLOCK, BRIDGES, Refusal, VERTICES, bridges};
use std::fs;
use std::path::PathBuf;

const SQUARE: [[f64; 2]; 4] = [[0.0, 0.0], [4.0, 0.0], [4.0, 4.0], [0.0, 4.0]];

fn example(name: &str) -> Vec<u8> {
    let folder = PathBuf::from(env!("CARGO_MANIFEST_DIR")).join("../../examples");
    fs::read(folder.join(name)).unwrap()
}

/// The vertices of a card's first contour.
fn first_contour(card: &[u8]) -> Vec<[f64; 2]> {
    let block = &card[BLOCK..];
    let number = |at: usize| f64::from_le_bytes(block[at..at + 8].try_into().unwrap());
    let count = usize::from(u16::from_le_bytes([block[16], block[17]]));
    (0..count).map(|k| [number(20 + 16 * k), number(28 + 16 * k)]).collect()
}

/// The lines of examples/sheet.bridges, which the original's bridges were written to: 2 wide, at these centres.
#[test]
fn of_a_contour_of_the_sheet() {
    let contour = first_contour(&example("sheet.card"));
    let found = bridges(&contour, 2.0, &[0.0, 30.5, 100.0]).unwrap();
    let numbers = |p: [f64; 2]| format!("{:.6} {:.6}", p[0], p[1]);
    let lines: Vec<String> = (found.iter())
        .map(|b| {
            let (start, end, middle) = (numbers(b.start), numbers(b.end), numbers(b.middle));
            format!("{start} {end} {middle} {} {:.6}\n", b.edge, b.place)
        })
        .collect();
    assert_eq!(lines.concat(), String::from_utf8(example("sheet.bridges")).unwrap());
}

/// A centre of -0 is on the way, and its place is told as -0; just past a corner the place is above 1 and the middle is the
/// corner.
#[test]
fn the_place_is_told_as_it_comes_out() {
    let found = bridges(&SQUARE, 2.0, &[-0.0, 4.0f64.next_up()]).unwrap();
    assert_eq!((found[0].start, found[0].middle, found[0].edge), ([0.0, 1.0], [0.0, 0.0], 0));
    assert!(found[0].place == 0.0 && found[0].place.is_sign_negative());
    assert_eq!((found[1].middle, found[1].edge, found[1].place), ([4.0, 0.0], 0, 1.0f64.next_up()));
}

#[test]
fn no_centres_are_no_bridges() {
    assert_eq!(bridges(&SQUARE, 2.0, &[]), Ok(Vec::new()));
    assert_eq!(bridges(&SQUARE, 2.0, &[1.0; BRIDGES]).map(|all| all.len()), Ok(BRIDGES));
}

/// Each refusal where those before it would not be told.
#[test]
fn refusals_in_their_order() {
    let told = |contour: &[[f64; 2]], width, centres: &[f64]| bridges(contour, width, centres).unwrap_err();
    let mut bad = SQUARE;
    bad[2][1] = f64::NAN;
    assert_eq!(told(&bad, 0.0, &[99.0; BRIDGES + 1]), Refusal::Centres);
    assert_eq!(told(&[], 0.0, &[99.0]), Refusal::VertexCount { count: 0 });
    let many = [[f64::NAN; 2]; VERTICES + 1];
    assert_eq!(told(&many, 0.0, &[99.0]), Refusal::VertexCount { count: VERTICES as u32 + 1 });
    assert_eq!(told(&bad, 0.0, &[99.0]), Refusal::Vertex { number: 2 });
    assert_eq!(told(&[[1.0, 1.0]], 0.0, &[99.0]), Refusal::Way);
    for width in [0.0, -0.0, -1.0, f64::NAN, f64::INFINITY, 32.0] {
        assert_eq!(told(&SQUARE, width, &[99.0]), Refusal::Width, "{width}");
    }
    for centre in [16.0, -f64::MIN_POSITIVE, f64::NAN, f64::INFINITY] {
        assert_eq!(told(&SQUARE, 2.0, &[0.0, 1.0, centre, 99.0]), Refusal::Centre { index: 2 }, "{centre}");
    }
    assert!(bridges(&SQUARE, 32.0f64.next_down(), &[16.0f64.next_down()]).is_ok());
}
