//! The original's answers to a good card, with the rule for a rejected candidate mended and the move to the grid where a card
//! asks for it (oracle/original/build.rs).

use crate::card::{Card, Contour};
use crate::reading::moved;
use original::config::{CutDirectionPreference, CuttingConfig};
use original::contour::{ContourType, CutContour};
use original::hierarchy::CuttingDag;
use original::result::CutDirection;
use original::{count, counted, given, grid, gtsp};

/// A card as the original has it. `instance` is of the original with the rule for a rejected candidate mended and the move
/// to the grid, `counted` of the copy with the counted limit; both are made by the same code.
pub struct Problem {
    pub instance: gtsp::GtspInstance,
    pub counted: counted::GtspInstance,
    pub dag: CuttingDag,
    pub config: CuttingConfig,
}

/// What a search ends with.
#[derive(Clone, Debug, PartialEq)]
pub struct Found {
    pub tour: Vec<usize>,
    pub moves: u64,
    /// The length's bits.
    pub length: u64,
    /// The candidates that were rejected after another was accepted in the same turn.
    pub rejected_after: u64,
}

/// A preference by its number on a card.
pub fn preference(number: u8) -> CutDirectionPreference {
    [CutDirectionPreference::Ccw, CutDirectionPreference::Cw, CutDirectionPreference::Auto][usize::from(number)]
}

/// A contour as the original has it. A part goes by its number; a contour that has none goes by a name of its own, so that
/// it is in no group with another.
pub fn contour(c: &Contour) -> CutContour {
    CutContour {
        id: c.id as usize,
        geometry_id: if c.part == 0 { format!("contour {}", c.id) } else { c.part.to_string() },
        instance: c.instance as usize,
        contour_type: if c.interior { ContourType::Interior } else { ContourType::Exterior },
        vertices: c.vertices.clone(),
        perimeter: 0.0,
        centroid: (0.0, 0.0),
    }
}

/// What the original is asked about a card. Its pairs are those written and, where the card can have parts, those that the
/// original itself finds.
fn asked(card: &Card) -> (Vec<CutContour>, CuttingDag, CuttingConfig) {
    let config = CuttingConfig {
        exterior_direction: preference(card.exterior),
        interior_direction: preference(card.interior),
        ..CuttingConfig::new()
            .with_pierce_candidates(usize::from(card.c))
            .with_max_2opt_iterations(usize::from(card.passes))
            .with_time_limit_ms(0)
    };
    let contours: Vec<CutContour> = card.contours.iter().map(contour).collect();
    let mut pairs: Vec<_> = card.pairs.iter().map(|p| (p.before.0 as usize, p.after.0 as usize)).collect();
    if card.version == 2 {
        pairs.extend(CuttingDag::build(&contours).precedences());
    }
    let dag = CuttingDag::from_pairs(contours.len(), pairs);
    (contours, dag, config)
}

/// A card's instance, as a copy of the original makes it: with the move to the grid where the card asks for it.
macro_rules! instance_by {
    ($copy:ident, $card:expr, $contours:expr, $config:expr) => {{
        let clusters = grid::with($card.asks_grid(), || $copy::discretize_contours($contours, $config).unwrap());
        $copy::build_gtsp_instance(clusters, $card.home)
    }};
}

/// The points of each contour's candidates once more: as the original finds them that is given, which knows no grid, then
/// moved by the second reading where the card asks for it. A contour has more than one candidate just where c is above 1 and
/// its perimeter not under 1e-12: only those are found at a distance.
pub fn stops(card: &Card) -> Vec<Vec<(f64, f64)>> {
    let (contours, _, config) = asked(card);
    let clusters = given::discretize_contours(&contours, &config).unwrap();
    let points = |cluster: &given::GtspCluster| -> Vec<(f64, f64)> {
        let found = cluster.candidates.iter().map(|candidate| candidate.point);
        match card.asks_grid() && cluster.candidates.len() > 1 {
            true => found.map(|(x, y)| (moved(x), moved(y))).collect(),
            false => found.collect(),
        }
    };
    clusters.iter().map(points).collect()
}

/// A copy of the original, from a card's fields to the tour and its length.
macro_rules! solved_by {
    ($copy:ident, $card:expr) => {{
        let (contours, dag, config) = asked($card);
        let instance = instance_by!($copy, $card, &contours, &config);
        let tour = $copy::solve_constrained(&instance, &dag, &config);
        let length = $copy::evaluate_solution(&instance, &tour);
        (tour, length)
    }};
}

/// The mended original: what the speed of a tour is held against.
pub fn solved(card: &Card) -> (Vec<usize>, f64) {
    solved_by!(gtsp, card)
}

/// The original as it is given, with the rule of before.
pub fn solved_before(card: &Card) -> (Vec<usize>, f64) {
    solved_by!(given, card)
}

impl Problem {
    pub fn of(card: &Card) -> Problem {
        let (contours, dag, config) = asked(card);
        Problem {
            instance: instance_by!(gtsp, card, &contours, &config),
            counted: instance_by!(counted, card, &contours, &config),
            dag,
            config,
        }
    }

    /// Whether the search by the written pairs alone ends with another tour, so that those by rule show.
    pub fn shows_the_rule(self, card: &Card, found: &Found) -> bool {
        let written = self.dag.precedences()[..card.pairs.len()].to_vec();
        card.version == 2 && self.by(written).search(card.limit).tour != found.tour
    }

    /// The same with other pairs, by ids.
    pub fn by(self, pairs: Vec<(usize, usize)>) -> Problem {
        Problem { dag: CuttingDag::from_pairs(self.dag.num_contours(), pairs), ..self }
    }

    /// The search with the counted limit, 0 for none. The length is evaluated from the tour.
    pub fn search(&self, limit: u32) -> Found {
        count::begin(u64::from(limit));
        let tour = counted::solve_constrained(&self.counted, &self.dag, &self.config);
        let length = counted::evaluate_solution(&self.counted, &tour).to_bits();
        Found { tour, moves: count::moves(), length, rejected_after: count::rejected_after() }
    }

    /// The search of the mended original, which knows no limit.
    pub fn unlimited(&self) -> Vec<usize> {
        gtsp::solve_constrained(&self.instance, &self.dag, &self.config)
    }

    /// The start alone: the original improves nothing when it may make no pass.
    pub fn start(&self) -> Vec<usize> {
        let config = self.config.clone().with_max_2opt_iterations(0);
        gtsp::solve_constrained(&self.instance, &self.dag, &config)
    }

    /// The list that the program prints.
    pub fn list(&self, card: &Card, found: &Found) -> String {
        let mut list = format!("JOB {} CONTOURS {}\n", card.job, card.contours.len());
        for &number in &found.tour {
            let (contour, within) = self.instance.global_to_local(number);
            let Contour { id, tag, .. } = card.contours[contour];
            let direction = match self.instance.candidate(number).direction {
                CutDirection::Ccw => "ccw",
                CutDirection::Cw => "cw",
            };
            list += &format!("{id} {tag} {within} {direction}\n");
        }
        list + &format!("MOVES {}\nRAPID {:016x}\n", found.moves, found.length)
    }
}

/// What the program prints for any bytes: the original's list, or the second reading's refusal.
pub fn printed(bytes: &[u8]) -> String {
    match crate::reading::card(bytes) {
        Err((number, place)) => format!("REFUSED {number} AT {place}\n"),
        Ok(card) => {
            let problem = Problem::of(&card);
            problem.list(&card, &problem.search(card.limit))
        }
    }
}

/// The card and the list of job 41, as the paper prints them.
#[test]
fn job_41() {
    let list = "JOB 41 CONTOURS 3\n2 20 0 cw\n9 90 0 ccw\n7 70 0 ccw\nMOVES 1\nRAPID 4038000000000000\n";
    assert_eq!(printed(&crate::generate::job_41().bytes()), list);
}

/// The lists that crates/witnesses proves of the card on a line: without a limit, and cut inside the second pass.
#[test]
fn aligned() {
    let list = |limit| printed(&crate::generate::aligned(limit).bytes());
    let head = "JOB 43 CONTOURS 3\n5 50 1 ccw\n";
    assert_eq!(list(0), format!("{head}7 70 0 ccw\n6 60 1 ccw\nMOVES 9\nRAPID 401c000000000000\n"));
    assert_eq!(list(5), format!("{head}6 60 1 ccw\n7 70 0 ccw\nMOVES 5\nRAPID 4020000000000000\n"));
}

/// The list that crates/witnesses proves of the card with a slit; and the fault of the original as it is given, which comes
/// back to the start there and tells its length.
#[test]
fn slit() {
    let card = crate::generate::slit();
    let list = "JOB 45 CONTOURS 3\n5 50 0 ccw\n6 60 0 ccw\n7 70 0 ccw\nMOVES 6\nRAPID 4018000000000000\n";
    assert_eq!(printed(&card.bytes()), list);
    assert_eq!(solved(&card), (vec![0, 3, 4], 6.0));
    assert_eq!(solved_before(&card), (vec![1, 3, 4], 8.0));
}

/// The hole that no pair speaks of is cut first, though its outline is nearer: the list of job 41, whose pair says so. In
/// another instance it is free, and written behind its outline it is sent back.
#[test]
fn holes() {
    let card = crate::generate::holes();
    let list = "JOB 47 CONTOURS 3\n2 20 0 cw\n9 90 0 ccw\n7 70 0 ccw\nMOVES 1\nRAPID 4038000000000000\n";
    assert_eq!(printed(&card.bytes()), list);
    let mut apart = card.clone();
    apart.contours[2].instance += 1;
    assert_eq!(solved(&apart).0, [1, 2, 0]);
    let against = Card { pairs: vec![card.pair(1, 2)], ..card };
    assert_eq!(printed(&against.bytes()), "REFUSED 12 AT 1\n");
}

/// A card of version 2 without a part that does not ask for the grid is answered as the same card of version 1, whatever its
/// instances.
#[test]
fn no_part_no_difference() {
    for case in 0..300 {
        let r = crate::random::Random::of(1, "no part", case);
        let card = crate::generate::good(&r, 1);
        let mut twin = Card { version: 2, ..card.clone() };
        twin.contours.iter_mut().for_each(|contour| contour.instance = r.next() as u32 % 3);
        assert_eq!(printed(&twin.bytes()), printed(&card.bytes()), "case {case}");
        assert_eq!(jambolive::list(&twin.bytes()), jambolive::list(&card.bytes()), "case {case}");
    }
}

/// A square's thirds are moved to the grid, its other candidate is a vertex on it; the dots stay off it, and so does what
/// another byte, or version 1, asks for.
#[test]
fn grid() {
    let card = crate::generate::moved_square();
    let (third, dots) = (3413.0 / 1024.0, [vec![(20.3, 0.0)], vec![(20.3, 3.3)]]);
    let square = vec![(0.0, 0.0), (10.0, third), (third, 10.0)];
    assert_eq!(stops(&card), [&[square][..], &dots].concat());
    for plain in [Card { grid: 0, ..card.clone() }, Card { version: 1, ..card.clone() }] {
        let [(x, y), (z, w)] = [1, 2].map(|k| stops(&plain)[0][k]);
        assert_eq!((x, w), (10.0, 10.0));
        assert!([y, z].iter().all(|v| (v - 10.0 / 3.0).abs() < 1e-14), "{y} {z}");
        assert_ne!(solved(&plain), solved(&card));
    }
}

/// Where a card asks for the move, the copies of the original make it as the second reading does.
#[test]
fn both_moves_agree() {
    for case in 0..3000 {
        let card = crate::generate::gridded(&crate::random::Random::of(1, "moves", case), case % 2 == 0);
        let Problem { instance, counted, .. } = Problem::of(&card);
        let all = stops(&card).concat();
        for (g, &stop) in all.iter().enumerate() {
            let (one, other) = (instance.candidate(g), counted.candidate(g));
            let points = [one.point, one.end_point, other.point, other.end_point];
            let bits = |p: (f64, f64)| (p.0.to_bits(), p.1.to_bits());
            assert_eq!(points.map(bits), [bits(stop); 4], "case {case}");
        }
        assert_eq!((all.len(), all.len()), (instance.total_candidates, counted.total_candidates), "case {case}");
    }
}

/// With up to two candidates a contour a turn has one trial at most, so both rules come to the same; with more they do not
/// always.
#[test]
fn the_rule_of_before_is_seen_from_three_candidates_on() {
    let mut elsewhere = 0;
    for case in 0..3000 {
        let r = crate::random::Random::of(1, "rule of before", case);
        // no larger ones: those of more contours have one candidate each, and the original takes long over them
        let mut card = crate::generate::good_within(&r, 1, crate::limits::Limits::BEFORE);
        card.limit = 0;
        let same = solved(&card) == solved_before(&card);
        assert!(same || card.c > 2, "case {case}");
        elsewhere += u32::from(!same);
    }
    assert!(elsewhere > 100, "{elsewhere} tours differ");
}

/// Every good card of the generator is good by the second reading, and reads back as it was written.
#[test]
fn good_cards_read_back() {
    for case in 0..6000 {
        let card = crate::generate::good(&crate::random::Random::of(1, "read back", case), 1 + (case % 2) as u8);
        assert_eq!(crate::reading::card(&card.bytes()).as_ref(), Ok(&card), "case {case}");
    }
}
