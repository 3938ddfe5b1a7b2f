//! The description's worked cases, run on the plain version with both ways to score.

mod bounds;
mod nearest;
mod pins;
mod previews;

use super::calls::Plain;
use super::limits::UNIT;
use super::packing::{bit, edge_bytes, mark_bytes, scratch_bytes};
use super::replay::replay;
use super::{derived, paths};
use crate::calls::Calls;

const BOTH: [Plain; 2] =
    [Plain { name: "paths", scorer: paths::score }, Plain { name: "derived", scorer: derived::score }];

/// A numerator and a denominator.
type Fraction = (u64, u64);

/// The neighbourhood of the source's example 1: d is 0, and a b c g h i are 1 to 6.
const EGO_OF_D: [(u64, u64); 13] =
    [(0, 1), (0, 2), (0, 3), (0, 4), (0, 5), (0, 6), (1, 2), (1, 3), (2, 3), (3, 4), (3, 5), (4, 6), (5, 6)];

/// The edges of document 000's example graph.
const EXAMPLE_EDGES: &str = "ab ac ad ae bc bd bf cd ce cf cg ch dg dh di eg ei ej fh fi fk fx gi hi ij jk ux vx xy xz";

/// Each vertex of that graph and its scores: as it is, with ik added, and with cg removed.
const EXAMPLE_SCORES: [(&str, [Fraction; 3]); 16] = [
    ("a", [(1, 1), (1, 1), (1, 1)]),
    ("b", [(1, 1), (1, 1), (1, 1)]),
    ("c", [(41, 6), (41, 6), (14, 3)]),
    ("d", [(14, 3), (14, 3), (7, 1)]),
    ("e", [(9, 2), (9, 2), (13, 2)]),
    ("f", [(11, 1), (19, 2), (11, 1)]),
    ("g", [(2, 3), (2, 3), (1, 2)]),
    ("h", [(2, 3), (2, 3), (2, 3)]),
    ("i", [(8, 1), (21, 2), (8, 1)]),
    ("j", [(2, 1), (1, 2), (2, 1)]),
    ("k", [(1, 1), (1, 2), (1, 1)]),
    ("x", [(10, 1), (10, 1), (10, 1)]),
    ("u", [(0, 1), (0, 1), (0, 1)]),
    ("v", [(0, 1), (0, 1), (0, 1)]),
    ("y", [(0, 1), (0, 1), (0, 1)]),
    ("z", [(0, 1), (0, 1), (0, 1)]),
];

/// A fraction in grains, of which it is a whole number.
fn grains((numerator, denominator): Fraction) -> u64 {
    assert_eq!(UNIT % denominator, 0);
    UNIT / denominator * numerator
}

/// The node of the example graph's vertex.
fn vertex(name: &str) -> u64 {
    EXAMPLE_SCORES.iter().position(|&(other, _)| other == name).expect("the vertex is in the table") as u64
}

/// A state that owns its buffers.
#[derive(Clone, Debug, PartialEq, Eq)]
struct Board {
    n: usize,
    edges: Vec<u8>,
    figures: Vec<u8>,
    marks: Vec<u8>,
}

impl Board {
    fn with(plain: &Plain, n: usize, pairs: &[(u64, u64)]) -> Board {
        let mut board =
            Board { n, edges: vec![255; edge_bytes(n)], figures: vec![255; 8 * n], marks: vec![255; mark_bytes(n)] };
        assert_eq!(plain.clear(n as u64, &mut board.edges, &mut board.figures, &mut board.marks), 0);
        for &(a, b) in pairs {
            assert_eq!(board.add(plain, a, b), 0);
        }
        board
    }

    fn add(&mut self, plain: &Plain, a: u64, b: u64) -> u64 {
        plain.add(self.n as u64, &mut self.edges, &mut self.figures, &mut self.marks, a, b)
    }

    fn remove(&mut self, plain: &Plain, a: u64, b: u64) -> u64 {
        plain.remove(self.n as u64, &mut self.edges, &mut self.figures, &mut self.marks, a, b)
    }

    fn scores(&self, plain: &Plain) -> Vec<u64> {
        (0..self.n).map(|p| plain.score(self.n as u64, &self.edges, p as u64)).collect()
    }

    /// The stored figures.
    fn figures(&self) -> Vec<u64> {
        self.figures.chunks(8).map(|b| u64::from_le_bytes(b.try_into().unwrap())).collect()
    }

    fn put_figures(&mut self, figures: &[u64]) {
        self.figures = figures.iter().flat_map(|figure| figure.to_le_bytes()).collect();
    }

    /// The open nodes, in order.
    fn open(&self) -> Vec<usize> {
        (0..self.n).filter(|&p| bit(&self.marks, p)).collect()
    }

    fn load(&mut self, plain: &Plain, edges: &[u8]) -> u64 {
        let mut figures = self.figures();
        let snapshot = [&[(self.n - 1) as u8], edges].concat();
        let answer = plain.load(&mut self.edges, &mut figures, &mut self.marks, &snapshot);
        self.put_figures(&figures);
        answer
    }

    fn reconcile(&mut self, plain: &Plain, theirs: &[u8], base: &[u8]) -> u64 {
        let mut figures = self.figures();
        let answer = plain.reconcile(&mut self.edges, &mut figures, &mut self.marks, theirs, base);
        self.put_figures(&figures);
        answer
    }

    fn list(&mut self, plain: &Plain, k: usize) -> (u64, Vec<u64>) {
        let mut figures = self.figures();
        let mut entries = vec![7; 2 * k];
        let mut scratch = vec![9; scratch_bytes(self.n)];
        let worked = plain.list(&mut self.edges, &mut figures, &mut self.marks, &mut entries, &mut scratch);
        self.put_figures(&figures);
        assert_eq!(scratch, vec![0; scratch_bytes(self.n)]);
        (worked, entries)
    }
}

#[test]
fn the_unit_is_the_least_common_multiple_of_1_to_39() {
    fn gcd(a: u64, b: u64) -> u64 {
        if b == 0 {
            a
        } else {
            gcd(b, a % b)
        }
    }
    assert_eq!(UNIT, (1..=39).fold(1, |multiple, next| multiple / gcd(multiple, next) * next));
    assert_eq!(UNIT, 5_342_931_457_063_200);
}

#[test]
fn a_star_of_40_edges_has_the_largest_score() {
    const LARGEST: u64 = 4_167_486_536_509_296_000;
    let edges: Vec<(u64, u64)> = (1..=40).map(|q| (0, q)).collect();
    for plain in &BOTH {
        let board = Board::with(plain, 41, &edges);
        assert_eq!(board.scores(plain)[0], LARGEST);
        assert_eq!(board.figures()[0], LARGEST);
    }
    assert_eq!(LARGEST, 780 * UNIT);
}

#[test]
fn all_edges_of_41_but_one_make_the_smallest_share() {
    let mut edges: Vec<(u64, u64)> = (0..41).flat_map(|b| (0..b).map(move |a| (a, b))).collect();
    assert_eq!(edges.pop(), Some((39, 40)));
    for plain in &BOTH {
        let scores = Board::with(plain, 41, &edges).scores(plain);
        assert_eq!(scores[..39], [grains((1, 39)); 39]);
        assert_eq!(scores[39..], [0; 2]);
    }
}

#[test]
fn no_edges_score_0() {
    for plain in &BOTH {
        assert_eq!(Board::with(plain, 5, &[]).scores(plain), [0; 5]);
    }
}

#[test]
fn one_node_has_no_edge_bytes_and_lists_itself() {
    for plain in &BOTH {
        let mut board = Board::with(plain, 1, &[]);
        assert!(board.edges.is_empty());
        assert_eq!(board.list(plain, 1), (0, vec![0, 0]));
    }
}

#[test]
fn a_star_of_4_is_byte_d0_and_scores_3() {
    for plain in &BOTH {
        let board = Board::with(plain, 4, &[(0, 1), (0, 2), (0, 3)]);
        assert_eq!(board.edges, [0xD0]);
        assert_eq!(board.scores(plain), [3 * UNIT, 0, 0, 0]);
    }
}

#[test]
fn each_node_of_a_ring_of_4_scores_1() {
    for plain in &BOTH {
        let board = Board::with(plain, 4, &[(0, 1), (1, 2), (2, 3), (3, 0)]);
        assert_eq!(board.scores(plain), [UNIT; 4]);
    }
}

#[test]
fn all_edges_of_4_but_one() {
    const HALF: u64 = 2_671_465_728_531_600;
    for plain in &BOTH {
        let mut board = Board::with(plain, 4, &[(0, 1), (0, 2), (0, 3), (1, 2), (1, 3)]);
        assert_eq!(board.scores(plain), [HALF, HALF, 0, 0]);
        assert_eq!(board.add(plain, 2, 3), 0);
        assert_eq!(board.scores(plain), [0; 4]);
        assert_eq!(board.remove(plain, 2, 3), 0);
        assert_eq!(board.scores(plain), [HALF, HALF, 0, 0]);
    }
}

#[test]
fn the_middle_of_a_path_goes_from_0_to_1() {
    for plain in &BOTH {
        let mut board = Board::with(plain, 3, &[(0, 1)]);
        assert_eq!(board.scores(plain), [0; 3]);
        assert_eq!(board.add(plain, 1, 2), 0);
        assert_eq!(board.scores(plain), [0, UNIT, 0]);
    }
}

#[test]
fn example_1_of_the_source_scores_14_thirds() {
    for plain in &BOTH {
        let board = Board::with(plain, 7, &EGO_OF_D);
        assert_eq!(board.scores(plain)[0], 24_933_680_132_961_600);
        assert_eq!(3 * board.scores(plain)[0], 14 * UNIT);
    }
}

#[test]
fn the_example_graph_of_the_source() {
    let [c, g, i, k] = ["c", "g", "i", "k"].map(vertex);
    let edges: Vec<(u64, u64)> =
        EXAMPLE_EDGES.split(' ').map(|ends| (vertex(&ends[..1]), vertex(&ends[1..]))).collect();
    assert_eq!(edges.len(), 30);
    let due = |column: usize| EXAMPLE_SCORES.map(|(_, scores)| grains(scores[column]));
    for plain in &BOTH {
        let mut board = Board::with(plain, 16, &edges);
        assert_eq!(board.scores(plain), due(0));
        assert_eq!(board.add(plain, i, k), 0);
        assert_eq!(board.scores(plain), due(1));
        assert_eq!(board.remove(plain, i, k), 0);
        assert_eq!(board.remove(plain, c, g), 0);
        assert_eq!(board.scores(plain), due(2));
    }
}

#[test]
fn the_scratch_of_a_list_has_a_bit_for_each_node() {
    for (n, length) in [(1, 1), (7, 1), (8, 1), (9, 2), (16, 2), (17, 3), (255, 32), (256, 32)] {
        assert_eq!(scratch_bytes(n), length);
    }
}

#[test]
fn reconcile_keeps_only_what_mine_added() {
    for plain in &BOTH {
        let mut mine = Board::with(plain, 3, &[(0, 1), (0, 2)]);
        let base = Board::with(plain, 3, &[(0, 1)]).edges;
        let theirs = Board::with(plain, 3, &[]).edges;
        assert_eq!(mine.reconcile(plain, &theirs, &base), 0);
        assert_eq!(mine.edges, Board::with(plain, 3, &[(0, 2)]).edges);
    }
}

#[test]
fn the_listing_of_the_script_program() {
    let script = [0x03, 0x40, 0, 0x50, 0, 0x24, 0, 0x0F, 0x01, 0, 0, 0, 0];
    let printed = "posts 4\nadd 0 1 0\nadd 0 2 0\nadd 0 3 0\nhead 2 0 2\n0 16028794371189600\n1 0\nend\n";
    assert_eq!(replay(&script), printed);
}

#[test]
fn an_input_that_is_empty_or_too_long_is_bad() {
    assert_eq!(replay(&[]), "bad\n");
    assert_eq!(replay(&[0; 65_537]), "bad\n");
    assert_eq!(replay(&[0; 65_536]), "posts 1\nbad\n");
}
