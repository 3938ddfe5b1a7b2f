//! Previews: the changes of document 000's examples and of small boards, and what holds of them on random boards.

use super::{grains, vertex, Board, BOTH, EXAMPLE_EDGES, EXAMPLE_SCORES};
use crate::calls::Calls;
use crate::plain::graph::Graph;
use crate::plain::limits::{MAX_DEGREE, UNIT};
use crate::plain::packing::{pair_count, pair_index, put_bit};
use crate::rng::Rng;
use crate::tuned::BY_ROWS;

const BOARDS: usize = 40;
const ONE: i64 = UNIT as i64;
/// What the changes are before each preview.
const OLD: i64 = i64::MIN + 3;

/// An edit.
#[derive(Clone, Copy)]
enum Edit {
    Add,
    Remove,
}

impl Edit {
    fn reverse(self) -> Edit {
        match self {
            Edit::Add => Edit::Remove,
            Edit::Remove => Edit::Add,
        }
    }

    /// The edit itself, which is accepted.
    fn make(self, board: &mut Board, a: u64, b: u64) {
        let refusal = match self {
            Edit::Add => board.add(&BOTH[0], a, b),
            Edit::Remove => board.remove(&BOTH[0], a, b),
        };
        assert_eq!(refusal, 0);
    }

    /// The refusal and the changes of its preview, which are as before where it is refused.
    fn preview(self, version: &dyn Calls, board: &Board, a: u64, b: u64) -> (u64, Vec<i64>) {
        let figures = board.figures();
        let mut changes = vec![OLD; board.n];
        let refusal = match self {
            Edit::Add => version.preview_add(&board.edges, &figures, &board.marks, &mut changes, a, b),
            Edit::Remove => version.preview_remove(&board.edges, &figures, &board.marks, &mut changes, a, b),
        };
        (refusal, changes)
    }
}

/// The changes of a preview that every version accepts, in which all versions agree.
fn changes(edit: Edit, board: &Board, a: u64, b: u64) -> Vec<i64> {
    let [paths, derived] = BOTH.map(|plain| edit.preview(&plain, board, a, b));
    assert_eq!(paths.0, 0);
    assert_eq!(derived, paths);
    assert_eq!(edit.preview(&BY_ROWS, board, a, b), paths);
    paths.1
}

/// The changes by the scores before the edit and after it.
fn by_scores(edit: Edit, board: &Board, a: u64, b: u64) -> Vec<i64> {
    let mut after = board.clone();
    edit.make(&mut after, a, b);
    let (old, new) = (board.scores(&BOTH[0]), after.scores(&BOTH[0]));
    old.iter().zip(new).map(|(&old, new)| new as i64 - old as i64).collect()
}

fn example() -> Board {
    let edges: Vec<(u64, u64)> =
        EXAMPLE_EDGES.split(' ').map(|ends| (vertex(&ends[..1]), vertex(&ends[1..]))).collect();
    Board::with(&BOTH[0], 16, &edges)
}

/// The changes of the vertices that have one, as numerators and denominators.
fn named(changes: &[(&str, i64, i64)]) -> Vec<i64> {
    let mut due = vec![0; 16];
    for &(name, numerator, denominator) in changes {
        due[vertex(name) as usize] = ONE / denominator * numerator;
    }
    due
}

#[test]
fn examples_5_and_7_add_ik() {
    let found = changes(Edit::Add, &example(), vertex("i"), vertex("k"));
    assert_eq!(found, named(&[("k", -1, 2), ("i", 5, 2), ("f", -3, 2), ("j", -3, 2)]));
}

/// The document prints 55/6 for c after the removal, and e unchanged at 9/2. By the definition c comes to 14/3, from
/// 41/6, and e to 13/2.
#[test]
fn examples_6_and_8_remove_cg() {
    let found = changes(Edit::Remove, &example(), vertex("c"), vertex("g"));
    assert_eq!(found, named(&[("g", -1, 6), ("c", -13, 6), ("d", 7, 3), ("e", 2, 1)]));
}

#[test]
fn the_examples_changes_are_the_differences_of_the_graphs_scores() {
    let due = |column: usize| -> Vec<i64> {
        let score = |scores: [_; 3], column: usize| grains(scores[column]) as i64;
        EXAMPLE_SCORES.iter().map(|&(_, scores)| score(scores, column) - score(scores, 0)).collect()
    };
    assert_eq!(changes(Edit::Add, &example(), vertex("i"), vertex("k")), due(1));
    assert_eq!(changes(Edit::Remove, &example(), vertex("c"), vertex("g")), due(2));
}

#[test]
fn an_edge_across_a_ring_of_4_lowers_every_score() {
    let board = Board::with(&BOTH[0], 4, &[(0, 2), (2, 1), (1, 3), (3, 0)]);
    assert_eq!(changes(Edit::Add, &board, 0, 1), [-ONE / 2, -ONE / 2, -ONE, -ONE]);
}

#[test]
fn a_refused_preview_leaves_the_changes() {
    let full: Vec<(u64, u64)> = (1..=40).map(|q| (0, q)).collect();
    let board = Board::with(&BOTH[0], 42, &full);
    for version in BOTH.iter().map(|plain| plain as &dyn Calls).chain([&BY_ROWS as &dyn Calls]) {
        for (edit, a, b, due) in [
            (Edit::Add, 0, 42, 4),
            (Edit::Remove, 42, 42, 4),
            (Edit::Add, 0, 0, 5),
            (Edit::Add, 0, 1, 6),
            (Edit::Remove, 0, 41, 7),
            (Edit::Add, 0, 41, 12),
        ] {
            assert_eq!(edit.preview(version, &board, a, b), (due, vec![OLD; 42]));
        }
    }
}

#[test]
fn a_crowded_node_elsewhere_shows_0() {
    let mut board = Board::with(&BOTH[0], 50, &[(0, 2), (1, 2), (0, 9)]);
    for q in 10..50 {
        put_bit(&mut board.edges, pair_index(9, q), true);
    }
    let mut due = vec![0; 50];
    (due[0], due[2]) = (ONE, -ONE);
    assert_eq!(changes(Edit::Add, &board, 0, 1), due);
}

/// A board of random edges within the limit, any marks and false figures.
fn random_board(rng: &mut Rng) -> Board {
    let n = rng.between(2, 10);
    let mut board = Board::with(&BOTH[0], n, &[]);
    let percent = rng.between(20, 95);
    (0..pair_count(n)).for_each(|i| put_bit(&mut board.edges, i, rng.chance(percent)));
    board.marks = rng.bytes(board.marks.len());
    board.figures = rng.bytes(8 * n);
    board
}

/// Every pair of a board, with the edit that it allows.
fn edits(graph: &Graph) -> Vec<(Edit, usize, usize)> {
    let n = graph.node_count();
    assert!(n <= MAX_DEGREE);
    let pairs = (0..n).flat_map(|b| (0..b).map(move |a| (a, b)));
    pairs.map(|(a, b)| (if graph.has(a, b) { Edit::Remove } else { Edit::Add }, a, b)).collect()
}

#[test]
fn changes_are_the_differences_of_scores_and_reverse_with_the_edit() {
    let mut rng = Rng::new(5);
    for _ in 0..BOARDS {
        let board = random_board(&mut rng);
        for (edit, a, b) in edits(&Graph::read(board.n, &board.edges)) {
            let (a, b) = (a as u64, b as u64);
            let found = changes(edit, &board, a, b);
            assert_eq!(found, by_scores(edit, &board, a, b));
            assert_eq!(found, changes(edit, &board, b, a));
            let mut after = board.clone();
            edit.make(&mut after, a, b);
            let back: Vec<i64> = changes(edit.reverse(), &after, a, b).iter().map(|change| -change).collect();
            assert_eq!(found, back);
        }
    }
}

#[test]
fn common_neighbours_fall_at_an_add_and_rise_at_a_remove_and_others_stay() {
    let mut rng = Rng::new(6);
    let mut ends_that_fall = 0;
    for _ in 0..BOARDS {
        let board = random_board(&mut rng);
        let graph = Graph::read(board.n, &board.edges);
        for (edit, a, b) in edits(&graph) {
            let common = graph.common(a, b);
            let sign = if graph.has(a, b) { 1 } else { -1 };
            for (p, change) in changes(edit, &board, a as u64, b as u64).into_iter().enumerate() {
                if common.contains(&p) {
                    assert_eq!(change.signum(), sign);
                } else if p != a && p != b {
                    assert_eq!(change, 0);
                } else if matches!(edit, Edit::Add) && change < 0 {
                    ends_that_fall += 1;
                }
            }
        }
    }
    assert!(ends_that_fall > 0, "an end's score may fall at an add");
}
