//! Ceilings: a node's number of unjoined neighbour pairs, and what load, add, remove and reconcile make of it.

use super::{Board, BOTH, EGO_OF_D};
use crate::plain::bound::bound;
use crate::plain::calls::Plain;
use crate::plain::graph::Graph;
use crate::plain::limits::UNIT;
use crate::plain::packing::{bit, edge_bytes, pair_count, pair_index, put_bit};
use crate::rng::Rng;

const PLAIN: &Plain = &BOTH[0];
const HISTORIES: usize = 300;

const STAR: [(u64, u64); 3] = [(0, 1), (0, 2), (0, 3)];
const ALL_OF_4: [(u64, u64); 6] = [(0, 1), (0, 2), (0, 3), (1, 2), (1, 3), (2, 3)];
/// Node 0 joined to each node of the ring 1, 2, 3, 4.
const WHEEL: [(u64, u64); 8] = [(0, 1), (0, 2), (0, 3), (0, 4), (1, 2), (2, 3), (3, 4), (1, 4)];

/// The edge bytes of these pairs.
fn edges_of(n: usize, pairs: &[(u64, u64)]) -> Vec<u8> {
    let mut edges = vec![0; edge_bytes(n)];
    for &(a, b) in pairs {
        put_bit(&mut edges, pair_index(a as usize, b as usize), true);
    }
    edges
}

/// A board as a load of these pairs leaves it.
fn loaded(n: usize, pairs: &[(u64, u64)]) -> Board {
    let mut board = Board::with(PLAIN, n, &[]);
    board.put_figures(&vec![u64::MAX; n]);
    assert_eq!(board.load(PLAIN, &edges_of(n, pairs)), 0);
    assert_eq!(board.open(), (0..n).collect::<Vec<_>>());
    board
}

/// The figures that a load of these pairs gives, in units.
fn loaded_units(n: usize, pairs: &[(u64, u64)]) -> Vec<u64> {
    loaded(n, pairs).figures().iter().map(|&figure| units(figure)).collect()
}

fn units(figure: u64) -> u64 {
    assert_eq!(figure % UNIT, 0);
    figure / UNIT
}

/// A board of these pairs on which every node is settled and has this figure.
fn settled(n: usize, pairs: &[(u64, u64)], figure: u64) -> Board {
    let mut board = loaded(n, pairs);
    board.put_figures(&vec![figure; n]);
    board.marks.fill(0);
    board
}

/// The ceiling of every node of a board.
fn ceilings(board: &Board) -> Vec<u64> {
    let graph = Graph::read(board.n, &board.edges);
    (0..board.n).map(|p| bound(&graph, p)).collect()
}

#[test]
fn the_middle_of_a_star_of_4_has_3_unjoined_pairs() {
    assert_eq!(loaded_units(4, &STAR), [3, 0, 0, 0]);
}

#[test]
fn no_node_of_a_triangle_has_an_unjoined_pair() {
    assert_eq!(loaded_units(3, &[(0, 1), (0, 2), (1, 2)]), [0; 3]);
    assert_eq!(loaded_units(4, &ALL_OF_4), [0; 4]);
}

#[test]
fn each_node_of_a_ring_of_4_has_1_unjoined_pair() {
    assert_eq!(loaded_units(4, &[(0, 1), (1, 2), (2, 3), (3, 0)]), [1; 4]);
}

#[test]
fn all_edges_of_4_but_one_leave_1_unjoined_pair_at_two_nodes() {
    assert_eq!(loaded_units(4, &ALL_OF_4[..5]), [1, 1, 0, 0]);
}

#[test]
fn d_of_example_1_has_8_unjoined_pairs() {
    assert_eq!(loaded_units(7, &EGO_OF_D), [8, 0, 0, 5, 1, 1, 1]);
}

#[test]
fn both_ends_of_an_added_edge_take_their_ceilings() {
    // 1 gets the neighbour 2, which is not joined to 0; 2 gets 1, which is joined to 3
    let mut board = settled(4, &[(0, 1), (1, 3), (2, 3)], 7);
    assert_eq!(board.add(PLAIN, 1, 2), 0);
    assert_eq!(board.figures(), [7, 2 * UNIT, 0, 0]);
    assert_eq!(board.open(), [1, 2, 3]);
}

#[test]
fn a_common_neighbour_keeps_a_smaller_figure_at_an_add() {
    for figure in [0, 1, UNIT, 2 * UNIT - 1, 2 * UNIT] {
        for marks in [0x00, 0xF0] {
            let mut board = settled(4, &STAR, figure);
            board.marks[0] = marks;
            assert_eq!(board.add(PLAIN, 1, 2), 0);
            assert_eq!(board.figures(), [figure, 0, 0, figure]);
            assert_eq!(board.marks[0], marks | 0xE0);
        }
    }
}

#[test]
fn a_common_neighbour_takes_its_ceiling_at_an_add_where_its_figure_is_larger() {
    for figure in [2 * UNIT + 1, 3 * UNIT - 1, 3 * UNIT, u64::MAX] {
        for marks in [0x00, 0xF0] {
            let mut board = settled(4, &STAR, figure);
            board.marks[0] = marks;
            assert_eq!(board.add(PLAIN, 1, 2), 0);
            assert_eq!(board.figures(), [2 * UNIT, 0, 0, figure]);
            assert_eq!(board.marks[0], marks | 0xE0);
        }
    }
}

#[test]
fn common_neighbours_with_settled_scores_go_both_ways_at_an_add() {
    let mut board = loaded(5, &WHEEL);
    board.list(PLAIN, 5);
    assert_eq!(board.figures(), [2 * UNIT / 3, UNIT / 2, UNIT / 2, UNIT / 2, UNIT / 2]);
    assert_eq!(board.open(), []);
    assert_eq!(board.add(PLAIN, 1, 3), 0);
    // 0 keeps its score, below its ceiling of 1; 2 and 4 fall to their ceilings
    assert_eq!(board.figures(), [2 * UNIT / 3, UNIT, 0, UNIT, 0]);
    assert_eq!(board.open(), [0, 1, 2, 3, 4]);
}

#[test]
fn a_common_neighbour_takes_its_ceiling_at_a_remove_whatever_its_figure() {
    for figure in [0, 1, UNIT - 1, UNIT, UNIT + 1, u64::MAX] {
        for marks in [0x00, 0xF0] {
            let mut board = settled(4, &ALL_OF_4, figure);
            board.marks[0] = marks;
            assert_eq!(board.remove(PLAIN, 2, 3), 0);
            assert_eq!(board.figures(), [UNIT, UNIT, 0, 0]);
            assert_eq!(board.marks[0], 0xF0);
        }
    }
}

/// A board of n nodes with random edges, false figures and any marks.
fn random_board(rng: &mut Rng, n: usize) -> Board {
    let figures: Vec<u64> = (0..n).map(|_| rng.below(7) as u64 * (UNIT / 2)).collect();
    let mut board = Board::with(PLAIN, n, &[]);
    board.edges = random_edges(rng, n);
    board.marks[0] = rng.next() as u8;
    board.put_figures(&figures);
    board
}

/// Random edges of n nodes, spare bits 0.
fn random_edges(rng: &mut Rng, n: usize) -> Vec<u8> {
    let mut edges = vec![0; edge_bytes(n)];
    let percent = rng.between(20, 90);
    for i in 0..pair_count(n) {
        put_bit(&mut edges, i, rng.chance(percent));
    }
    edges
}

#[test]
fn an_edge_between_two_neighbours_lowers_the_ceiling_by_one_unit() {
    let mut rng = Rng::new(2);
    for _ in 0..HISTORIES {
        let n = rng.between(3, 8);
        let board = random_board(&mut rng, n);
        let graph = Graph::read(n, &board.edges);
        for p in 0..n {
            for (u, v) in graph.unjoined_pairs(p) {
                let mut more = graph.clone();
                more.set(u, v, true);
                assert_eq!(bound(&more, p) + UNIT, bound(&graph, p));
            }
        }
    }
}

/// The changes that a reconcile makes: the pair, and whether it is added.
fn steps(n: usize, mine: &[u8], theirs: &[u8]) -> Vec<(u64, u64, bool)> {
    (0..n as u64)
        .flat_map(|b| (0..b).map(move |a| (a, b, pair_index(a as usize, b as usize))))
        .filter(|&(_, _, index)| bit(mine, index) != bit(theirs, index))
        .map(|(a, b, index)| (a, b, bit(theirs, index)))
        .collect()
}

/// No order of the single steps leaves another board, so removals before additions does not show.
#[test]
fn the_order_of_a_reconciles_steps_does_not_show() {
    let mut rng = Rng::new(3);
    for _ in 0..20 * HISTORIES {
        let n = rng.between(2, 7);
        let start = random_board(&mut rng, n);
        let theirs = random_edges(&mut rng, n);
        let mut reconciled = start.clone();
        assert_eq!(reconciled.reconcile(PLAIN, &theirs, &start.edges), 0);
        let mut steps = steps(n, &start.edges, &theirs);
        rng.shuffle(&mut steps);
        let mut stepped = start.clone();
        for (a, b, adds) in steps {
            let refusal = if adds { stepped.add(PLAIN, a, b) } else { stepped.remove(PLAIN, a, b) };
            assert_eq!(refusal, 0);
        }
        assert_eq!(reconciled, stepped);
    }
}

#[test]
fn a_step_of_a_reconcile_takes_ceilings_from_the_graph_after_it() {
    // 0-1 goes, 2-3 comes; 4 is a common neighbour of the added edge alone
    let mine = [(0, 1), (0, 2), (0, 3), (1, 2), (1, 3), (2, 4), (3, 4), (4, 5)];
    let theirs = [(0, 2), (0, 3), (1, 2), (1, 3), (2, 3), (2, 4), (3, 4), (4, 5)];
    for (figure, due) in [(1, 1), (u64::MAX, 2 * UNIT)] {
        let mut board = settled(6, &mine, figure);
        assert_eq!(board.reconcile(PLAIN, &edges_of(6, &theirs), &edges_of(6, &mine)), 0);
        assert_eq!(board.figures(), [0, 0, 3 * UNIT, 3 * UNIT, due, figure]);
        assert_eq!(board.open(), [0, 1, 2, 3, 4]);
    }
}

/// A random call on a board: an edit, a list or a reconcile.
fn random_call(rng: &mut Rng, board: &mut Board) {
    let n = board.n;
    let (a, b) = (rng.below(n) as u64, rng.below(n) as u64);
    match rng.below(10) {
        0..=3 => drop(board.add(PLAIN, a, b)),
        4..=6 => drop(board.remove(PLAIN, a, b)),
        7..=8 => drop(board.list(PLAIN, a as usize + 1)),
        _ => {
            let base = random_edges(rng, n);
            let theirs = random_edges(rng, n);
            board.reconcile(PLAIN, &theirs, &base);
        }
    }
}

/// A settled figure is the score; an open one lies from the score to the ceiling.
#[test]
fn no_open_figure_lies_below_the_score_after_a_clear_or_a_load() {
    let mut rng = Rng::new(4);
    for _ in 0..HISTORIES {
        let n = rng.between(2, 8);
        let mut board = Board::with(PLAIN, n, &[]);
        if rng.chance(70) {
            let edges = random_edges(&mut rng, n);
            assert_eq!(board.load(PLAIN, &edges), 0);
        }
        for _ in 0..30 {
            let open = board.open();
            let rows = board.figures().into_iter().zip(board.scores(PLAIN)).zip(ceilings(&board));
            for (p, ((figure, score), ceiling)) in rows.enumerate() {
                assert!(score <= figure && figure <= ceiling, "node {p}: {score}, {figure}, {ceiling}");
                assert!(open.contains(&p) || figure == score, "node {p}: {figure} settled, {score} the score");
            }
            random_call(&mut rng, &mut board);
        }
    }
}
