//! What the benchmark times: each call on its boards.

use super::board::Board;
use super::searches;
use super::time::BATCH;
use crate::calls::{Calls, Entry};
use crate::plain::packing::{pair_index, put_bit};
use crate::rng::Rng;
use crate::tuned::BY_ROWS;

/// The boards of one line of the table, and the call that is timed on each of them.
pub struct Case {
    pub name: &'static str,
    pub boards: Vec<Board>,
    pub call: fn(&mut Board, &dyn Calls) -> u64,
}

/// Every call on one board.
pub fn cases(rng: &mut Rng, board: Board) -> Vec<Case> {
    let n = board.n;
    let same = |board: &Board| vec![board.clone(); BATCH];
    let mut joined = board.pairs(true);
    rng.shuffle(&mut joined);

    let scored = (0..BATCH).map(|i| Board { a: (i * n / BATCH) as u64, ..board.clone() }).collect();
    let present = present(&board, &joined);
    let absent = absent(&present);
    let merged = merged(&board, &joined);
    let pinned = pinned(&merged, &joined);
    let [near, far, lost] = searches::boards(rng, &board);
    let settled = settled(&board);
    let edited = edited(&settled, joined[0]);
    let all = Board { entries: vec![0; 2 * n], records: vec![Entry::default(); n], ..board.clone() };
    vec![
        Case { name: "clear", boards: same(&board), call: Board::clear },
        Case { name: "load", boards: same(&board), call: Board::load },
        Case { name: "write", boards: same(&board), call: Board::write },
        Case { name: "score", boards: scored, call: Board::score },
        Case { name: "preview of an add", boards: absent.clone(), call: Board::preview_add },
        Case { name: "preview of a remove", boards: present.clone(), call: Board::preview_remove },
        Case { name: "add", boards: absent, call: Board::add },
        Case { name: "remove", boards: present, call: Board::remove },
        Case { name: "reconcile 8 pairs", boards: same(&merged), call: Board::reconcile },
        Case { name: "reconcile with pins", boards: same(&pinned), call: Board::reconcile_pinned },
        Case { name: "first conflict", boards: same(&pinned), call: Board::conflict },
        Case { name: "nearest, near", boards: near, call: Board::nearest },
        Case { name: "nearest, far", boards: far, call: Board::nearest },
        Case { name: "nearest, none", boards: lost, call: Board::nearest },
        Case { name: "list 8, all open", boards: same(&board), call: Board::list },
        Case { name: "list n, all open", boards: same(&all), call: Board::list },
        Case { name: "list 8, settled", boards: same(&settled), call: Board::list },
        Case { name: "list 8, one edit", boards: same(&edited), call: Board::list },
        Case { name: "records 8, all open", boards: same(&board), call: Board::list_entries },
        Case { name: "records n, all open", boards: same(&all), call: Board::list_entries },
        Case { name: "records 8, settled", boards: same(&settled), call: Board::list_entries },
    ]
}

/// The board with each of the pairs in turn to remove.
fn present(board: &Board, joined: &[(usize, usize)]) -> Vec<Board> {
    let pairs = joined.iter().cycle().take(BATCH);
    pairs.map(|&(a, b)| Board { a: a as u64, b: b as u64, ..board.clone() }).collect()
}

/// The boards without their pairs, to add these.
fn absent(present: &[Board]) -> Vec<Board> {
    let mut absent = present.to_vec();
    for board in &mut absent {
        board.remove(&BY_ROWS);
    }
    absent
}

/// The board to reconcile: theirs lacks four edges that mine and the base have, and has four that they lack, so there
/// are four removals and four additions.
pub fn merged(board: &Board, joined: &[(usize, usize)]) -> Board {
    let mut merged = board.clone();
    for &(a, b) in joined.iter().take(4) {
        put_bit(&mut merged.theirs, pair_index(a, b), false);
    }
    for &(a, b) in joined.iter().rev().take(4) {
        put_bit(&mut merged.snapshot[1..], pair_index(a, b), false);
        put_bit(&mut merged.edges, pair_index(a, b), false);
    }
    merged
}

/// That board with pins: mine confirms half of the links that both have, theirs these and its own changes, so there is no
/// conflict.
pub fn pinned(merged: &Board, joined: &[(usize, usize)]) -> Board {
    let mut pinned = merged.clone();
    for &(a, b) in joined[4..joined.len() - 4].iter().step_by(2) {
        put_bit(&mut pinned.pins, pair_index(a, b), true);
        put_bit(&mut pinned.their_pins, pair_index(a, b), true);
    }
    for &(a, b) in joined.iter().take(4).chain(joined.iter().rev().take(4)) {
        put_bit(&mut pinned.their_pins, pair_index(a, b), true);
    }
    pinned
}

/// The board with every node worked out.
fn settled(board: &Board) -> Board {
    let mut settled = Board { entries: vec![0; 2 * board.n], ..board.clone() };
    settled.list(&BY_ROWS);
    settled.entries = vec![0; 16];
    settled.pour();
    settled
}

/// The board after the removal of an edge.
fn edited(board: &Board, (a, b): (usize, usize)) -> Board {
    let mut edited = Board { a: a as u64, b: b as u64, ..board.clone() };
    edited.remove(&BY_ROWS);
    edited.pour_back();
    edited
}
