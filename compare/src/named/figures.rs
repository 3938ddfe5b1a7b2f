//! The figures and marks that calls leave on small boards.

use super::{board, links, Board};
use crate::calls::Calls;
use crate::memory::Kind;
use crate::plain::limits::UNIT;

const STAR: [(usize, usize); 3] = [(0, 1), (0, 2), (0, 3)];
const ALL_OF_4: [(usize, usize); 6] = [(0, 1), (0, 2), (0, 3), (1, 2), (1, 3), (2, 3)];
/// Post 0 linked to each post of the ring 1, 2, 3, 4.
const WHEEL: [(usize, usize); 8] = [(0, 1), (0, 2), (0, 3), (0, 4), (1, 2), (2, 3), (3, 4), (1, 4)];
/// Document 000's example 1: d is 0, and a b c g h i are 1 to 6.
const EGO_OF_D: [(usize, usize); 13] =
    [(0, 1), (0, 2), (0, 3), (0, 4), (0, 5), (0, 6), (1, 2), (1, 3), (2, 3), (3, 4), (3, 5), (4, 6), (5, 6)];
/// 0 and 1 linked, both linked to 2 and 3, these to 4, and 4 to 5.
const CROSSED: [(usize, usize); 8] = [(0, 1), (0, 2), (0, 3), (1, 2), (1, 3), (2, 4), (3, 4), (4, 5)];

/// A board with false figures onto which these links are loaded.
fn loaded<'a>(version: &'a dyn Calls, n: usize, pairs: &[(usize, usize)]) -> Board<'a> {
    let mut board = Board::new(version, n);
    board.lent.figures.fill(255);
    board.load(&links(n, pairs));
    board
}

/// A board with these links, on which each post is settled and has this figure.
fn settled<'a>(version: &'a dyn Calls, n: usize, pairs: &[(usize, usize)], figure: u64) -> Board<'a> {
    let mut board = board(version, n, pairs);
    board.lent.figures = figure.to_le_bytes().repeat(n);
    board
}

/// A board with these links, on which a list has settled every post.
fn listed<'a>(version: &'a dyn Calls, n: usize, pairs: &[(usize, usize)]) -> Board<'a> {
    let mut board = loaded(version, n, pairs);
    board.lists(n);
    board
}

/// The board after a reconcile that removes the link of 0 and 1 and adds that of 2 and 3.
fn exchanged(mut board: Board) -> Board {
    board.lent.base = links(board.n, &[(0, 1)]);
    let theirs = links(board.n, &[(2, 3)]);
    board.reconcile(theirs);
    board
}

/// The same by a reconcile with pins: mine confirms what it leaves, and theirs its changes.
fn exchanged_with_pins(mut board: Board) -> Board {
    board.lent.base = links(board.n, &[(0, 1)]);
    board.lent.theirs = links(board.n, &[(2, 3)]);
    board.lent.pins = links(board.n, &CROSSED[1..]);
    board.lent.their_pins = links(board.n, &[(0, 1), (2, 3)]);
    board.then(Kind::ReconcilePinned, 0, 0)
}

/// The largest figure that a buffer can hold.
const LARGE: u64 = u64::MAX;

/// A case's name, the figures and the marks byte that are due, and the board that the calls leave on a version.
pub type Case = (&'static str, &'static [u64], u8, fn(&dyn Calls) -> Board<'_>);

pub const CASES: [Case; 20] = [
    ("load gives the middle of a star its 3 unlinked pairs", &[3 * UNIT, 0, 0, 0], 0xF0, |version| {
        loaded(version, 4, &STAR)
    }),
    ("load gives 0 to each post of a full triangle", &[0, 0, 0], 0xE0, |version| {
        loaded(version, 3, &[(0, 1), (0, 2), (1, 2)])
    }),
    ("load gives 1 to each post of a ring of 4", &[UNIT, UNIT, UNIT, UNIT], 0xF0, |version| {
        loaded(version, 4, &[(0, 1), (1, 2), (2, 3), (0, 3)])
    }),
    ("load of all six links of 4 posts but 2 and 3", &[UNIT, UNIT, 0, 0], 0xF0, |version| {
        loaded(version, 4, &ALL_OF_4[..5])
    }),
    (
        "load gives d of document 000's example its 8 unlinked pairs",
        &[8 * UNIT, 0, 0, 5 * UNIT, UNIT, UNIT, UNIT],
        0xFE,
        |version| loaded(version, 7, &EGO_OF_D),
    ),
    ("an end of an add takes its ceiling", &[LARGE, 2 * UNIT, 0, 0], 0x70, |version| {
        settled(version, 4, &[(0, 1), (1, 3), (2, 3)], LARGE).then(Kind::Add, 1, 2)
    }),
    ("a common neighbour keeps a smaller figure at an add", &[1, 0, 0, 1], 0xE0, |version| {
        settled(version, 4, &STAR, 1).then(Kind::Add, 1, 2)
    }),
    (
        "a common neighbour keeps a figure a grain below its ceiling",
        &[2 * UNIT - 1, 0, 0, 2 * UNIT - 1],
        0xE0,
        |version| settled(version, 4, &STAR, 2 * UNIT - 1).then(Kind::Add, 1, 2),
    ),
    (
        "a common neighbour takes its ceiling where its figure is a grain larger",
        &[2 * UNIT, 0, 0, 2 * UNIT + 1],
        0xE0,
        |version| settled(version, 4, &STAR, 2 * UNIT + 1).then(Kind::Add, 1, 2),
    ),
    (
        "a common neighbour takes its ceiling where its figure is the largest",
        &[2 * UNIT, 0, 0, LARGE],
        0xE0,
        |version| settled(version, 4, &STAR, LARGE).then(Kind::Add, 2, 1),
    ),
    ("an open common neighbour takes its ceiling at an add", &[2 * UNIT, 0, 0, 0], 0xF0, |version| {
        loaded(version, 4, &STAR).then(Kind::Add, 1, 2)
    }),
    ("settled scores go both ways at an add", &[2 * UNIT / 3, UNIT, 0, UNIT, 0], 0xF8, |version| {
        listed(version, 5, &WHEEL).then(Kind::Add, 1, 3)
    }),
    ("a common neighbour takes its ceiling at a remove, a small figure too", &[UNIT, UNIT, 0, 0], 0xF0, |version| {
        settled(version, 4, &ALL_OF_4, 1).then(Kind::Remove, 2, 3)
    }),
    ("a common neighbour takes its ceiling at a remove, a large figure too", &[UNIT, UNIT, 0, 0], 0xF0, |version| {
        settled(version, 4, &ALL_OF_4, LARGE).then(Kind::Remove, 3, 2)
    }),
    ("the ends of a remove take ceilings that count unlinked pairs", &[UNIT, 0, UNIT, 0, LARGE], 0xF0, |version| {
        settled(version, 5, &ALL_OF_4, LARGE).then(Kind::Remove, 1, 3)
    }),
    (
        "a reconcile's steps use the graph at each step, a small figure kept",
        &[0, 0, 3 * UNIT, 3 * UNIT, 1, 1],
        0xF8,
        |version| exchanged(settled(version, 6, &CROSSED, 1)),
    ),
    (
        "a reconcile's steps use the graph at each step, a large figure lowered",
        &[0, 0, 3 * UNIT, 3 * UNIT, 2 * UNIT, LARGE],
        0xF8,
        |version| exchanged(settled(version, 6, &CROSSED, LARGE)),
    ),
    (
        "the steps of a reconcile with pins do, a small figure kept",
        &[0, 0, 3 * UNIT, 3 * UNIT, 1, 1],
        0xF8,
        |version| exchanged_with_pins(settled(version, 6, &CROSSED, 1)),
    ),
    (
        "the steps of a reconcile with pins do, a large figure lowered",
        &[0, 0, 3 * UNIT, 3 * UNIT, 2 * UNIT, LARGE],
        0xF8,
        |version| exchanged_with_pins(settled(version, 6, &CROSSED, LARGE)),
    ),
    ("01's listing works out 2 posts", &[3 * UNIT, 0, 0, 0], 0x30, |version| {
        let mut board = Board::new(version, 4);
        for (a, b) in STAR {
            board = board.then(Kind::Add, a, b);
        }
        board.lent.entries = vec![0; 4];
        board.then(Kind::List, 0, 0)
    }),
];
