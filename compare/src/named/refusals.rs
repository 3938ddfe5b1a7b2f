//! The refusal numbers of the description's cases.

use super::{board, links, spokes, Board};
use crate::calls::Calls;
use crate::memory::{Kind, KINDS};

/// Links of post 0 to each of the others, on a board of 42 posts.
fn star(others: impl Iterator<Item = usize>) -> Vec<u8> {
    links(42, &spokes(0, others))
}

/// A board of 42 posts whose post 0 has its 40 links.
fn full(version: &dyn Calls) -> Board<'_> {
    board(version, 42, &spokes(0, 1..=40))
}

/// The refusals of calls on a board of n posts. The link that is added is there to be removed, and neither preview
/// alters it.
fn each_call(version: &dyn Calls, n: usize, kinds: impl Iterator<Item = Kind>) -> Vec<u64> {
    let mut board = Board::new(version, n);
    kinds.map(|kind| board.call(kind, 0, 255)).collect()
}

/// The refusals of both lists on boards of several sizes, of as many entries as `k` gives for n posts.
fn lists_of(version: &dyn Calls, k: fn(usize) -> usize) -> Vec<u64> {
    [1, 4, 256].iter().flat_map(|&n| Board::new(version, n).lists(k(n))).collect()
}

/// A case's name, the number that is due, and what the calls answer on a version.
pub type Case = (&'static str, u64, fn(&dyn Calls) -> Vec<u64>);

pub const CASES: [Case; 17] = [
    ("40 links are accepted by add", 0, |version| {
        let mut board = Board::new(version, 42);
        (1..=40).map(|q| board.call(Kind::Add, 0, q)).collect()
    }),
    ("the 41st link is refusal 12 of add", 12, |version| {
        let mut board = full(version);
        vec![board.call(Kind::Add, 0, 41), board.call(Kind::Add, 41, 0)]
    }),
    ("40 links are accepted by load", 0, |version| vec![Board::new(version, 42).load(&star(1..=40))]),
    ("the 41st link is refusal 12 of load", 12, |version| vec![Board::new(version, 42).load(&star(1..=41))]),
    ("40 links are accepted by reconcile", 0, |version| {
        vec![Board::new(version, 42).reconcile(star(1..=40)), full(version).reconcile(star(1..=1))]
    }),
    ("the 41st link is refusal 12 of reconcile", 12, |version| {
        vec![Board::new(version, 42).reconcile(star(1..=41)), full(version).reconcile(star(41..=41))]
    }),
    ("n = 256 is accepted by every call", 0, |version| each_call(version, 256, KINDS.into_iter())),
    ("257 figures are refusal 1 of every call of a slate", 1, |version| {
        each_call(version, 257, KINDS.into_iter().filter(|kind| kind.has_state()))
    }),
    ("k = n is accepted by both lists", 0, |version| lists_of(version, |n| n)),
    ("k = n + 1 is refusal 8 of both lists", 8, |version| lists_of(version, |n| n + 1)),
    ("k = 0 is refusal 8 of both lists", 8, |version| lists_of(version, |_| 0)),
    ("k = 1,000 is refusal 8 of both lists", 8, |version| lists_of(version, |_| 1_000)),
    ("0 and 0 is refusal 5 of add and remove", 5, |version| {
        let mut board = Board::new(version, 4);
        vec![board.call(Kind::Add, 0, 0), board.call(Kind::Remove, 0, 0)]
    }),
    ("a link added twice is refusal 6", 6, |version| {
        let mut board = Board::new(version, 4);
        board.call(Kind::Add, 0, 1);
        vec![board.call(Kind::Add, 0, 1), board.call(Kind::Add, 1, 0)]
    }),
    ("0 and n on a board of n posts is refusal 4 of add", 4, |version| {
        let mut board = Board::new(version, 4);
        vec![board.call(Kind::Add, 0, 4), board.call(Kind::Add, 4, 0)]
    }),
    ("0 and n on a board of n posts is refusal 4 of remove", 4, |version| {
        let mut board = Board::new(version, 4);
        vec![board.call(Kind::Remove, 0, 4), board.call(Kind::Remove, 4, 0)]
    }),
    ("post n of a board of n posts is refusal 4 of score", 4, |version| {
        vec![Board::new(version, 4).call(Kind::Score, 4, 0)]
    }),
];
