//! The refusals of write, each cause by itself and beside the causes that are tested later.

use super::{all_links, board, spokes, Answer, Board, Refused};
use crate::calls::Calls;
use crate::memory::{Kind, Memory};

/// What a write answers over other bytes, on a falsified board.
fn answer(mut board: Board) -> Answer {
    board.falsify();
    board.lent.snapshot.fill(0xA5);
    let before = board.lent.clone();
    (board.call(Kind::Write, 0, 0), board.lent == before)
}

/// The answer on a board of which something that is lent is altered.
fn altered(mut board: Board, alter: impl FnOnce(&mut Memory)) -> Answer {
    alter(&mut board.lent);
    answer(board)
}

/// The answers on altered boards of several sizes.
fn each_altered(version: &dyn Calls, alter: impl Fn(&mut Memory)) -> Vec<Answer> {
    [2, 4, 16, 42, 256].iter().map(|&n| altered(Board::new(version, n), &alter)).collect()
}

/// The answer for a sheet of this length on a board of n posts.
fn sheet_of(version: &dyn Calls, n: usize, length: usize) -> Answer {
    altered(Board::new(version, n), |lent| lent.snapshot.resize(length, 0))
}

/// The answer for this count of figures on a board of n posts.
fn figures_of(version: &dyn Calls, n: usize, count: usize) -> Answer {
    altered(Board::new(version, n), |lent| lent.figures.resize(8 * count, 0))
}

/// The buffers whose length refusal 2 tests.
const BUFFERS: [fn(&mut Memory) -> &mut Vec<u8>; 3] =
    [|lent| &mut lent.edges, |lent| &mut lent.marks, |lent| &mut lent.snapshot];

/// Ways to another length of a buffer that is not empty.
const RESIZES: [fn(&mut Vec<u8>); 3] = [Vec::clear, |bytes| bytes.truncate(bytes.len() - 1), |bytes| bytes.push(0)];

/// A board of 42 posts where p is linked to all others: p has 41 links.
fn crowded(version: &dyn Calls, p: usize) -> Board<'_> {
    board(version, 42, &spokes(p, (0..42).filter(|&q| q != p)))
}

/// A board of 257 posts where post 0 has 41 links.
fn crowded_257(version: &dyn Calls) -> Board<'_> {
    board(version, 257, &spokes(0, 1..=41))
}

pub const CASES: [Refused; 19] = [
    ("no figures are refusal 1", 1, |version| {
        let alone = |snapshot| Memory { snapshot, ..Memory::default() };
        [vec![], vec![0]].map(|sheet| altered(Board::new(version, 1), |lent| *lent = alone(sheet))).to_vec()
    }),
    ("no figures are refusal 1, before 2", 1, |version| each_altered(version, |lent| lent.figures.clear())),
    ("257 figures are refusal 1", 1, |version| vec![answer(Board::new(version, 257))]),
    ("260 and 65,540 figures beside the buffers of four posts are refusal 1", 1, |version| {
        [260, 65_540].map(|count| figures_of(version, 4, count)).to_vec()
    }),
    ("257 figures and a crowded post are refusal 1, before 11", 1, |version| vec![answer(crowded_257(version))]),
    ("257 figures, a crowded post and every other length wrong are refusal 1, before 2 and 11", 1, |version| {
        let all = |lent: &mut Memory, resize: fn(&mut Vec<u8>)| BUFFERS.iter().for_each(|buffer| resize(buffer(lent)));
        RESIZES.map(|resize| altered(crowded_257(version), |lent| all(lent, resize))).to_vec()
    }),
    ("a sheet one byte too short, of the links' length, is refusal 2", 2, |version| {
        each_altered(version, |lent| lent.snapshot.truncate(lent.edges.len()))
    }),
    ("a sheet one byte too long is refusal 2", 2, |version| each_altered(version, |lent| lent.snapshot.push(0))),
    ("an empty sheet is refusal 2", 2, |version| each_altered(version, |lent| lent.snapshot.clear())),
    ("a sheet of the length of 15 or 17 posts is refusal 2 for 16", 2, |version| {
        [15, 18].map(|length| sheet_of(version, 16, length)).to_vec()
    }),
    ("a sheet of another length than one byte is refusal 2 for one post", 2, |version| {
        [0, 2, 3].map(|length| sheet_of(version, 1, length)).to_vec()
    }),
    ("links of another length are refusal 2", 2, |version| {
        RESIZES.iter().flat_map(|resize| each_altered(version, |lent| resize(&mut lent.edges))).collect()
    }),
    ("links of another length are refusal 2, beside a sheet that is a byte longer than they are", 2, |version| {
        let both = |lent: &mut Memory, resize: fn(&mut Vec<u8>)| {
            resize(&mut lent.edges);
            lent.snapshot.resize(1 + lent.edges.len(), 0);
        };
        RESIZES.iter().flat_map(|&resize| each_altered(version, |lent| both(lent, resize))).collect()
    }),
    ("marks of another length are refusal 2", 2, |version| {
        RESIZES.iter().flat_map(|resize| each_altered(version, |lent| resize(&mut lent.marks))).collect()
    }),
    ("another count of figures is refusal 2", 2, |version| {
        [1, 41, 43, 256].map(|count| figures_of(version, 42, count)).to_vec()
    }),
    ("a crowded post beside another length is refusal 2, before 11", 2, |version| {
        let each = |resize: fn(&mut Vec<u8>)| BUFFERS.map(|of| altered(crowded(version, 0), |lent| resize(of(lent))));
        RESIZES.map(each).concat()
    }),
    ("a post with 41 links is refusal 11", 11, |version| [0, 20, 41].map(|p| answer(crowded(version, p))).to_vec()),
    ("a post of 256 with 41 links is refusal 11", 11, |version| {
        let fans = [spokes(0, 1..=41), spokes(0, 215..=255), spokes(255, 0..=40), spokes(255, 214..=254)];
        fans.map(|fan| answer(board(version, 256, &fan))).to_vec()
    }),
    ("all links of 42 and of 256 posts are refusal 11", 11, |version| {
        [42, 256].map(|n| answer(board(version, n, &all_links(n)))).to_vec()
    }),
];
