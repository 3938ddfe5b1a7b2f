//! The refusals of previews, each cause by itself and beside the causes that are tested later.

use super::{board, spokes, Answer, Board, Refused};
use crate::calls::Calls;
use crate::memory::Kind::{self, PreviewAdd, PreviewRemove};

/// The posts of a board.
const N: usize = 50;
const BOTH: [Kind; 2] = [PreviewAdd, PreviewRemove];
/// The link of posts 0 and 1.
const LINK: [(usize, usize); 1] = [(0, 1)];

/// Post p linked to the posts from `first` to the last: 41 links from 9, 40 from 10.
fn fan(p: usize, first: usize) -> Vec<(usize, usize)> {
    spokes(p, first..N)
}

/// Post 2 linked to 0 and 1 and to 39 more: a crowded common neighbour of 0 and 1.
fn crowded_between() -> Vec<(usize, usize)> {
    [vec![(0, 2), (1, 2)], fan(2, 11)].concat()
}

/// The answers of a preview of these posts, in both orders.
fn answers(board: &mut Board, kind: Kind, a: usize, b: usize) -> Vec<Answer> {
    board.lent.changes = (0..board.lent.changes.len() as i64).map(|p| i64::MAX - p).collect();
    let before = board.lent.clone();
    [(a, b), (b, a)].map(|(a, b)| (board.call(kind, a, b), board.lent == before)).to_vec()
}

/// The answers of one preview of posts 0 and 1 where these are the links.
fn on(version: &dyn Calls, kind: Kind, pairs: &[(usize, usize)]) -> Vec<Answer> {
    answers(&mut board(version, N, pairs), kind, 0, 1)
}

/// The answers of both previews of these posts on a board with these links.
fn both(version: &dyn Calls, pairs: &[(usize, usize)], a: usize, b: usize) -> Vec<Answer> {
    BOTH.iter().flat_map(|&kind| answers(&mut board(version, N, pairs), kind, a, b)).collect()
}

/// The answers of both previews where something that is lent has another length, with posts of the board and with posts
/// that it does not have.
fn resized(version: &dyn Calls, resize: &dyn Fn(&mut Board)) -> Vec<Answer> {
    let mut board = Board::new(version, N);
    resize(&mut board);
    BOTH.iter().flat_map(|&kind| [answers(&mut board, kind, 0, 1), answers(&mut board, kind, N, N)].concat()).collect()
}

pub const CASES: [Refused; 24] = [
    ("no figures are refusal 1, before 2 and 4", 1, |version| resized(version, &|board| board.lent.figures.clear())),
    ("257 figures are refusal 1, before 2 and 4", 1, |version| {
        resized(version, &|board| board.lent.figures = vec![0; 8 * 257])
    }),
    ("links of another length are refusal 2, before 4", 2, |version| {
        let right = Board::new(version, N).lent.edges.len();
        let lengths = [0, right - 1, right + 1];
        lengths.iter().flat_map(|&l| resized(version, &|board| board.lent.edges.resize(l, 0))).collect()
    }),
    ("marks of another length are refusal 2, before 4", 2, |version| {
        let right = Board::new(version, N).lent.marks.len();
        let lengths = [0, right - 1, right + 1];
        lengths.iter().flat_map(|&l| resized(version, &|board| board.lent.marks.resize(l, 0))).collect()
    }),
    ("another count of changes than n is refusal 2, before 4", 2, |version| {
        let counts = [0, 1, N - 1, N + 1, 2 * N, 256];
        counts.iter().flat_map(|&c| resized(version, &|board| board.lent.changes.resize(c, 0))).collect()
    }),
    ("another count of figures is refusal 2, before 4", 2, |version| {
        let counts = [1, N - 1, N + 1, 256];
        counts.iter().flat_map(|&c| resized(version, &|board| board.lent.figures.resize(8 * c, 0))).collect()
    }),
    ("a post of n or more is refusal 4", 4, |version| {
        let posts = [N, N + 1, 256, 1 << 63, usize::MAX];
        posts.iter().flat_map(|&far| both(version, &LINK, 0, far)).collect()
    }),
    ("n and n is refusal 4, before 5", 4, |version| both(version, &LINK, N, N)),
    ("a crowded post and n is refusal 4, before 11", 4, |version| both(version, &fan(0, 9), 0, N)),
    ("equal posts are refusal 5, before 7", 5, |version| both(version, &LINK, 0, 0)),
    ("equal posts of which both are crowded are refusal 5, before 11", 5, |version| both(version, &fan(0, 9), 0, 0)),
    ("equal posts with 40 links are refusal 5, before 12", 5, |version| both(version, &fan(0, 10), 0, 0)),
    ("an add of a link that exists is refusal 6", 6, |version| on(version, PreviewAdd, &LINK)),
    ("an add of a link that exists at a crowded end is refusal 6, before 11", 6, |version| {
        on(version, PreviewAdd, &[LINK.to_vec(), fan(0, 9)].concat())
    }),
    ("an add of a link that exists at a crowded common neighbour is refusal 6, before 11", 6, |version| {
        on(version, PreviewAdd, &[LINK.to_vec(), crowded_between()].concat())
    }),
    ("an add of a link that exists at an end with 40 is refusal 6, before 12", 6, |version| {
        on(version, PreviewAdd, &[LINK.to_vec(), fan(0, 11)].concat())
    }),
    ("a remove of a link that does not exist is refusal 7", 7, |version| on(version, PreviewRemove, &[])),
    ("a remove of a link that does not exist at a crowded end is refusal 7, before 11", 7, |version| {
        on(version, PreviewRemove, &fan(0, 9))
    }),
    ("a remove of a link that does not exist at a crowded common neighbour is refusal 7, before 11", 7, |version| {
        on(version, PreviewRemove, &crowded_between())
    }),
    ("a crowded end is refusal 11", 11, |version| {
        let with_link = [LINK.to_vec(), fan(0, 10)].concat();
        [on(version, PreviewAdd, &fan(0, 9)), on(version, PreviewRemove, &with_link)].concat()
    }),
    ("a crowded common neighbour is refusal 11", 11, |version| {
        let with_link = [LINK.to_vec(), crowded_between()].concat();
        [on(version, PreviewAdd, &crowded_between()), on(version, PreviewRemove, &with_link)].concat()
    }),
    ("a crowded end beside an end with 40 links is refusal 11, before 12", 11, |version| {
        on(version, PreviewAdd, &[fan(0, 10), fan(1, 9)].concat())
    }),
    ("a crowded common neighbour beside an end with 40 links is refusal 11, before 12", 11, |version| {
        on(version, PreviewAdd, &[crowded_between(), fan(0, 11)].concat())
    }),
    ("the 41st link of an end is refusal 12", 12, |version| on(version, PreviewAdd, &fan(0, 10))),
];
