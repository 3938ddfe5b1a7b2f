//! The nearest listed post: the one that is reached over the fewest links, within the limit, and its hop count.

use super::nearest_boards;
use super::shapes::{grid, path, ring, Pairs};
use super::{all_links, board, spokes, Board};
use crate::calls::Calls;
use crate::memory::Kind;

/// The answer where no path within the limit reaches a listed post.
pub const NONE: u64 = 1 << 32;

/// The answer for this hop count and this post.
pub const fn at(hops: u64, post: u64) -> u64 {
    65_536 * hops + post
}

/// The post from which a search goes, the listed posts, the limit, and the answer that is due.
pub type Search = (usize, &'static [u64], u8, u64);

/// A case's name, the posts, their links, and the searches.
pub type Case = (&'static str, usize, fn() -> Pairs, &'static [Search]);

const CASES: [Case; 24] = [
    (
        "the answer is 65,536 for each hop and the post's number",
        4,
        || path(4),
        &[(0, &[3], 3, 196_611), (3, &[0], 3, 196_608), (0, &[1], 1, 65_537), (1, &[0], 1, 65_536), (2, &[2], 0, 2)],
    ),
    (
        "a post that is itself listed is 0 hops away",
        4,
        || path(4),
        &[(2, &[2], 0, 2), (2, &[2], 1, 2), (2, &[2], 255, 2), (0, &[0], 0, 0), (3, &[3], 9, 3)],
    ),
    (
        "a post that is itself listed comes before lower ones",
        4,
        || path(4),
        &[(3, &[2, 3], 5, 3), (3, &[0, 1, 2, 3], 255, 3), (1, &[0, 1], 0, 1), (3, &[0, 3], 3, 3)],
    ),
    (
        "an empty list gives none",
        4,
        || path(4),
        &[(0, &[], 0, NONE), (0, &[], 1, NONE), (1, &[], 255, NONE), (3, &[], 255, NONE)],
    ),
    (
        "a limit of 0 reaches the post itself and no other",
        4,
        || all_links(4),
        &[(0, &[1], 0, NONE), (0, &[1, 2, 3], 0, NONE), (3, &[0, 1, 2], 0, NONE), (3, &[0, 3], 0, 3)],
    ),
    (
        "a tie goes to the lower number",
        6,
        || spokes(0, 1..=5),
        &[(0, &[5, 2, 4], 1, at(1, 2)), (0, &[4, 5], 255, at(1, 4)), (3, &[5, 4, 2, 1], 2, at(2, 1))],
    ),
    (
        "a tie goes to the lower number, whatever the posts on the way",
        6,
        || vec![(0, 4), (0, 5), (4, 2), (5, 1)],
        &[(0, &[1, 2], 2, at(2, 1)), (0, &[2, 1], 255, at(2, 1)), (0, &[2, 5], 2, at(1, 5)), (0, &[2, 4], 2, at(1, 4))],
    ),
    (
        "fewer links come before a lower number",
        5,
        || path(5),
        &[(3, &[0, 4], 255, at(1, 4)), (2, &[0, 3], 255, at(1, 3)), (1, &[0, 2, 3], 255, at(1, 0))],
    ),
    (
        "of lower numbers that are farther none comes first",
        6,
        || path(6),
        &[(5, &[0, 1, 2, 3], 255, at(2, 3)), (4, &[0, 1, 5], 255, at(1, 5)), (4, &[0, 1, 2], 3, at(2, 2))],
    ),
    (
        "the way of the fewest links counts",
        5,
        || vec![(0, 1), (1, 2), (2, 3), (3, 4), (4, 0)],
        &[(0, &[4], 255, at(1, 4)), (0, &[4], 1, at(1, 4)), (0, &[3], 255, at(2, 3)), (0, &[3], 2, at(2, 3))],
    ),
    (
        "a way through higher numbers may be the shorter one",
        7,
        || vec![(0, 1), (1, 2), (2, 3), (0, 6), (6, 3)],
        &[(0, &[3], 255, at(2, 3)), (0, &[3], 1, NONE), (3, &[0], 2, at(2, 0)), (0, &[2, 3], 2, at(2, 2))],
    ),
    (
        "a post is found within exactly its hops, and not within one less",
        8,
        || path(8),
        &[
            (0, &[5], 5, at(5, 5)),
            (0, &[5], 4, NONE),
            (0, &[5], 6, at(5, 5)),
            (0, &[5], 255, at(5, 5)),
            (7, &[6], 1, at(1, 6)),
            (7, &[6], 0, NONE),
        ],
    ),
    (
        "posts beyond the limit do not matter",
        8,
        || path(8),
        &[(5, &[0, 7], 2, at(2, 7)), (5, &[0, 7], 1, NONE), (0, &[3, 6], 3, at(3, 3)), (0, &[3, 6], 2, NONE)],
    ),
    (
        "posts of another piece are not reached",
        6,
        || vec![(0, 1), (1, 2), (3, 4), (4, 5)],
        &[
            (0, &[3, 4, 5], 255, NONE),
            (4, &[0, 1, 2], 255, NONE),
            (0, &[5, 2], 255, at(2, 2)),
            (4, &[0, 1, 2, 5], 1, at(1, 5)),
        ],
    ),
    (
        "a post without links reaches only itself",
        5,
        || vec![(1, 2)],
        &[(0, &[1, 2, 3, 4], 255, NONE), (0, &[0, 1], 255, 0), (1, &[0, 3, 4], 255, NONE), (1, &[0, 2], 1, at(1, 2))],
    ),
    ("no links at all", 9, Vec::new, &[(4, &[0, 1, 2, 3, 5, 6, 7, 8], 255, NONE), (4, &[0, 4, 8], 255, 4)]),
    ("one post", 1, Vec::new, &[(0, &[0], 0, 0), (0, &[0], 255, 0), (0, &[], 0, NONE), (0, &[], 255, NONE)]),
    (
        "two posts that are linked",
        2,
        || vec![(0, 1)],
        &[(0, &[1], 1, at(1, 1)), (1, &[0], 255, at(1, 0)), (0, &[1], 0, NONE), (1, &[0, 1], 1, 1)],
    ),
    (
        "two posts that are not linked, whatever the spare bits",
        2,
        Vec::new,
        &[(0, &[1], 1, NONE), (1, &[0], 255, NONE), (1, &[0, 1], 255, 1)],
    ),
    (
        "a ring has two ways, which may tie",
        8,
        || ring(8),
        &[
            (0, &[3, 5], 3, at(3, 3)),
            (6, &[1, 3], 255, at(3, 1)),
            (0, &[4], 4, at(4, 4)),
            (0, &[4], 3, NONE),
            (4, &[1, 7, 0], 4, at(3, 1)),
            (1, &[6, 4], 3, at(3, 4)),
        ],
    ),
    (
        "a post that is listed many times, and a list of any order",
        6,
        || path(6),
        &[
            (0, &[3, 3, 3], 3, at(3, 3)),
            (0, &[4, 3, 5, 4, 3, 5], 3, at(3, 3)),
            (2, &[5, 0, 4, 0, 5], 2, at(2, 0)),
            (2, &[5, 2, 2, 0], 2, 2),
        ],
    ),
    (
        "every post is listed, or every other post",
        5,
        || path(5),
        &[(4, &[0, 1, 2, 3, 4], 255, 4), (2, &[0, 1, 3, 4], 255, at(1, 1)), (0, &[4, 3, 2, 1], 255, at(1, 1))],
    ),
    (
        "rows of four seats, from a corner and from the middle",
        16,
        || grid(16, 4),
        &[
            (0, &[15], 6, at(6, 15)),
            (0, &[15], 5, NONE),
            (0, &[3, 12], 3, at(3, 3)),
            (5, &[15, 12, 3, 0], 255, at(2, 0)),
            (10, &[0, 3, 12, 15], 255, at(2, 15)),
            (6, &[13, 8, 0], 255, at(3, 0)),
        ],
    ),
    (
        "a tail that leads out of a full board",
        9,
        || [all_links(5), vec![(4, 5), (5, 6), (6, 7), (7, 8)]].concat(),
        &[(0, &[8], 5, at(5, 8)), (0, &[8], 4, NONE), (8, &[0, 1, 2, 3], 255, at(5, 0)), (8, &[3, 4], 4, at(4, 4))],
    ),
];

/// A search with its list as it is, in reverse and twice over; an error where the answer is another or anything alters.
fn check(board: &mut Board, (post, list, limit, due): Search) -> Result<(), String> {
    board.hops = limit;
    let reverse = list.iter().rev().copied().collect();
    for list in [list.to_vec(), reverse, list.repeat(2)] {
        board.lent.listed = list;
        let before = board.lent.clone();
        let found = board.answer(Kind::Nearest, post, 0);
        if found != due {
            return Err(format!("from {post} within {limit} hops, listed {:?}: {found}, due {due}", before.listed));
        }
        board.lent.difference(&before).map_or(Ok(()), Err)?;
    }
    Ok(())
}

/// Runs every case on a version, without spare bits and with all of them, and prints its name.
pub fn run(version: &dyn Calls) -> Result<(), String> {
    for (name, n, links, searches) in CASES.into_iter().chain(nearest_boards::CASES) {
        let mut plain = board(version, n, &links());
        let mut falsified = board(version, n, &links());
        falsified.falsify();
        for &search in searches {
            for board in [&mut plain, &mut falsified] {
                check(board, search).map_err(|what| format!("case `{name}` on {}: {what}", version.name()))?;
            }
        }
        println!("case on {}: nearest: {name}: ok", version.name());
    }
    Ok(())
}
