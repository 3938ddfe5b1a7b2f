//! Lists from a scratch of n bits, rounded up to bytes: whatever it holds and however long it is, the entries, figures,
//! marks and count are those due, its bytes that n requires end as 0, and later ones stay.

use super::shapes::ring;
use super::{board, set_spare, spokes, Answer, Board, Refused};
use crate::calls::Calls;
use crate::memory::Kind::{self, List, ListEntries};
use crate::memory::Memory;
use crate::plain::limits::UNIT;
use crate::plain::packing::put_bit;

const BOTH: [Kind; 2] = [List, ListEntries];

/// Numbers of posts, each with the bytes of its scratch.
#[rustfmt::skip]
const LENGTHS: [(usize, usize); 12] = [
    (1, 1), (7, 1), (8, 1), (9, 2), (15, 2), (16, 2), (17, 3), (24, 3), (33, 5), (241, 31), (255, 32), (256, 32),
];

/// Of these, those from a number of posts on.
fn lengths_from(fewest: usize) -> impl Iterator<Item = (usize, usize)> {
    LENGTHS.into_iter().filter(move |&(n, _)| n >= fewest)
}

/// The links, the figures and the open posts of a slate.
type Slate = (Vec<(usize, usize)>, Vec<u64>, Vec<usize>);

/// The count, the entries, the figures and the open posts after a list.
type Due = (usize, Vec<(usize, u64)>, Vec<u64>, Vec<usize>);

/// A case's name, the fewest posts, k, the slate of n posts, and what is due on it.
type Case = (&'static str, usize, fn(usize) -> usize, fn(usize) -> Slate, fn(usize) -> Due);

fn none() -> Vec<usize> {
    vec![]
}

fn all(n: usize) -> Vec<usize> {
    (0..n).collect()
}

/// This figure for each post but the last.
fn but_last(n: usize, figure: u64, last: u64) -> Vec<u64> {
    [vec![figure; n - 1], vec![last]].concat()
}

/// These posts, each with this figure.
fn each(posts: impl Iterator<Item = usize>, figure: u64) -> Vec<(usize, u64)> {
    posts.map(|p| (p, figure)).collect()
}

/// The others to which the middle of a star has its links: all of them, but 40 at most.
fn leaves(n: usize) -> usize {
    (n - 1).min(40)
}

/// A star about the last post.
fn star(n: usize) -> Vec<(usize, usize)> {
    spokes(n - 1, 0..leaves(n))
}

/// The score of the middle of a star.
fn middle(n: usize) -> u64 {
    let d = leaves(n) as u64;
    d * (d - 1) / 2 * UNIT
}

/// No links, figures of 5, and the even posts open.
fn even_open(n: usize) -> Slate {
    (vec![], vec![5; n], (0..n).step_by(2).collect())
}

const CASES: [Case; 16] = [
    ("all settled at 0", 1, |_| 1, |n| (vec![], vec![0; n], none()), |n| (0, vec![(0, 0)], vec![0; n], none())),
    (
        "k = n, all settled at the largest figure",
        1,
        |n| n,
        |n| (vec![], vec![u64::MAX; n], none()),
        |n| (0, each(0..n, u64::MAX), vec![u64::MAX; n], none()),
    ),
    (
        "k = n, all open at the largest figure, which is false",
        1,
        |n| n,
        |n| (vec![], vec![u64::MAX; n], all(n)),
        |n| (n, each(0..n, 0), vec![0; n], none()),
    ),
    (
        "k = n, a ring whose figures are equal and open",
        7,
        |n| n,
        |n| (ring(n), vec![UNIT; n], all(n)),
        |n| (n, each(0..n, UNIT), vec![UNIT; n], none()),
    ),
    (
        "k = 5, a ring whose figures are equal and open",
        7,
        |_| 5,
        |n| (ring(n), vec![UNIT; n], all(n)),
        |n| (5, each(0..5, UNIT), vec![UNIT; n], (5..n).collect()),
    ),
    (
        "k = 1, a star about the last post",
        7,
        |_| 1,
        |n| (star(n), but_last(n, 0, middle(n)), all(n)),
        |n| (1, vec![(n - 1, middle(n))], but_last(n, 0, middle(n)), all(n - 1)),
    ),
    (
        "k = 2, a star about the last post",
        7,
        |_| 2,
        |n| (star(n), but_last(n, 0, middle(n)), all(n)),
        |n| (2, vec![(n - 1, middle(n)), (0, 0)], but_last(n, 0, middle(n)), (1..n - 1).collect()),
    ),
    (
        "k = n, settled figures that rise with the numbers",
        1,
        |n| n,
        |n| (vec![], (0..n as u64).collect(), none()),
        |n| (0, (0..n).rev().map(|p| (p, p as u64)).collect(), (0..n as u64).collect(), none()),
    ),
    (
        "k = 1, false figures that rise with the numbers",
        1,
        |_| 1,
        |n| (vec![], (0..n as u64).collect(), all(n)),
        |n| (n, vec![(0, 0)], vec![0; n], none()),
    ),
    (
        "k = 3, the last post before equal ones",
        7,
        |_| 3,
        |n| (vec![], but_last(n, 5, 6), none()),
        |n| (0, vec![(n - 1, 6), (0, 5), (1, 5)], but_last(n, 5, 6), none()),
    ),
    (
        "k = n, the last post alone open, and last by its score",
        7,
        |n| n,
        |n| (vec![], but_last(n, 1, u64::MAX), vec![n - 1]),
        |n| (1, [each(0..n - 1, 1), vec![(n - 1, 0)]].concat(), but_last(n, 1, 0), none()),
    ),
    (
        "k = n, a star about the last post with false figures of 0",
        7,
        |n| n,
        |n| (star(n), vec![0; n], all(n)),
        |n| (n, [vec![(n - 1, middle(n))], each(0..n - 1, 0)].concat(), but_last(n, 0, middle(n)), none()),
    ),
    (
        "k = 1, a star about the last post with false figures of 0: post 0 stops the list",
        7,
        |_| 1,
        |n| (star(n), vec![0; n], all(n)),
        |n| (1, vec![(0, 0)], vec![0; n], (1..n).collect()),
    ),
    (
        "k = 1, a star about post 0 with false figures of 0",
        7,
        |_| 1,
        |n| (spokes(0, 1..=leaves(n)), vec![0; n], all(n)),
        |n| (1, vec![(0, middle(n))], [vec![middle(n)], vec![0; n - 1]].concat(), (1..n).collect()),
    ),
    (
        "k = 2, equal figures of which those of even posts are false",
        7,
        |_| 2,
        even_open,
        |n| {
            let figures = (0..n).map(|p| if p == 0 || p == 2 { 0 } else { 5 }).collect();
            (2, vec![(1, 5), (3, 5)], figures, (4..n).step_by(2).collect())
        },
    ),
    (
        "k = n, equal figures of which those of even posts are false",
        7,
        |n| n,
        even_open,
        |n| {
            let entries = [each((1..n).step_by(2), 5), each((0..n).step_by(2), 0)].concat();
            (n.div_ceil(2), entries, (0..n).map(|p| if p % 2 == 0 { 0 } else { 5 }).collect(), none())
        },
    ),
];

/// The slate comes to have these figures and these open posts; the spare bits of its marks are 1.
fn put(lent: &mut Memory, n: usize, figures: &[u64], open: &[usize]) {
    lent.figures = figures.iter().flat_map(|figure| figure.to_le_bytes()).collect();
    lent.marks.fill(0);
    open.iter().for_each(|&p| put_bit(&mut lent.marks, p, true));
    set_spare(&mut lent.marks, n);
}

/// Lists on a board over a scratch; an error where anything but what is due comes of it.
fn check(board: &Board, kind: Kind, k: usize, (length, scratch): (usize, Vec<u8>), due: &Due) -> Result<(), String> {
    let (worked, entries, figures, open) = due;
    let lent = Memory { entries: vec![7; 2 * k], scratch, ..board.lent.clone() };
    let mut after = lent.clone();
    put(&mut after, board.n, figures, open);
    after.entries = entries.iter().flat_map(|&(p, figure)| [p as u64, figure]).collect();
    after.scratch[..length].fill(0);
    let mut board = Board { lent, ..*board };
    let answer = board.answer(kind, 0, 0);
    let what = if answer != *worked as u64 {
        format!("the answer: {answer}, due {worked}")
    } else if let Some(place) = board.lent.difference(&after) {
        place
    } else {
        return Ok(());
    };
    Err(format!("{kind:?}, n = {}: {what}", board.n))
}

/// Scratches of n posts: of the length that n requires, a little longer, and a byte for each post; of zeros, of ones, and
/// of others.
fn scratches(n: usize, length: usize) -> Vec<Vec<u8>> {
    let of = |length: usize| [0, 255, 0xA5].map(|byte| vec![byte; length]);
    [of(length), of(length + 1), of(length + 9), of(n)].concat()
}

/// Runs every case on a version and prints its name.
pub fn run(version: &dyn Calls) -> Result<(), String> {
    for (name, fewest, k, slate, due) in CASES {
        for (n, length) in lengths_from(fewest) {
            let (links, figures, open) = slate(n);
            let mut board = board(version, n, &links);
            put(&mut board.lent, n, &figures, &open);
            for scratch in scratches(n, length) {
                for kind in BOTH {
                    check(&board, kind, k(n), (length, scratch.clone()), &due(n))
                        .map_err(|what| format!("case `{name}` on {}: {what}", version.name()))?;
                }
            }
        }
        println!("case on {}: scratch: {name}: ok", version.name());
    }
    Ok(())
}

/// What both lists answer on a falsified board over a scratch of this length.
fn answers(mut board: Board, length: usize) -> Vec<Answer> {
    board.falsify();
    board.lent.scratch = vec![0xA5; length];
    let before = board.lent.clone();
    BOTH.map(|kind| (board.call(kind, 0, 0), board.lent == before)).to_vec()
}

/// The answers over a scratch that is a byte too short, on boards of each number of posts that are altered.
fn short(version: &dyn Calls, fewest: usize, alter: fn(&mut Memory, usize)) -> Vec<Answer> {
    let altered = |(n, length): (usize, usize)| {
        let mut board = Board::new(version, n);
        alter(&mut board.lent, n);
        answers(board, length - 1)
    };
    lengths_from(fewest).flat_map(altered).collect()
}

/// The answers on a board of 43 posts of which the last has 42 links, of k entries.
fn crowded(version: &dyn Calls, k: usize, length: usize) -> Vec<Answer> {
    let mut board = board(version, 43, &spokes(42, 0..42));
    board.lent.entries = vec![7; 2 * k];
    answers(board, length)
}

pub const REFUSED: [Refused; 13] = [
    ("no figures and 257 are refusal 1, before 3", 1, |version| {
        let none = |lent: &mut Memory, _| lent.figures.clear();
        [short(version, 1, none), answers(Board::new(version, 257), 0), answers(Board::new(version, 257), 32)].concat()
    }),
    ("marks of another length are refusal 2, before 3", 2, |version| {
        [short(version, 1, |lent, _| lent.marks.clear()), short(version, 1, |lent, _| lent.marks.push(0))].concat()
    }),
    ("links of another length are refusal 2, before 3", 2, |version| {
        [short(version, 7, |lent, _| lent.edges.clear()), short(version, 1, |lent, _| lent.edges.push(0))].concat()
    }),
    ("a byte less is refusal 3", 3, |version| short(version, 1, |_, _| ())),
    ("no scratch is refusal 3", 3, |version| {
        LENGTHS.iter().flat_map(|&(n, _)| answers(Board::new(version, n), 0)).collect()
    }),
    ("a byte less is refusal 3 where k = n", 3, |version| short(version, 1, |lent, n| lent.entries = vec![7; 2 * n])),
    ("a byte less and k = 0 is refusal 3, before 8", 3, |version| short(version, 1, |lent, _| lent.entries.clear())),
    ("a byte less and k = n + 1 is refusal 3, before 8", 3, |version| {
        short(version, 1, |lent, n| lent.entries = vec![7; 2 * n + 2])
    }),
    ("a byte less and a crowded post is refusal 3, before 11", 3, |version| crowded(version, 1, 5)),
    ("a byte less, k = 0 and a crowded post is refusal 3, before 8 and 11", 3, |version| crowded(version, 0, 5)),
    ("k = 0 and a crowded post is refusal 8 from the scratch's length on", 8, |version| {
        [6, 7, 43].map(|length| crowded(version, 0, length)).concat()
    }),
    ("k = n + 1 is refusal 8 from the scratch's length on", 8, |version| {
        let answers_of = |&(n, length): &(usize, usize)| {
            let mut board = Board::new(version, n);
            board.lent.entries = vec![7; 2 * n + 2];
            answers(board, length)
        };
        LENGTHS.iter().flat_map(answers_of).collect()
    }),
    ("a crowded post is refusal 11 from the scratch's length on", 11, |version| {
        [6, 7, 43].map(|length| crowded(version, 43, length)).concat()
    }),
];
