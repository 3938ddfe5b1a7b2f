//! The boards on which each call does its whole work.

use crate::bench::board::Board;
use crate::bench::cases::{merged, pinned};
use crate::bench::{schedules, searches, surveys};
use crate::calls::Entry;
use crate::plain::graph::Graph;
use crate::rng::Rng;
use crate::tuned::BY_ROWS;

/// The records of a schedule and of a survey.
const RECORDS: usize = 300;

/// Boards by what is asked of them; all are loaded, and their nodes open.
pub struct Boards {
    /// For the calls that take the whole board, or a node of it.
    pub whole: Vec<Board>,
    /// For the edits that remove a pair, that of the most common neighbours among them.
    pub joined: Vec<Board>,
    /// For the edits that add it.
    pub absent: Vec<Board>,
    pub merged: Vec<Board>,
    pub pinned: Vec<Board>,
    /// With a schedule, read at a minute.
    pub timed: Vec<Board>,
    /// With a survey, read at a threshold and asked about a pair.
    pub surveyed: Vec<Board>,
    /// For searches: the nearest listed node is near, far, or not reached.
    pub searched: Vec<Board>,
    /// For lists of one node and of all.
    pub listed: Vec<Board>,
}

impl Boards {
    /// The boards that one board of eight edges or more gives.
    pub fn of(rng: &mut Rng, board: &Board) -> Boards {
        let mut pairs = board.pairs(true);
        rng.shuffle(&mut pairs);
        let mut lent = |lend: fn(&mut Rng, &mut Board, &[(usize, usize)], usize)| {
            let mut lent = board.clone();
            lend(rng, &mut lent, &pairs, RECORDS);
            lent
        };
        let timed = schedules::ROWS.map(|(_, lend, _)| lent(lend)).to_vec();
        let surveyed = surveys::ROWS.map(|(_, lend, _)| lent(lend)).to_vec();
        let merged = merged(board, &pairs);
        let joined = joined(board, &pairs);
        let n = board.n;
        Boards {
            whole: [0, n / 2, n - 1].map(|a| Board { a: a as u64, ..board.clone() }).to_vec(),
            absent: joined.iter().map(without).collect(),
            joined,
            pinned: vec![pinned(&merged, &pairs)],
            merged: vec![merged],
            timed,
            surveyed,
            searched: searches::boards(rng, board).concat(),
            listed: [1, n].map(|k| listed(board, k)).to_vec(),
        }
    }
}

/// The board with two of its pairs to remove: any, and the one of the most common neighbours.
fn joined(board: &Board, pairs: &[(usize, usize)]) -> Vec<Board> {
    let graph = Graph::read(board.n, &board.edges);
    let most = pairs.iter().max_by_key(|&&(a, b)| graph.common(a, b).len()).expect("a board with edges");
    [pairs[0], *most].map(|(a, b)| Board { a: a as u64, b: b as u64, ..board.clone() }).to_vec()
}

/// The board without its pair.
fn without(board: &Board) -> Board {
    let mut without = board.clone();
    without.remove(&BY_ROWS);
    without
}

/// The board with k entries in both forms.
fn listed(board: &Board, k: usize) -> Board {
    Board { entries: vec![0; 2 * k], records: vec![Entry::default(); k], ..board.clone() }
}
