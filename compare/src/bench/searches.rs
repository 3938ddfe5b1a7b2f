//! The boards on which a search for the nearest listed node is timed, and the table of searches by blocks.

use super::board::Board;
use super::time::{time, BATCH};
use super::{cases_of, print_line, LINKS, SIZES};
use crate::calls::Calls;
use crate::plain::graph::Graph;
use crate::plain::packing::{pair_index, put_bit};
use crate::rng::Rng;
use crate::searches::layers;
use crate::tuned::BY_BLOCKS;

/// Searches from nodes all over a board: about one node in eight is listed, or only one that is farthest, or only one
/// that has lost its links.
pub fn boards(rng: &mut Rng, board: &Board) -> [Vec<Board>; 3] {
    let n = board.n;
    let starts: Vec<usize> = (0..BATCH).map(|i| i * n / BATCH).collect();
    let graph = Graph::read(n, &board.edges);
    let from = |&a: &usize, listed: Vec<u64>| Board { a: a as u64, listed, ..board.clone() };
    let mut nodes: Vec<u64> = (0..n as u64).collect();
    rng.shuffle(&mut nodes);
    let eighth = nodes[..n.div_ceil(8)].to_vec();
    let last = |a: usize| layers(&graph, a).pop().expect("the node itself is reached")[0];
    [
        starts.iter().map(|a| from(a, eighth.clone())).collect(),
        starts.iter().map(|a| from(a, vec![last(*a) as u64])).collect(),
        starts.iter().map(|a| without_links(from(a, vec![((a + n / 2) % n) as u64]))).collect(),
    ]
}

/// The board on which its listed node has lost its links.
fn without_links(mut board: Board) -> Board {
    let lost = board.listed[0] as usize;
    (0..board.n).filter(|&q| q != lost).for_each(|q| put_bit(&mut board.edges, pair_index(lost, q), false));
    board
}

/// Prints the searches again, beside the tuned version that makes the matrix block by block.
pub fn run(library: Option<&dyn Calls>) {
    let mut versions: Vec<&dyn Calls> = vec![&BY_BLOCKS];
    versions.extend(library);
    println!("searches beside a matrix made block by block");
    for n in SIZES {
        for links in LINKS.into_iter().filter(|&links| links < n) {
            for case in cases_of(Board::random, n, links).iter().filter(|case| case.name.starts_with("nearest")) {
                print_line(case.name, n, links, &time(case, &versions));
            }
        }
    }
}
