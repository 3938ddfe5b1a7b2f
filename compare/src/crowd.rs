//! A node of a board comes to its limit or above it: anywhere, or where an edit sees it or does not.

use crate::plain::graph::Graph;
use crate::plain::limits::MAX_DEGREE;
use crate::plain::packing::{edge_bytes, pair_index, put_bit};
use crate::rng::Rng;

/// The edges of a board as bits and unpacked.
struct Board<'a> {
    edges: &'a mut [u8],
    graph: Graph,
}

impl Board<'_> {
    fn read(n: usize, edges: &mut [u8]) -> Board<'_> {
        let graph = Graph::read(n, edges);
        Board { edges, graph }
    }

    fn set(&mut self, a: usize, b: usize, value: bool) {
        put_bit(self.edges, pair_index(a, b), value);
        self.graph.set(a, b, value);
    }

    /// p is joined to others until it has `degree` edges, or as many as there are others to join: none of `spared`, and
    /// none that has come to its limit.
    fn join(&mut self, rng: &mut Rng, p: usize, degree: usize, spared: [usize; 2]) {
        let mut others: Vec<usize> = (0..self.graph.node_count()).collect();
        others.retain(|&q| q != p && !spared.contains(&q) && self.graph.degree(q) < MAX_DEGREE);
        rng.shuffle(&mut others);
        for q in others {
            if self.graph.degree(p) < degree {
                self.set(p, q, true);
            }
        }
    }
}

/// One node comes above its limit, where there are enough nodes and the edges have their length: joined to all others, or
/// to a few more than the limit, of which none has come to its own.
pub fn crowd_one(rng: &mut Rng, n: usize, edges: &mut [u8]) {
    if edges.len() != edge_bytes(n) {
        return;
    }
    let p = rng.below(n);
    if rng.chance(20) {
        (0..n).filter(|&q| q != p).for_each(|q| put_bit(edges, pair_index(p, q), true));
    } else {
        let degree = MAX_DEGREE + rng.between(1, 8);
        Board::read(n, edges).join(rng, p, degree, [p, p]);
    }
}

/// An end comes to its limit or above it, or a common neighbour or another node above it, where n and the other nodes'
/// edges allow. The edge of a and b stays as it is.
pub fn crowd(rng: &mut Rng, n: usize, edges: &mut [u8], a: u64, b: u64) {
    if a == b || a.max(b) >= n as u64 || n < 4 || edges.len() != edge_bytes(n) {
        return;
    }
    let ends = [a as usize, b as usize];
    let end = rng.pick(&ends);
    let other = rng.pick(&(0..n).filter(|p| !ends.contains(p)).collect::<Vec<_>>());
    let above = MAX_DEGREE + rng.between(1, 3);
    let mut board = Board::read(n, edges);
    match rng.below(5) {
        0 => board.join(rng, end, above, ends),
        1 => board.join(rng, end, MAX_DEGREE, ends),
        2 => {
            ends.iter().for_each(|&end| board.set(end, other, true));
            board.join(rng, other, above, ends);
        }
        _ => {
            board.set(end, other, false);
            board.join(rng, other, above, ends);
        }
    }
}
