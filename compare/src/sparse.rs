//! Random boards whose nodes lie far apart: paths, rings, trees and grids, whole or in pieces.

use crate::plain::packing::{edge_bytes, pair_index, put_bit};
use crate::record_pairs::pair;
use crate::rng::Rng;

/// How the nodes of a piece are joined.
#[derive(Clone, Copy)]
enum Shape {
    Path,
    Ring,
    /// Each node is joined to one of so many before it.
    Tree(usize),
    /// In rows of so many, each node is joined to the one before it and to the one above it.
    Grid(usize),
}

impl Shape {
    fn random(rng: &mut Rng) -> Shape {
        match rng.below(10) {
            0..=3 => Shape::Path,
            4..=5 => Shape::Ring,
            6..=7 => Shape::Tree(rng.pick(&[2, 3, 8, 30])),
            _ => Shape::Grid(rng.between(2, 16)),
        }
    }

    /// The pairs of a piece of so many nodes, by their places in it.
    fn pairs(self, rng: &mut Rng, size: usize) -> Vec<(usize, usize)> {
        let path = (1..size).map(|b| (b - 1, b));
        match self {
            Shape::Path => path.collect(),
            Shape::Ring if size > 2 => path.chain([(0, size - 1)]).collect(),
            Shape::Ring => path.collect(),
            Shape::Tree(reach) => (1..size).map(|b| (rng.between(b.saturating_sub(reach), b - 1), b)).collect(),
            Shape::Grid(width) => {
                let above = (width..size).map(|b| (b - width, b));
                path.filter(|&(_, b)| b % width != 0).chain(above).collect()
            }
        }
    }
}

/// The nodes, in order or in any, cut into one piece or several.
fn pieces(rng: &mut Rng, n: usize) -> Vec<Vec<usize>> {
    let mut nodes: Vec<usize> = (0..n).collect();
    if rng.chance(60) {
        rng.shuffle(&mut nodes);
    }
    let size = if rng.chance(60) { n } else { rng.between(1, n) };
    nodes.chunks(size).map(<[usize]>::to_vec).collect()
}

/// Edge bytes whose spare bits are 0; at times, a few edges between any nodes among them.
pub fn sparse_edges(rng: &mut Rng, n: usize) -> Vec<u8> {
    let mut edges = vec![0; edge_bytes(n)];
    for piece in pieces(rng, n) {
        let shape = Shape::random(rng);
        for (a, b) in shape.pairs(rng, piece.len()) {
            put_bit(&mut edges, pair_index(piece[a], piece[b]), true);
        }
    }
    if n > 1 && rng.chance(25) {
        for _ in 0..rng.between(1, 4) {
            let (a, b) = pair(rng, n);
            put_bit(&mut edges, pair_index(a, b), true);
        }
    }
    edges
}
