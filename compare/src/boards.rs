//! Random boards.

use crate::crowd::crowd_one;
use crate::memory::Memory;
use crate::plain::graph::Graph;
use crate::plain::limits::{MAX_DEGREE, UNIT};
use crate::plain::packing::{self, bit, edge_bytes, mark_bytes, pair_count, pair_index, put_bit};
use crate::rng::Rng;
use crate::sparse::sparse_edges;

/// How full a board is.
#[derive(Clone, Copy)]
enum Fill {
    None,
    /// About this many edges a node.
    Edges(usize),
    /// As many as the limit lets through.
    Full,
    /// About this many edges a node, and one node above the limit, where there are enough nodes.
    Crowded(usize),
    /// Few edges, such that nodes lie far apart.
    Sparse,
    /// Any bytes.
    Noise,
}

/// A node count from 1 to 256: often small, sometimes the largest.
pub fn node_count(rng: &mut Rng) -> usize {
    match rng.below(20) {
        0..=9 => rng.between(1, 12),
        10..=13 => rng.between(13, 50),
        14..=16 => rng.between(51, 120),
        17..=18 => rng.between(121, 255),
        _ => 256,
    }
}

fn fill(rng: &mut Rng) -> Fill {
    match rng.below(20) {
        0 => Fill::None,
        1 => Fill::Sparse,
        2..=4 => Fill::Edges(rng.between(1, 4)),
        5..=9 => Fill::Edges(rng.between(5, 20)),
        10..=12 => Fill::Edges(rng.between(21, MAX_DEGREE - 1)),
        13..=15 => Fill::Full,
        16..=17 => Fill::Crowded(rng.between(1, MAX_DEGREE)),
        _ => Fill::Noise,
    }
}

/// Edge bytes whose spare bits are 0, but for noise.
fn edges(rng: &mut Rng, n: usize, fill: Fill) -> Vec<u8> {
    let mut bytes = vec![0; edge_bytes(n)];
    let wanted = match fill {
        Fill::None => return bytes,
        Fill::Sparse => return sparse_edges(rng, n),
        Fill::Noise => return rng.bytes(edge_bytes(n)),
        Fill::Edges(degree) | Fill::Crowded(degree) => n * degree / 2,
        Fill::Full => usize::MAX,
    };
    let mut pairs: Vec<(usize, usize)> = packing::pairs(n).collect();
    rng.shuffle(&mut pairs);
    let mut degrees = vec![0; n];
    let mut placed = 0;
    for (a, b) in pairs {
        if placed < wanted && degrees[a] < MAX_DEGREE && degrees[b] < MAX_DEGREE {
            put_bit(&mut bytes, pair_index(a, b), true);
            degrees[a] += 1;
            degrees[b] += 1;
            placed += 1;
        }
    }
    if matches!(fill, Fill::Crowded(_)) {
        crowd_one(rng, n, &mut bytes);
    }
    bytes
}

pub fn random_edges(rng: &mut Rng, n: usize) -> Vec<u8> {
    let fill = fill(rng);
    edges(rng, n, fill)
}

/// Some of the spare bits of a buffer become 1.
pub fn set_spare(rng: &mut Rng, bytes: &mut [u8], used: usize) {
    for i in used..8 * bytes.len() {
        if rng.chance(50) {
            put_bit(bytes, i, true);
        }
    }
}

fn put_figure(memory: &mut Memory, p: usize, figure: u64) {
    memory.figures[8 * p..8 * p + 8].copy_from_slice(&figure.to_le_bytes());
}

/// The most neighbour pairs of a node within the limit.
const MAX_PAIRS: usize = MAX_DEGREE * (MAX_DEGREE - 1) / 2;

/// The ceiling of p; where p is above the limit, at most the largest of a node within it.
fn ceiling(graph: &Graph, p: usize) -> u64 {
    graph.unjoined_pairs(p).len().min(MAX_PAIRS) as u64 * UNIT
}

/// A figure at a ceiling or at the next ones, or a grain beside: an add among p's neighbours lowers p's by a unit, a
/// remove raises it by one.
fn near(rng: &mut Rng, ceiling: u64) -> u64 {
    let other = match rng.below(8) {
        0..=2 => ceiling,
        3..=5 => ceiling.saturating_sub(UNIT),
        6 => ceiling.saturating_sub(2 * UNIT),
        _ => ceiling + UNIT,
    };
    match rng.below(4) {
        0 => other.saturating_sub(1),
        1 => other + 1,
        _ => other,
    }
}

/// A whole number of units, at most a unit above the largest ceiling.
fn some_units(rng: &mut Rng) -> u64 {
    rng.between(0, MAX_PAIRS + 1) as u64 * UNIT
}

/// The figures of some nodes come to lie near their ceilings, and their marks may be any.
pub fn approach(rng: &mut Rng, n: usize, memory: &mut Memory, nodes: impl FnOnce(&Graph) -> Vec<usize>) {
    let graph = Graph::read(n, &memory.edges);
    for p in nodes(&graph) {
        let figure = near(rng, ceiling(&graph, p));
        put_figure(memory, p, figure);
        put_bit(&mut memory.marks, p, rng.chance(50));
    }
}

/// The figures come to be of one to three values, so that many are equal, and the nodes all open, all settled or any.
pub fn level(rng: &mut Rng, n: usize, memory: &mut Memory) {
    let others = [some_units(rng), rng.next()];
    let all = [&[0, 1, UNIT, u64::MAX - 1, u64::MAX][..], &others].concat();
    let values: Vec<u64> = (0..rng.between(1, 3)).map(|_| rng.pick(&all)).collect();
    for p in 0..n {
        let figure = rng.pick(&values);
        put_figure(memory, p, figure);
    }
    memory.marks = match rng.below(3) {
        0 => vec![0; mark_bytes(n)],
        1 => vec![255; mark_bytes(n)],
        _ => rng.bytes(mark_bytes(n)),
    };
}

/// A state of the right lengths: ceilings, figures near them or false figures, any marks, any spare bits.
pub fn state(rng: &mut Rng, n: usize) -> Memory {
    let mut memory = Memory {
        edges: random_edges(rng, n),
        figures: vec![0; 8 * n],
        marks: rng.bytes(mark_bytes(n)),
        ..Memory::default()
    };
    let graph = Graph::read(n, &memory.edges);
    let style = rng.below(8);
    for p in 0..n {
        let figure = match style {
            0 => ceiling(&graph, p),
            1 => rng.next(),
            2 => some_units(rng),
            3 => rng.below(3) as u64,
            _ => near(rng, ceiling(&graph, p)),
        };
        put_figure(&mut memory, p, figure);
    }
    if rng.chance(50) {
        set_spare(rng, &mut memory.edges, pair_count(n));
    }
    memory
}

/// The state itself is altered behind the calls' back: edges, figures or marks.
pub fn corrupt(rng: &mut Rng, n: usize, memory: &mut Memory) {
    match rng.below(6) {
        0 if n > 1 => {
            for _ in 0..rng.between(1, 8) {
                let index = rng.below(pair_count(n));
                let value = !bit(&memory.edges, index);
                put_bit(&mut memory.edges, index, value);
            }
        }
        1 => memory.marks = rng.bytes(mark_bytes(n)),
        2 => set_spare(rng, &mut memory.edges, pair_count(n)),
        3 => crowd_one(rng, n, &mut memory.edges),
        _ => {
            let p = rng.below(n);
            let figure = match rng.below(3) {
                0 => rng.next(),
                1 => some_units(rng),
                _ => near(rng, ceiling(&Graph::read(n, &memory.edges), p)),
            };
            put_figure(memory, p, figure);
        }
    }
}
