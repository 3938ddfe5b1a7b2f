//! The three buffers that a caller lends, and the conditions that every call over them tests first.

use super::bound::bound;
use super::graph::Graph;
use super::limits::MAX_NODES;
use super::packing::{bit, edge_bytes, mark_bytes, put_bit};
use super::refusal::{refuse_if, Refusal};

/// Edges, figures and marks, as lent. The number of nodes is the number of figures.
pub struct State<'a> {
    pub edges: &'a mut [u8],
    pub figures: &'a mut [u64],
    pub marks: &'a mut [u8],
}

impl State<'_> {
    pub fn node_count(&self) -> usize {
        self.figures.len()
    }

    /// Refusals 1 and 2 of the three buffers.
    pub fn check(&self) -> Result<(), Refusal> {
        let n = self.node_count();
        check_node_count(n as u64)?;
        check_pair_bits(n, &[self.edges])?;
        refuse_if(self.marks.len() != mark_bytes(n), Refusal::BufferLength)
    }

    /// The edges, unpacked.
    pub fn graph(&self) -> Graph {
        Graph::read(self.node_count(), self.edges)
    }

    pub fn is_open(&self, p: usize) -> bool {
        bit(self.marks, p)
    }

    fn open(&mut self, p: usize) {
        put_bit(self.marks, p, true);
    }

    pub fn settle(&mut self, p: usize) {
        put_bit(self.marks, p, false);
    }

    /// p takes its ceiling in `graph` and becomes open.
    pub fn renew(&mut self, graph: &Graph, p: usize) {
        self.figures[p] = bound(graph, p);
        self.open(p);
    }

    /// p takes the smaller of its stored figure and its ceiling in `graph` and becomes open.
    pub fn cap(&mut self, graph: &Graph, p: usize) {
        self.figures[p] = self.figures[p].min(bound(graph, p));
        self.open(p);
    }
}

/// Refusal 1.
pub fn check_node_count(n: u64) -> Result<(), Refusal> {
    refuse_if(n == 0 || n > MAX_NODES as u64, Refusal::NodeCount)
}

/// Refusal 2 of buffers that hold a bit for each pair of n nodes.
pub fn check_pair_bits(n: usize, buffers: &[&[u8]]) -> Result<(), Refusal> {
    refuse_if(buffers.iter().any(|buffer| buffer.len() != edge_bytes(n)), Refusal::BufferLength)
}
