//! Score one node from the edges, n and its number; it changes nothing.

use super::graph::Graph;
use super::packing::edge_bytes;
use super::refusal::{refuse_if, Refusal};
use super::state::check_node_count;

/// A way to score a node that has at most `MAX_DEGREE` edges.
pub type Scorer = fn(&Graph, usize) -> u64;

pub fn score(n: u64, edges: &[u8], node: u64, scorer: Scorer) -> Result<u64, Refusal> {
    check_node_count(n)?;
    let count = n as usize;
    refuse_if(edges.len() != edge_bytes(count), Refusal::BufferLength)?;
    refuse_if(node >= n, Refusal::NoSuchNode)?;
    let graph = Graph::read(count, edges);
    let node = node as usize;
    refuse_if(graph.is_crowded(node), Refusal::Crowded)?;
    Ok(scorer(&graph, node))
}
