//! The nearest listed node: the ends of all walks of no edge, then of one, then of two, up to the hop limit, until a
//! listed node is among them. A walk of the fewest edges is a path.

use super::graph::Graph;
use super::refusal::{refuse_if, Refusal};
use super::state::{check_node_count, check_pair_bits};

/// The answer where no path within the limit reaches a listed node.
pub const NONE: u64 = 1 << 32;

/// The nodes that are joined to one of these, in order.
fn joined_to(graph: &Graph, nodes: &[usize]) -> Vec<usize> {
    (0..graph.node_count()).filter(|&q| nodes.iter().any(|&p| graph.has(p, q))).collect()
}

/// The listed node that is reached over the fewest edges, at most `hops`, and of several the one of the lowest number,
/// after its edges: edges · 65,536 + node, or `NONE`.
pub fn nearest(edges: &[u8], n: u64, node: u64, listed: &[u64], hops: u8) -> Result<u64, Refusal> {
    check_node_count(n)?;
    check_pair_bits(n as usize, &[edges])?;
    refuse_if(node >= n || listed.iter().any(|&other| other >= n), Refusal::NoSuchNode)?;
    let graph = Graph::read(n as usize, edges);
    refuse_if(graph.any_crowded(), Refusal::Crowded)?;
    let mut ends = vec![node as usize];
    for length in 0..=u64::from(hops) {
        if let Some(&found) = ends.iter().find(|&&end| listed.contains(&(end as u64))) {
            return Ok(length * 65_536 + found as u64);
        }
        ends = joined_to(&graph, &ends);
    }
    Ok(NONE)
}
