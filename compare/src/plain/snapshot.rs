//! Snapshots: a byte n−1, then the edge bits, spare bits 0. Load and write, and the snapshot of some pairs.

use super::graph::Graph;
use super::packing::{bit, edge_bytes, pair_count, pair_index, put_bit};
use super::refusal::{refuse_if, Refusal};
use super::state::State;

/// The node count and the edge bytes of a well-formed snapshot; otherwise refusal 9.
pub fn parse(snapshot: &[u8]) -> Result<(usize, &[u8]), Refusal> {
    let (&first, edges) = snapshot.split_first().ok_or(Refusal::BadSnapshot)?;
    let n = usize::from(first) + 1;
    refuse_if(edges.len() != edge_bytes(n), Refusal::BadSnapshot)?;
    let spare = pair_count(n)..8 * edges.len();
    refuse_if(spare.into_iter().any(|i| bit(edges, i)), Refusal::BadSnapshot)?;
    Ok((n, edges))
}

/// The snapshot's edges, each figure the node's ceiling, all open; spare bits become 0.
pub fn load(mut state: State, snapshot: &[u8]) -> Result<(), Refusal> {
    state.check()?;
    let (n, edges) = parse(snapshot)?;
    refuse_if(n != state.node_count(), Refusal::OtherNodeCount)?;
    let graph = Graph::read(n, edges);
    refuse_if(graph.any_crowded(), Refusal::WouldCrowd)?;
    state.edges.copy_from_slice(edges);
    state.marks.fill(0);
    for p in 0..n {
        state.renew(&graph, p);
    }
    Ok(())
}

/// Makes the snapshot of a state in a buffer of exactly its length.
pub fn write(state: State, snapshot: &mut [u8]) -> Result<(), Refusal> {
    state.check()?;
    let n = state.node_count();
    refuse_if(snapshot.len() != 1 + edge_bytes(n), Refusal::BufferLength)?;
    refuse_if(state.graph().any_crowded(), Refusal::Crowded)?;
    let mut made = vec![0; snapshot.len()];
    made[0] = (n - 1) as u8;
    for i in 0..pair_count(n) {
        put_bit(&mut made[1..], i, bit(state.edges, i));
    }
    snapshot.copy_from_slice(&made);
    Ok(())
}

/// The snapshot of n nodes of which these pairs are joined.
pub fn of_pairs(n: usize, pairs: impl Iterator<Item = (usize, usize)>) -> Vec<u8> {
    let mut snapshot = vec![0; 1 + edge_bytes(n)];
    snapshot[0] = (n - 1) as u8;
    for (a, b) in pairs {
        put_bit(&mut snapshot[1..], pair_index(a, b), true);
    }
    snapshot
}

/// Copies a snapshot into a buffer of its length; refusal 12 where a node has too many edges.
pub fn hand_over(made: &[u8], snapshot: &mut [u8]) -> Result<(), Refusal> {
    let n = usize::from(made[0]) + 1;
    refuse_if(Graph::read(n, &made[1..]).any_crowded(), Refusal::WouldCrowd)?;
    snapshot.copy_from_slice(made);
    Ok(())
}
