//! Add and remove an edge.

use super::graph::Graph;
use super::packing::{pair_index, put_bit};
use super::refusal::{refuse_if, Refusal};
use super::state::State;

/// What both edits test before the edge itself: refusals 1, 2, 4 and 5.
fn check_pair(state: &State, a: u64, b: u64) -> Result<(usize, usize), Refusal> {
    state.check()?;
    let n = state.node_count() as u64;
    refuse_if(a >= n || b >= n, Refusal::NoSuchNode)?;
    refuse_if(a == b, Refusal::SameNode)?;
    Ok((a as usize, b as usize))
}

/// Refusal 11 of an edit: an end or a common neighbour has too many edges.
fn check_crowded(graph: &Graph, a: usize, b: usize) -> Result<(), Refusal> {
    let mut touched = vec![a, b];
    touched.extend(graph.common(a, b));
    refuse_if(touched.iter().any(|&p| graph.is_crowded(p)), Refusal::Crowded)
}

/// Sets the bit. Both ends take their new ceilings and become open. Each common neighbour takes the
/// smaller of its stored figure and its new ceiling and becomes open.
pub fn add(mut state: State, a: u64, b: u64) -> Result<(), Refusal> {
    let (a, b) = check_pair(&state, a, b)?;
    let mut graph = state.graph();
    refuse_if(graph.has(a, b), Refusal::EdgeExists)?;
    check_crowded(&graph, a, b)?;
    graph.set(a, b, true);
    refuse_if(graph.is_crowded(a) || graph.is_crowded(b), Refusal::WouldCrowd)?;
    put_bit(state.edges, pair_index(a, b), true);
    state.renew(&graph, a);
    state.renew(&graph, b);
    for w in graph.common(a, b) {
        state.cap(&graph, w);
    }
    Ok(())
}

/// Clears the bit. Both ends and every common neighbour take their new ceilings and become open.
pub fn remove(mut state: State, a: u64, b: u64) -> Result<(), Refusal> {
    let (a, b) = check_pair(&state, a, b)?;
    let mut graph = state.graph();
    refuse_if(!graph.has(a, b), Refusal::NoSuchEdge)?;
    check_crowded(&graph, a, b)?;
    graph.set(a, b, false);
    put_bit(state.edges, pair_index(a, b), false);
    state.renew(&graph, a);
    state.renew(&graph, b);
    for w in graph.common(a, b) {
        state.renew(&graph, w);
    }
    Ok(())
}
