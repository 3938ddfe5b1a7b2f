//! Reconcile: a three-way merge of the state (mine) with theirs over the base.

use super::edit::{add, remove};
use super::graph::Graph;
use super::packing::{bit, pairs};
use super::refusal::{refuse_if, Refusal};
use super::state::{check_pair_bits, State};

/// The pairs where theirs differs from the base and from mine take theirs.
pub fn reconcile(state: State, theirs: &[u8], base: &[u8]) -> Result<(), Refusal> {
    state.check()?;
    let n = state.node_count();
    check_pair_bits(n, &[theirs, base])?;
    let mut graph = state.graph();
    refuse_if(graph.any_crowded(), Refusal::Crowded)?;
    for (index, (a, b)) in pairs(n).enumerate() {
        let wanted = bit(theirs, index);
        if wanted != bit(base, index) && wanted != bit(state.edges, index) {
            graph.set(a, b, wanted);
        }
    }
    take(state, &graph)
}

/// A state within the limits takes the edges of `graph`: the removals in bit order, then the additions in bit order, each
/// as its own call makes it. Refusal 12 where a node would have too many edges.
pub fn take(state: State, graph: &Graph) -> Result<(), Refusal> {
    refuse_if(graph.any_crowded(), Refusal::WouldCrowd)?;
    let mine = state.graph();
    let changed = pairs(state.node_count()).filter(|&(a, b)| graph.has(a, b) != mine.has(a, b));
    let (additions, removals): (Vec<_>, Vec<_>) = changed.partition(|&(a, b)| graph.has(a, b));
    for (a, b) in removals {
        remove(lend(&mut *state.edges, state.figures, state.marks), a as u64, b as u64)
            .expect("a removal of an edge within the limits is accepted");
    }
    for (a, b) in additions {
        add(lend(&mut *state.edges, state.figures, state.marks), a as u64, b as u64)
            .expect("an addition within the limits is accepted");
    }
    Ok(())
}

fn lend<'a>(edges: &'a mut [u8], figures: &'a mut [u64], marks: &'a mut [u8]) -> State<'a> {
    State { edges, figures, marks }
}
