//! Preview an edit: the edit is done on a copy, and every node is scored afresh before it and after it.

use super::graph::Graph;
use super::refusal::{refuse_if, Refusal};
use super::score::Scorer;
use super::state::{check_node_count, State};

/// The change of each node's score, in grains. The refusals are those of the edit, with refusal 2 also for another
/// count of changes than n. A crowded node of an accepted edit has no part in it and shows 0.
pub fn preview(
    edges: &[u8],
    figures: &[u64],
    marks: &[u8],
    changes: &mut [i64],
    edit: impl FnOnce(State) -> Result<(), Refusal>,
    scorer: Scorer,
) -> Result<(), Refusal> {
    let n = figures.len();
    check_node_count(n as u64)?;
    refuse_if(changes.len() != n, Refusal::BufferLength)?;
    let mut copy = edges.to_vec();
    edit(State { edges: &mut copy, figures: &mut figures.to_vec(), marks: &mut marks.to_vec() })?;
    let before = Graph::read(n, edges);
    let after = Graph::read(n, &copy);
    for (p, change) in changes.iter_mut().enumerate() {
        *change = if before.is_crowded(p) { 0 } else { scorer(&after, p) as i64 - scorer(&before, p) as i64 };
    }
    Ok(())
}
