//! List: the first k nodes by score, worked out only as far as the order needs.

use super::packing::scratch_bytes;
use super::refusal::{refuse_if, Refusal};
use super::score::Scorer;
use super::state::State;
use crate::calls::Entry;

/// The order is the rank: larger figure first, then lower number.
fn ranks_after(entry: Entry, other: Entry) -> bool {
    entry.figure < other.figure || entry.figure == other.figure && entry.node > other.node
}

fn sort(entries: &mut [Entry]) {
    entries.sort_by(|x, y| y.figure.cmp(&x.figure).then(x.node.cmp(&y.node)));
}

/// The entries lie in a row, entry i with its node at 2i and its grains at 2i + 1, so k is half
/// their length, rounded down. Answers how many nodes were worked out.
pub fn list(state: State, entries: &mut [u64], scratch: &mut [u8], scorer: Scorer) -> Result<u64, Refusal> {
    let (kept, recomputed) = first(state, entries.len() / 2, scratch, scorer)?;
    for (i, entry) in kept.iter().enumerate() {
        entries[2 * i] = entry.node;
        entries[2 * i + 1] = entry.figure;
    }
    Ok(recomputed)
}

/// The entries are records, k of them. Answers how many nodes were worked out.
pub fn list_entries(state: State, entries: &mut [Entry], scratch: &mut [u8], scorer: Scorer) -> Result<u64, Refusal> {
    let (kept, recomputed) = first(state, entries.len(), scratch, scorer)?;
    for (entry, listed) in entries.iter_mut().zip(kept) {
        *entry = listed;
    }
    Ok(recomputed)
}

/// The first k nodes, and how many were worked out. The bytes of the scratch that n requires end as 0.
fn first(mut state: State, k: usize, scratch: &mut [u8], scorer: Scorer) -> Result<(Vec<Entry>, u64), Refusal> {
    state.check()?;
    let n = state.node_count();
    refuse_if(scratch.len() < scratch_bytes(n), Refusal::ShortScratch)?;
    refuse_if(k == 0 || k > n, Refusal::EntryCount)?;
    let graph = state.graph();
    refuse_if(graph.any_crowded(), Refusal::Crowded)?;

    let mut stored: Vec<Entry> = (0..n).map(|p| Entry { node: p as u64, figure: state.figures[p] }).collect();
    sort(&mut stored);
    let mut kept: Vec<Entry> = Vec::new();
    let mut recomputed = 0;
    for taken in stored {
        if kept.len() == k && ranks_after(taken, kept[k - 1]) {
            break;
        }
        let p = taken.node as usize;
        if state.is_open(p) {
            state.figures[p] = scorer(&graph, p);
            state.settle(p);
            recomputed += 1;
        }
        kept.push(Entry { node: taken.node, figure: state.figures[p] });
        sort(&mut kept);
        kept.truncate(k);
    }
    scratch[..scratch_bytes(n)].fill(0);
    Ok((kept, recomputed))
}
