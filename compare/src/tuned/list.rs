//! List: a heap of the stored figures, popped only as far as the order needs.

use super::refuse::{self, any_over, scratch_bytes, CROWDED, ENTRY_COUNT, SHORT_SCRATCH};
use super::rows::{bit, rows};
use super::score::from_rows;
use crate::calls::Entry;
use std::cmp::Reverse;
use std::collections::BinaryHeap;

/// Lent entries, in a row of numbers or as records.
pub trait Entries {
    fn count(&self) -> usize;
    fn get(&self, place: usize) -> Entry;
    fn put(&mut self, place: usize, entry: Entry);
}

impl Entries for [u64] {
    fn count(&self) -> usize {
        self.len() / 2
    }

    fn get(&self, place: usize) -> Entry {
        Entry { node: self[2 * place], figure: self[2 * place + 1] }
    }

    fn put(&mut self, place: usize, entry: Entry) {
        self[2 * place] = entry.node;
        self[2 * place + 1] = entry.figure;
    }
}

impl Entries for [Entry] {
    fn count(&self) -> usize {
        self.len()
    }

    fn get(&self, place: usize) -> Entry {
        self[place]
    }

    fn put(&mut self, place: usize, entry: Entry) {
        self[place] = entry;
    }
}

pub fn list(
    edges: &[u8],
    figures: &mut [u64],
    marks: &mut [u8],
    entries: &mut (impl Entries + ?Sized),
    scratch: &mut [u8],
) -> Result<u64, u64> {
    let n = figures.len();
    let refusal = refuse::state(n as u64, edges, marks);
    if refusal != 0 {
        return Err(refusal);
    }
    let used = scratch_bytes(n);
    if scratch.len() < used {
        return Err(SHORT_SCRATCH);
    }
    let k = entries.count();
    if k == 0 || k > n {
        return Err(ENTRY_COUNT);
    }
    let (rows, degrees) = rows(edges, n);
    if any_over(&degrees[..n]) {
        return Err(CROWDED);
    }
    let stored: Vec<(u64, Reverse<usize>)> =
        figures.iter().enumerate().map(|(node, &figure)| (figure, Reverse(node))).collect();
    let mut heap = BinaryHeap::from(stored);
    let mut kept = 0;
    let mut recomputed = 0;
    while let Some((stored, Reverse(node))) = heap.pop() {
        if kept == k && after(stored, node, entries.get(k - 1)) {
            break;
        }
        let mut figure = stored;
        if bit(marks, node) {
            figure = from_rows(&rows, node);
            figures[node] = figure;
            marks[node / 8] &= !(128 >> (node % 8));
            recomputed += 1;
        }
        if kept == k && after(figure, node, entries.get(k - 1)) {
            continue;
        }
        let mut place = if kept == k { k - 1 } else { kept };
        kept = place + 1;
        while place > 0 && !after(figure, node, entries.get(place - 1)) {
            entries.put(place, entries.get(place - 1));
            place -= 1;
        }
        entries.put(place, Entry { node: node as u64, figure });
    }
    scratch[..used].fill(0);
    Ok(recomputed)
}

/// The node with its figure ranks after an entry.
fn after(figure: u64, node: usize, other: Entry) -> bool {
    figure < other.figure || figure == other.figure && node as u64 > other.node
}
