//! Reconcile with pins: an editor may confirm a pair, and where one editor has spoken on a pair, that state stands. The
//! call turns back where both have spoken on a pair and left it different; the first such pair is told on its own.

use super::graph::Graph;
use super::packing::{bit, pair_index, pairs};
use super::reconcile::take;
use super::refusal::{refuse_if, Refusal};
use super::state::{check_node_count, check_pair_bits, State};

/// The answer where there is no conflict.
pub const NONE: u64 = 1 << 32;

/// What an editor brings: the edges, and a second bit for each pair, 1 meaning confirmed.
struct Editor<'a> {
    edges: &'a [u8],
    pins: &'a [u8],
}

impl Editor<'_> {
    /// The editor has confirmed the pair, or left it other than the base.
    fn has_spoken(&self, base: &[u8], index: usize) -> bool {
        bit(self.pins, index) || bit(self.edges, index) != bit(base, index)
    }
}

/// The state of a pair that stands, or none where both editors have spoken and left it different.
fn standing(mine: &Editor, theirs: &Editor, base: &[u8], index: usize) -> Option<bool> {
    let left = |editor: &Editor| bit(editor.edges, index);
    match (mine.has_spoken(base, index), theirs.has_spoken(base, index)) {
        (true, true) if left(mine) != left(theirs) => None,
        (true, false) => Some(left(mine)),
        (false, true) | (true, true) => Some(left(theirs)),
        (false, false) => Some(bit(base, index)),
    }
}

/// Every pair comes to the state that stands.
pub fn reconcile_pinned(
    state: State,
    pins: &[u8],
    theirs: &[u8],
    their_pins: &[u8],
    base: &[u8],
) -> Result<(), Refusal> {
    state.check()?;
    let n = state.node_count();
    check_pair_bits(n, &[pins, theirs, their_pins, base])?;
    refuse_if(state.graph().any_crowded(), Refusal::Crowded)?;
    let mine = Editor { edges: state.edges, pins };
    let theirs = Editor { edges: theirs, pins: their_pins };
    let mut graph = Graph::empty(n);
    for (a, b) in pairs(n) {
        let stands = standing(&mine, &theirs, base, pair_index(a, b)).ok_or(Refusal::Conflict)?;
        graph.set(a, b, stands);
    }
    take(state, &graph)
}

/// The bit of the lowest pair, in bit order, on which both editors have spoken and which they left different, or `NONE`.
pub fn conflict(
    edges: &[u8],
    n: u64,
    pins: &[u8],
    theirs: &[u8],
    their_pins: &[u8],
    base: &[u8],
) -> Result<u64, Refusal> {
    check_node_count(n)?;
    let count = n as usize;
    check_pair_bits(count, &[edges, pins, theirs, their_pins, base])?;
    let mine = Editor { edges, pins };
    let theirs = Editor { edges: theirs, pins: their_pins };
    let mut indices = pairs(count).map(|(a, b)| pair_index(a, b));
    Ok(indices.find(|&index| standing(&mine, &theirs, base, index).is_none()).map_or(NONE, |index| index as u64))
}
