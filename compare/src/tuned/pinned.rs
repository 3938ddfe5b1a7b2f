//! Reconcile with pins, and the first conflict: a conflict is looked for in blocks of 64 bytes, and only where mine and
//! theirs differ.

use super::merge::{merge, word};
use super::refuse::{self, any_over, edge_bytes, node_count, BUFFER_LENGTH, CONFLICT, CROWDED};
use super::rows::degrees;

/// The answer where there is no conflict.
const NONE: u64 = 1 << 32;

/// Bytes that are looked at together.
type Block = [u8; 64];

/// The edges and the pins of both editors, and the base, each as bytes of one length, as a block of them or as a word.
#[derive(Clone, Copy)]
struct Brought<T> {
    mine: T,
    pins: T,
    theirs: T,
    their_pins: T,
    base: T,
}

impl<T: Copy> Brought<T> {
    #[inline]
    fn map<U>(self, part: impl Fn(T) -> U) -> Brought<U> {
        let Brought { mine, pins, theirs, their_pins, base } = self;
        Brought {
            mine: part(mine),
            pins: part(pins),
            theirs: part(theirs),
            their_pins: part(their_pins),
            base: part(base),
        }
    }
}

impl Brought<u64> {
    /// The bits of the pairs on which both editors have spoken and which they left different.
    #[inline]
    fn conflicts(self) -> u64 {
        let Brought { mine, pins, theirs, their_pins, base } = self;
        (mine ^ theirs) & (pins | (mine ^ base)) & (their_pins | (theirs ^ base))
    }
}

impl Brought<&Block> {
    /// A pair of the block is in conflict.
    #[inline]
    fn has_conflict(self) -> bool {
        let words = self.map(|block| block.as_chunks::<8>().0);
        let conflicts = |place: usize| words.map(|words| u64::from_ne_bytes(words[place])).conflicts();
        self.mine != self.theirs && (0..8).fold(0, |all, place| all | conflicts(place)) != 0
    }
}

impl Brought<&[u8]> {
    /// The buffers have this length.
    fn are_long(self, length: usize) -> bool {
        let Brought { mine, pins, theirs, their_pins, base } = self;
        [mine, pins, theirs, their_pins, base].iter().all(|buffer| buffer.len() == length)
    }

    /// The bit of the first pair of n nodes that is in conflict.
    fn first_conflict(self, n: usize) -> Option<usize> {
        let blocks = self.map(|buffer| buffer.as_chunks().0);
        let count = blocks.mine.len();
        let place = (0..count).find(|&place| blocks.map(|blocks| &blocks[place]).has_conflict()).unwrap_or(count);
        let found = (size_of::<Block>() * place..self.mine.len()).step_by(8).find_map(|from| {
            let conflicts = self.map(|buffer| word(buffer, from)).conflicts();
            (conflicts != 0).then(|| 8 * from + conflicts.leading_zeros() as usize)
        });
        found.filter(|&index| index < n * (n - 1) / 2)
    }
}

pub fn reconcile_pinned(
    edges: &mut [u8],
    figures: &mut [u64],
    marks: &mut [u8],
    pins: &[u8],
    theirs: &[u8],
    their_pins: &[u8],
    base: &[u8],
) -> u64 {
    let n = figures.len();
    let refusal = refuse::state(n as u64, edges, marks);
    if refusal != 0 {
        return refusal;
    }
    let brought = Brought { mine: &*edges, pins, theirs, their_pins, base };
    if !brought.are_long(edges.len()) {
        return BUFFER_LENGTH;
    }
    if brought.first_conflict(n).is_none() {
        return merge(edges, figures, marks, theirs, base);
    }
    if any_over(&degrees(edges, n)[..n]) {
        return CROWDED;
    }
    CONFLICT
}

pub fn conflict(edges: &[u8], n: u64, pins: &[u8], theirs: &[u8], their_pins: &[u8], base: &[u8]) -> Result<u64, u64> {
    let n = node_count(n)?;
    let brought = Brought { mine: edges, pins, theirs, their_pins, base };
    if !brought.are_long(edge_bytes(n)) {
        return Err(BUFFER_LENGTH);
    }
    Ok(brought.first_conflict(n).map_or(NONE, |index| index as u64))
}
