//! Reconcile: the changed bits found 64 at a time, where mine and theirs differ, the edits made on rows.

use super::bound::{bound, inside};
use super::refuse::{self, any_over, BUFFER_LENGTH, CROWDED, WOULD_CROWD};
use super::rows::{both, count, each, flip, pair, rows, set_bit, Row};

/// Eight bytes from `from`, a place before the end, most significant first, 0 beyond the end.
#[inline]
pub fn word(bytes: &[u8], from: usize) -> u64 {
    if let Some(eight) = bytes.get(from..from + 8) {
        return u64::from_be_bytes(eight.try_into().expect("eight bytes"));
    }
    let tail = &bytes[from..];
    if let Some(&last) = bytes.last_chunk() {
        return u64::from_be_bytes(last) << (64 - 8 * tail.len());
    }
    let mut padded = [0; 8];
    padded[..tail.len()].copy_from_slice(tail);
    u64::from_be_bytes(padded)
}

/// The bytes that are compared together.
const BLOCK: usize = 64;

/// The places, eight bytes apart, of the blocks in which two buffers of one length differ.
#[inline]
fn differing<'a>(x: &'a [u8], y: &'a [u8]) -> impl Iterator<Item = usize> + 'a {
    let blocks = x.chunks(BLOCK).zip(y.chunks(BLOCK)).enumerate().filter(|(_, (x, y))| x != y);
    blocks.flat_map(|(place, (x, _))| (BLOCK * place..BLOCK * place + x.len()).step_by(8))
}

/// A pair that takes theirs.
struct Change {
    a: usize,
    b: usize,
    adds: bool,
}

/// The pairs where theirs differs from the base and from mine, in bit order.
fn changes(n: usize, mine: &[u8], theirs: &[u8], base: &[u8]) -> Vec<Change> {
    let pairs = n * (n - 1) / 2;
    let mut found = Vec::new();
    let (mut b, mut start) = (1, 0);
    for from in differing(mine, theirs) {
        let wanted = word(theirs, from);
        let mut left = (wanted ^ word(base, from)) & (wanted ^ word(mine, from));
        while left != 0 {
            let lead = left.leading_zeros();
            let mask = 1 << (63 - lead);
            let index = 8 * from + lead as usize;
            if index >= pairs {
                break;
            }
            while index >= start + b {
                start += b;
                b += 1;
            }
            found.push(Change { a: index - start, b, adds: wanted & mask != 0 });
            left ^= mask;
        }
    }
    found
}

pub fn reconcile(edges: &mut [u8], figures: &mut [u64], marks: &mut [u8], theirs: &[u8], base: &[u8]) -> u64 {
    let n = figures.len();
    let refusal = refuse::state(n as u64, edges, marks);
    if refusal != 0 {
        return refusal;
    }
    if theirs.len() != edges.len() || base.len() != edges.len() {
        return BUFFER_LENGTH;
    }
    merge(edges, figures, marks, theirs, base)
}

/// Reconciles buffers of the lengths that n requires: refusal 11 or 12, or 0.
pub fn merge(edges: &mut [u8], figures: &mut [u64], marks: &mut [u8], theirs: &[u8], base: &[u8]) -> u64 {
    let n = figures.len();
    let (rows, degrees) = rows(edges, n);
    if any_over(&degrees[..n]) {
        return CROWDED;
    }
    let changes = changes(n, edges, theirs, base);
    let mut after = degrees;
    for change in &changes {
        let step = if change.adds { 1 } else { u16::MAX };
        after[change.a] = after[change.a].wrapping_add(step);
        after[change.b] = after[change.b].wrapping_add(step);
    }
    if any_over(&after[..n]) {
        return WOULD_CROWD;
    }
    let mut counts = Counts { rows, degrees, joined: [UNKNOWN; 256] };
    for change in changes.iter().filter(|change| !change.adds) {
        let common = counts.flip(edges, marks, change);
        figures[change.a] = counts.bound(change.a);
        figures[change.b] = counts.bound(change.b);
        each(&common, |w| figures[w] = counts.bound(w));
    }
    for change in changes.iter().filter(|change| change.adds) {
        let common = counts.flip(edges, marks, change);
        figures[change.a] = counts.bound(change.a);
        figures[change.b] = counts.bound(change.b);
        each(&common, |w| figures[w] = figures[w].min(counts.bound(w)));
    }
    0
}

/// The joined pairs of a node that no change has touched.
const UNKNOWN: u16 = u16::MAX;

/// Rows and degrees, and the joined pairs of neighbours of each node that a change has touched.
struct Counts {
    rows: Vec<Row>,
    degrees: [u16; 256],
    joined: [u16; 256],
}

impl Counts {
    /// Flips the edge, opens its ends and their common neighbours, and gives these.
    fn flip(&mut self, edges: &mut [u8], marks: &mut [u8], change: &Change) -> Row {
        let (a, b) = (change.a, change.b);
        let index = pair(a, b);
        edges[index / 8] ^= 128 >> (index % 8);
        flip(&mut self.rows[a], b);
        flip(&mut self.rows[b], a);
        let common = both(&self.rows[a], &self.rows[b]);
        let shared = count(&common) as u16;
        let step = if change.adds { 1 } else { u16::MAX };
        for end in [a, b] {
            self.degrees[end] = self.degrees[end].wrapping_add(step);
            self.touch(end, step.wrapping_mul(shared));
            set_bit(marks, end);
        }
        each(&common, |w| {
            self.touch(w, step);
            set_bit(marks, w);
        });
        common
    }

    /// A change that the rows have already gives p so many more joined pairs.
    fn touch(&mut self, p: usize, more: u16) {
        self.joined[p] = if self.joined[p] == UNKNOWN {
            (inside(&self.rows[p], &self.rows) / 2) as u16
        } else {
            self.joined[p].wrapping_add(more)
        };
    }

    /// The ceiling of a node that a change has touched.
    fn bound(&self, p: usize) -> u64 {
        bound(usize::from(self.degrees[p]), usize::from(self.joined[p]))
    }
}
