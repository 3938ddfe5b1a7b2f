//! Load and write.

use super::bound::{bound, twice_joined};
use super::refuse::{self, any_over, edge_bytes, BAD_SNAPSHOT, BUFFER_LENGTH, CROWDED, OTHER_NODE_COUNT, WOULD_CROWD};
use super::rows::{degrees, rows};

/// The mask of the last edge byte's spare bits.
fn spare(n: usize) -> u8 {
    match n * (n - 1) / 2 % 8 {
        0 => 0,
        used => 255 >> used,
    }
}

pub fn load(edges: &mut [u8], figures: &mut [u64], marks: &mut [u8], snapshot: &[u8]) -> u64 {
    let n = figures.len();
    let refusal = refuse::state(n as u64, edges, marks);
    if refusal != 0 {
        return refusal;
    }
    let Some((&first, bits)) = snapshot.split_first() else {
        return BAD_SNAPSHOT;
    };
    let stated = usize::from(first) + 1;
    if bits.len() != edge_bytes(stated) || bits.last().is_some_and(|&last| last & spare(stated) != 0) {
        return BAD_SNAPSHOT;
    }
    if stated != n {
        return OTHER_NODE_COUNT;
    }
    put(edges, figures, marks, bits)
}

/// Puts these edges, whose spare bits are 0, into a state of the same lengths: refusal 12, or 0.
pub fn put(edges: &mut [u8], figures: &mut [u64], marks: &mut [u8], bits: &[u8]) -> u64 {
    let n = figures.len();
    let (rows, degrees) = rows(bits, n);
    if any_over(&degrees[..n]) {
        return WOULD_CROWD;
    }
    edges.copy_from_slice(bits);
    let twice = twice_joined(&rows);
    for (figure, (&degree, &twice)) in figures.iter_mut().zip(degrees.iter().zip(&twice)) {
        *figure = bound(usize::from(degree), usize::from(twice) / 2);
    }
    marks.fill(255);
    if !n.is_multiple_of(8) {
        marks[n / 8] = !(255 >> (n % 8));
    }
    0
}

pub fn write(edges: &[u8], figures: &[u64], marks: &[u8], snapshot: &mut [u8]) -> u64 {
    let n = figures.len();
    let refusal = refuse::state(n as u64, edges, marks);
    if refusal != 0 {
        return refusal;
    }
    if snapshot.len() != 1 + edges.len() {
        return BUFFER_LENGTH;
    }
    if any_over(&degrees(edges, n)[..n]) {
        return CROWDED;
    }
    snapshot[0] = (n - 1) as u8;
    snapshot[1..].copy_from_slice(edges);
    if n > 1 {
        snapshot[edges.len()] &= !spare(n);
    }
    0
}
