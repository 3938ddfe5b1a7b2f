//! What schedules and surveys have in common: the nodes of their records, and the snapshot that is made of them.

use super::refuse::{any_over, edge_bytes, NO_SUCH_NODE, SAME_NODE, WOULD_CROWD};
use super::rows::pair;

/// The edge bytes of the largest graph.
pub const MOST_BYTES: usize = 4_080;

/// The bit of the pair of two different nodes, in either order.
#[inline]
pub fn pair_of(a: u8, b: u8) -> usize {
    pair(usize::from(a.min(b)), usize::from(a.max(b)))
}

/// What the nodes of records tell: the highest of them, and whether a record names one node twice.
#[derive(Clone, Copy, Default)]
pub struct Nodes {
    high: u8,
    same: bool,
}

impl Nodes {
    #[inline]
    pub fn see(&mut self, a: u8, b: u8) {
        self.high = self.high.max(a).max(b);
        self.same |= a == b;
    }

    /// Refusals 4 and 5 of n nodes.
    #[inline]
    pub fn check(self, n: usize) -> Result<(), u64> {
        if usize::from(self.high) >= n {
            return Err(NO_SUCH_NODE);
        }
        if self.same {
            return Err(SAME_NODE);
        }
        Ok(())
    }
}

/// The edges of a snapshot in the making, with the degrees.
pub struct Edges {
    bits: [u8; MOST_BYTES],
    degrees: [u16; 256],
}

impl Edges {
    #[inline]
    pub fn none() -> Edges {
        Edges { bits: [0; MOST_BYTES], degrees: [0; 256] }
    }

    /// The pair of a and b, whose bit this is, becomes joined or not.
    #[inline]
    pub fn put(&mut self, index: usize, a: u8, b: u8, joined: bool) {
        let byte = &mut self.bits[index / 8];
        let mask = 128 >> (index % 8);
        let more = u16::from(joined).wrapping_sub(u16::from(*byte & mask != 0));
        *byte = if joined { *byte | mask } else { *byte & !mask };
        for p in [a, b] {
            let degree = &mut self.degrees[usize::from(p)];
            *degree = degree.wrapping_add(more);
        }
    }

    /// Makes the snapshot of n nodes in a buffer of its length, or refusal 12.
    #[inline]
    pub fn write(&self, n: usize, snapshot: &mut [u8]) -> Result<(), u64> {
        if any_over(&self.degrees) {
            return Err(WOULD_CROWD);
        }
        snapshot[0] = (n - 1) as u8;
        snapshot[1..].copy_from_slice(&self.bits[..edge_bytes(n)]);
        Ok(())
    }
}
