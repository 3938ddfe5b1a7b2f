//! What the records of timed sheets and of surveys have in common: each names two nodes.

use super::refusal::{refuse_if, Refusal};

/// Refusals 4 and 5 of n nodes, each over all pairs.
pub fn check_pairs(n: u64, pairs: &[(u64, u64)]) -> Result<(), Refusal> {
    refuse_if(pairs.iter().any(|&(a, b)| a >= n || b >= n), Refusal::NoSuchNode)?;
    refuse_if(pairs.iter().any(|&(a, b)| a == b), Refusal::SameNode)
}
