//! Refusal numbers and sizes.

pub const NODE_COUNT: u64 = 1;
pub const BUFFER_LENGTH: u64 = 2;
pub const SHORT_SCRATCH: u64 = 3;
pub const NO_SUCH_NODE: u64 = 4;
pub const SAME_NODE: u64 = 5;
pub const EDGE_EXISTS: u64 = 6;
pub const NO_SUCH_EDGE: u64 = 7;
pub const ENTRY_COUNT: u64 = 8;
pub const BAD_SNAPSHOT: u64 = 9;
pub const OTHER_NODE_COUNT: u64 = 10;
pub const CROWDED: u64 = 11;
pub const WOULD_CROWD: u64 = 12;
pub const NO_HOURS: u64 = 13;
pub const BAD_SURVEY: u64 = 14;
pub const CONFLICT: u64 = 15;

pub const LIMIT: usize = 40;
pub const UNIT: u64 = 5_342_931_457_063_200;

#[inline]
pub fn edge_bytes(n: usize) -> usize {
    (n * (n - 1) / 2).div_ceil(8)
}

/// The fewest bytes of a list's scratch.
#[inline]
pub fn scratch_bytes(n: usize) -> usize {
    n.div_ceil(8)
}

/// n as a count of nodes, or refusal 1.
#[inline]
pub fn node_count(n: u64) -> Result<usize, u64> {
    match n {
        1..=256 => Ok(n as usize),
        _ => Err(NODE_COUNT),
    }
}

/// Refusals 1 and 2 of the edges and the marks, 0 where neither applies.
#[inline]
pub fn state(n: u64, edges: &[u8], marks: &[u8]) -> u64 {
    let Ok(n) = node_count(n) else {
        return NODE_COUNT;
    };
    if edges.len() != edge_bytes(n) || marks.len() != n.div_ceil(8) {
        return BUFFER_LENGTH;
    }
    0
}

#[inline]
pub fn any_over(degrees: &[u16]) -> bool {
    degrees.iter().any(|&degree| usize::from(degree) > LIMIT)
}
