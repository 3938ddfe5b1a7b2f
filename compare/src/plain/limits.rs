//! The limits of a graph and the fixed-point scale of a score.

/// The most nodes of a graph.
pub const MAX_NODES: usize = 256;

/// The most edges of a node.
pub const MAX_DEGREE: usize = 40;

/// The grains that make 1: the least common multiple of 1 to 39.
pub const UNIT: u64 = 5_342_931_457_063_200;
