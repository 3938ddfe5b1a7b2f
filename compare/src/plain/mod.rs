//! Every call in plain Rust, written from the description alone and kept as simple as it allows:
//! the yardstick of the comparison. Nothing here is tuned.

pub mod bound;
pub mod calls;
pub mod clear;
pub mod derived;
pub mod edit;
pub mod graph;
pub mod limits;
pub mod list;
pub mod nearest;
pub mod packing;
pub mod paths;
pub mod pinned;
pub mod preview;
pub mod reconcile;
pub mod records;
pub mod refusal;
pub mod replay;
pub mod schedule;
pub mod score;
pub mod script;
pub mod snapshot;
pub mod state;
pub mod survey;

#[cfg(test)]
mod tests;
