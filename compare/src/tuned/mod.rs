//! Every call again, tuned as its author would tune it: bit rows, counts of ones, windows of 64
//! bits, no pass that is not needed. The benchmark measures the proved library against this.

mod blocks;
mod bound;
mod calls;
mod edit;
mod list;
mod matrix;
mod merge;
mod nearest;
mod next_change;
mod pinned;
mod planes;
mod preview;
mod records;
mod refuse;
mod rows;
mod schedule;
mod score;
mod snapshot;
mod survey;
mod touched;

pub use calls::{Tuned, BY_BLOCKS, BY_ROWS};
