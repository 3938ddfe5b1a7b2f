//! The calls that read a file of many records: how they are timed and printed.

use super::board::Board;
use super::cases::Case;
use super::time::{time_within, ROUNDS};
use super::{print_line, SEED};
use crate::calls::Calls;
use crate::rng::Rng;
use std::time::Duration;

/// How many records a file has, and how many calls are timed together.
const SIZES: [(usize, usize); 3] = [(100, 32), (1_000, 8), (10_000, 2)];
/// How long the rounds of a call may take: a method that goes over all records for each of them needs long.
const LIMIT: Duration = Duration::from_millis(300);
const NODES: [usize; 2] = [64, 256];
/// The links that a node may have on a sheet of a file.
const LINKS: usize = 32;

/// Puts a file of so many records of these pairs on a board.
type Lend = fn(&mut Rng, &mut Board, &[(usize, usize)], usize);

/// A call's name, the file on which it is timed, and the call.
pub type Row = (&'static str, Lend, fn(&mut Board, &dyn Calls) -> u64);

/// Prints a table of these calls.
pub fn print_table(name: &str, versions: &[&dyn Calls], rows: &[Row]) {
    println!("{name}: medians of up to {ROUNDS} rounds, in nanoseconds a call");
    println!("{:<20}{:>5}{:>8}{:>12}{:>12}{:>8}", "call", "n", "records", "library", "tuned", "ratio");
    for n in NODES {
        for (records, batch) in SIZES {
            for &(name, lend, call) in rows {
                let mut rng = Rng::new(SEED);
                let mut board = Board::random(&mut rng, n, LINKS);
                let mut pairs = board.pairs(true);
                rng.shuffle(&mut pairs);
                lend(&mut rng, &mut board, &pairs, records);
                let case = Case { name, boards: vec![board; batch], call };
                print_line(name, n, records, &time_within(&case, versions, LIMIT));
            }
        }
    }
}
