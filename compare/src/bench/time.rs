//! How a call is timed.

use super::board::Board;
use super::cases::Case;
use crate::calls::Calls;
use std::hint::black_box;
use std::time::{Duration, Instant};

/// Rounds of which the median is taken.
pub const ROUNDS: usize = 41;
/// The fewest rounds, however long they take.
const FEWEST_ROUNDS: usize = 3;
/// Calls that are timed together in a round.
pub const BATCH: usize = 32;

fn median(mut times: Vec<f64>) -> f64 {
    times.sort_by(f64::total_cmp);
    times[times.len() / 2]
}

/// Nanoseconds of a call, for each version; their rounds alternate.
pub fn time(case: &Case, versions: &[&dyn Calls]) -> Vec<f64> {
    time_within(case, versions, Duration::MAX)
}

/// The same, with fewer rounds, but a few, where `ROUNDS` of them take longer than this.
pub fn time_within(case: &Case, versions: &[&dyn Calls], limit: Duration) -> Vec<f64> {
    let mut times = vec![Vec::new(); versions.len()];
    let begun = Instant::now();
    for round in 0..ROUNDS {
        if round >= FEWEST_ROUNDS && begun.elapsed() > limit {
            break;
        }
        for (version, times) in versions.iter().zip(&mut times) {
            let mut boards = case.boards.clone();
            let start = Instant::now();
            for board in &mut boards {
                let answer = (case.call)(black_box(board), *version);
                black_box(answer);
            }
            times.push(start.elapsed().as_nanos() as f64 / boards.len() as f64);
        }
    }
    times.into_iter().map(median).collect()
}

/// Nanoseconds of scoring every node of a board, for each version.
pub fn time_whole(board: &Board, versions: &[&dyn Calls]) -> Vec<f64> {
    let boards = (0..board.n).map(|p| Board { a: p as u64, ..board.clone() }).collect();
    let case = Case { name: "score", boards, call: Board::score };
    time(&case, versions).iter().map(|nanoseconds| nanoseconds * board.n as f64).collect()
}
