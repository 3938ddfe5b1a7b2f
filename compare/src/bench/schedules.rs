//! The calls of a schedule, on schedules of many records.

use super::board::Board;
use super::files::{print_table, Row};
use crate::calls::Calls;
use crate::plain::schedule::Record;
use crate::record_pairs::ends;
use crate::rng::Rng;
use crate::schedules::bytes;

/// The minutes of the tour week.
const WEEK: usize = 10_080;
/// The minute at which schedules are read.
const MINUTE: usize = WEEK / 2;
/// About how many records a pair has that is open until late.
const PIECES: usize = 8;

pub const ROWS: [Row; 5] = [
    ("sheet at a minute", |rng, board, pairs, count| lend(board, spread(rng, pairs, count)), Board::schedule_write),
    ("next change, early", |rng, board, pairs, count| lend(board, spread(rng, pairs, count)), Board::schedule_next),
    ("next change, late", |rng, board, pairs, count| lend(board, joined(rng, pairs, count)), Board::schedule_next),
    ("next change, worst", |rng, board, pairs, count| lend(board, reversed(rng, pairs, count)), Board::schedule_next),
    ("load at a minute", |rng, board, pairs, count| lend(board, spread(rng, pairs, count)), Board::schedule_load),
];

/// The schedule of these records, read at the minute.
fn lend(board: &mut Board, records: Vec<Record>) {
    board.schedule.extend(records.into_iter().flat_map(bytes));
    board.minute = MINUTE as u16;
}

/// A record of a pair, in either order.
fn record(rng: &mut Rng, pair: (usize, usize), from: usize, to: usize) -> Record {
    let (a, b) = ends(rng, pair);
    Record { a, b, from: from as u16, to: to as u16 }
}

/// Hours over the week, of up to half of it: soon after any minute something changes.
fn spread(rng: &mut Rng, pairs: &[(usize, usize)], records: usize) -> Vec<Record> {
    let mut one = |_| {
        let (pair, from) = (rng.pick(pairs), rng.below(WEEK));
        let to = from + rng.between(1, WEEK / 2);
        record(rng, pair, from, to)
    };
    (0..records).map(&mut one).collect()
}

/// Hours of which each but a pair's last overlaps the pair's next: nothing changes until late, though most hours end.
fn joined(rng: &mut Rng, pairs: &[(usize, usize)], records: usize) -> Vec<Record> {
    let count = pairs.len().min(records / PIECES);
    let pieces = records / count;
    let start = |piece: usize| 65_000 * piece / pieces;
    let one = |i: usize| {
        let piece = i / count % pieces;
        record(rng, pairs[i % count], start(piece), start(piece + 1) + 30)
    };
    let mut all: Vec<Record> = (0..records).map(one).collect();
    rng.shuffle(&mut all);
    all
}

/// Hours of one pair that touch, the last first: passes over the file join one at a time.
fn reversed(rng: &mut Rng, pairs: &[(usize, usize)], records: usize) -> Vec<Record> {
    let start = |piece: usize| 65_000 * piece / records;
    (0..records).rev().map(|piece| record(rng, pairs[0], start(piece), start(piece + 1))).collect()
}

/// Prints the table.
pub fn run(versions: &[&dyn Calls]) {
    print_table("schedules", versions, &ROWS);
}
