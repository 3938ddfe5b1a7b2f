//! The calls of a survey, on surveys of many records.

use super::board::Board;
use super::files::{print_table, Row};
use crate::calls::Calls;
use crate::plain::survey::Record;
use crate::record_pairs::ends;
use crate::rng::Rng;
use crate::surveys::bytes;

/// About half of all strengths reach it.
const THRESHOLD: u64 = 128;

pub const ROWS: [Row; 2] =
    [("sheet of a survey", lend, Board::survey_write), ("record that counts", lend, Board::survey_position)];

/// A survey of any numbers and strengths, read at the threshold, and asked about the pair of one of its records.
fn lend(rng: &mut Rng, board: &mut Board, pairs: &[(usize, usize)], records: usize) {
    let mut one = |_| {
        let pair = rng.pick(pairs);
        let (a, b) = ends(rng, pair);
        Record { a, b, number: rng.next() as u16, strength: rng.next() as u8 }
    };
    let records: Vec<Record> = (0..records).map(&mut one).collect();
    let asked = rng.pick(&records);
    (board.a, board.b) = (asked.a.into(), asked.b.into());
    board.survey = records.into_iter().flat_map(bytes).collect();
    board.threshold = THRESHOLD;
}

/// Prints the table.
pub fn run(versions: &[&dyn Calls]) {
    print_table("surveys", versions, &ROWS);
}
