//! What a load of a timed sheet at a minute begins: its ceilings, and the calls that follow it.

use super::{timed, Board, Hours};
use crate::calls::Calls;
use crate::memory::Kind::{self, Add, List, ListEntries, Remove, ScheduleLoad};
use crate::plain::limits::UNIT;

/// Four posts: a star around 0 until minute 10, then the ring 0, 1, 2, 3 until minute 20.
const HOURS: [Hours; 5] = [(0, 1, 0, 20), (2, 0, 0, 10), (0, 3, 0, 20), (2, 1, 10, 20), (3, 2, 10, 20)];

/// A call that follows the load, its posts, and the answer that is due.
type Step = (Kind, usize, usize, u64);

/// A case's name, the minute, the calls that follow, and the figures and the marks byte that they leave.
type Case = (&'static str, u16, &'static [Step], [u64; 4], u8);

const CASES: [Case; 8] = [
    ("the ceilings of the star at its last minute", 9, &[], [3 * UNIT, 0, 0, 0], 0xF0),
    ("the ceilings of the ring at its first minute", 10, &[], [UNIT; 4], 0xF0),
    ("no links at the minute that all of them close, all open", 20, &[], [0; 4], 0xF0),
    ("a list of two works out two posts of the star", 9, &[(List, 0, 0, 2)], [3 * UNIT, 0, 0, 0], 0x30),
    ("a list of two works out two posts of the ring", 10, &[(List, 0, 0, 2)], [UNIT; 4], 0x30),
    (
        "a second list, of records, works out nothing more",
        10,
        &[(List, 0, 0, 2), (ListEntries, 0, 0, 0)],
        [UNIT; 4],
        0x30,
    ),
    (
        "an add of a link that opens later is accepted, of one that is open refusal 6",
        9,
        &[(Add, 0, 2, 6), (Add, 1, 2, 0)],
        [2 * UNIT, 0, 0, 0],
        0xF0,
    ),
    (
        "a remove of a link that is open is accepted, of one that is closed refusal 7",
        10,
        &[(Remove, 0, 2, 7), (Remove, 0, 1, 0)],
        [0, 0, UNIT, UNIT],
        0xF0,
    ),
];

/// Runs every case on a version and prints its name.
pub fn run(version: &dyn Calls) -> Result<(), String> {
    for (name, minute, steps, figures, marks) in CASES {
        let mut board = Board::new(version, 4);
        board.falsify();
        board.minute = minute;
        board.lent.schedule = timed(4, &HOURS);
        board.lent.entries = vec![7; 4];
        let load = [(ScheduleLoad, 0, 0, 0)];
        let answers: Vec<_> = load.iter().chain(steps).map(|&(kind, a, b, _)| board.answer(kind, a, b)).collect();
        let due: Vec<_> = load.iter().chain(steps).map(|&(.., due)| due).collect();
        let found = (answers, board.figures(), board.lent.marks[0]);
        let due = (due, figures.to_vec(), marks);
        if found != due {
            return Err(format!("case `{name}` on {}: {found:?}, due {due:?}", version.name()));
        }
        println!("case on {}: load at a minute: {name}: ok", version.name());
    }
    Ok(())
}
