//! The sheets of surveys at a threshold, and the positions of the records that count.

use super::{long_surveys, sheet, survey, Board, Heard};
use crate::calls::Calls;
use crate::memory::{Kind, Memory};

/// The answer where a pair has no record.
pub const NONE: u64 = 1 << 63;

/// A pair, and the position that is due for it.
pub type Counting = (usize, usize, u64);

/// A case's name, the posts, the records, the link bytes that are due at each threshold, and the positions.
type Case = (&'static str, usize, &'static [Heard], &'static [(u64, &'static [u8])], &'static [Counting]);

/// The bits of small boards are, in order, the pairs 0–1, 0–2, 1–2, 0–3, 1–3, 2–3.
const CASES: [Case; 28] = [
    (
        "a strength that is the threshold links, a lower one does not",
        2,
        &[(0, 1, 7, 100)],
        &[(0, &[0x80]), (1, &[0x80]), (99, &[0x80]), (100, &[0x80]), (101, &[0]), (255, &[0]), (256, &[0])],
        &[(0, 1, 0)],
    ),
    (
        "the highest survey number counts in the middle of the file",
        2,
        &[(0, 1, 3, 200), (0, 1, 9, 50), (0, 1, 5, 255)],
        &[(50, &[0x80]), (51, &[0]), (200, &[0]), (255, &[0])],
        &[(0, 1, 1)],
    ),
    (
        "the highest survey number counts as the first of the file",
        2,
        &[(0, 1, 9, 50), (0, 1, 3, 200), (0, 1, 5, 255)],
        &[(50, &[0x80]), (51, &[0]), (200, &[0]), (255, &[0])],
        &[(0, 1, 0)],
    ),
    (
        "the highest survey number counts as the last of the file",
        2,
        &[(0, 1, 3, 20), (0, 1, 5, 25), (0, 1, 9, 50)],
        &[(25, &[0x80]), (26, &[0x80]), (50, &[0x80]), (51, &[0])],
        &[(0, 1, 2)],
    ),
    (
        "of equal numbers the later in the file counts, though it is weaker",
        2,
        &[(0, 1, 4, 200), (0, 1, 4, 100)],
        &[(100, &[0x80]), (101, &[0]), (200, &[0])],
        &[(0, 1, 1)],
    ),
    (
        "of equal numbers the later in the file counts, though it is stronger",
        2,
        &[(0, 1, 4, 100), (0, 1, 4, 200)],
        &[(100, &[0x80]), (101, &[0x80]), (200, &[0x80]), (201, &[0])],
        &[(0, 1, 1)],
    ),
    (
        "the last of three equal numbers, and a lower number after it",
        2,
        &[(0, 1, 4, 10), (0, 1, 4, 20), (0, 1, 4, 30), (0, 1, 3, 250)],
        &[(30, &[0x80]), (31, &[0]), (250, &[0])],
        &[(0, 1, 2)],
    ),
    (
        "a lower number between two equal ones",
        2,
        &[(0, 1, 4, 250), (0, 1, 3, 255), (0, 1, 4, 30), (0, 1, 0, 255)],
        &[(30, &[0x80]), (31, &[0]), (255, &[0])],
        &[(0, 1, 2)],
    ),
    (
        "the same record twice",
        3,
        &[(1, 2, 4, 9), (1, 2, 4, 9)],
        &[(9, &[0x20]), (10, &[0])],
        &[(1, 2, 1), (0, 1, NONE), (0, 2, NONE)],
    ),
    (
        "a strength of 0 supersedes one of 255",
        2,
        &[(0, 1, 2, 255), (0, 1, 3, 0)],
        &[(0, &[0x80]), (1, &[0]), (255, &[0])],
        &[(0, 1, 1)],
    ),
    (
        "b, a is the pair a, b: the higher number in the other order",
        4,
        &[(1, 2, 5, 100), (2, 1, 6, 20)],
        &[(20, &[0x20]), (21, &[0]), (100, &[0])],
        &[(1, 2, 1), (0, 1, NONE), (0, 2, NONE), (2, 3, NONE)],
    ),
    (
        "b, a is the pair a, b: the higher number first, in the other order",
        4,
        &[(3, 1, 6, 20), (1, 3, 5, 100)],
        &[(20, &[0x08]), (21, &[0]), (100, &[0])],
        &[(1, 3, 0)],
    ),
    (
        "b, a is the pair a, b: of equal numbers the later in the file",
        4,
        &[(3, 2, 5, 40), (2, 3, 5, 80), (3, 2, 5, 60)],
        &[(60, &[0x04]), (61, &[0]), (80, &[0])],
        &[(2, 3, 2)],
    ),
    (
        "every pair has a record of its own that counts",
        4,
        &[(0, 1, 1, 50), (0, 2, 9, 10), (1, 0, 2, 60), (2, 3, 1, 255), (0, 2, 8, 200), (3, 2, 1, 254)],
        &[(0, &[0xC4]), (10, &[0xC4]), (11, &[0x84]), (60, &[0x84]), (61, &[0x04]), (254, &[0x04]), (255, &[0])],
        &[(0, 1, 2), (0, 2, 1), (2, 3, 5), (1, 2, NONE), (0, 3, NONE), (1, 3, NONE)],
    ),
    (
        "a high number of one pair supersedes no other pair",
        3,
        &[(0, 1, 65_535, 0), (0, 2, 1, 90), (1, 2, 0, 80), (1, 0, 65_535, 1)],
        &[(0, &[0xE0]), (1, &[0xE0]), (2, &[0x60]), (80, &[0x60]), (81, &[0x40]), (91, &[0])],
        &[(0, 1, 3), (0, 2, 1), (1, 2, 2)],
    ),
    ("survey number 0 counts", 2, &[(0, 1, 0, 30)], &[(0, &[0x80]), (30, &[0x80]), (31, &[0])], &[(0, 1, 0)]),
    (
        "survey numbers have two bytes, the more significant one first",
        3,
        &[(0, 1, 0x0100, 10), (0, 1, 0x00FF, 200), (0, 2, 0x01FF, 200), (0, 2, 0x0200, 10)],
        &[(10, &[0xC0]), (11, &[0])],
        &[(0, 1, 0), (0, 2, 3)],
    ),
    (
        "32,768 is above 32,767, and 65,535 above 0",
        3,
        &[(0, 1, 32_768, 10), (0, 1, 32_767, 200), (0, 2, 65_535, 20), (0, 2, 0, 200), (0, 2, 65_534, 200)],
        &[(10, &[0xC0]), (11, &[0x40]), (21, &[0])],
        &[(0, 1, 0), (0, 2, 2)],
    ),
    (
        "strengths above 127",
        4,
        &[(0, 1, 1, 127), (0, 2, 1, 128), (1, 2, 1, 254), (0, 3, 1, 255)],
        &[(127, &[0xF0]), (128, &[0x70]), (129, &[0x30]), (254, &[0x30]), (255, &[0x10]), (256, &[0])],
        &[(0, 1, 0), (0, 2, 1), (1, 2, 2), (0, 3, 3)],
    ),
    (
        "a threshold above 255 links nothing, whatever its lower bits",
        4,
        &[(0, 1, 1, 255), (0, 2, 1, 0), (1, 2, 1, 7)],
        &[
            (256, &[0]),
            (257, &[0]),
            (511, &[0]),
            (65_536, &[0]),
            (1 << 32, &[0]),
            ((1 << 32) + 7, &[0]),
            (1 << 63, &[0]),
            (u64::MAX, &[0]),
        ],
        &[(0, 1, 0), (0, 2, 1), (1, 2, 2), (0, 3, NONE)],
    ),
    (
        "a threshold of 0 links every pair that has a record, and no other",
        4,
        &[(0, 1, 1, 0), (3, 2, 0, 0)],
        &[(0, &[0x84]), (1, &[0])],
        &[(0, 1, 0), (2, 3, 1), (0, 2, NONE), (1, 2, NONE), (0, 3, NONE), (1, 3, NONE)],
    ),
    (
        "an empty survey links nothing and has no record for a pair",
        4,
        &[],
        &[(0, &[0]), (1, &[0]), (255, &[0]), (u64::MAX, &[0])],
        &[(0, 1, NONE), (0, 2, NONE), (1, 2, NONE), (0, 3, NONE), (1, 3, NONE), (2, 3, NONE)],
    ),
    ("an empty survey of one post", 1, &[], &[(0, &[]), (120, &[]), (256, &[])], &[]),
    ("every link of two posts, 7 spare bits", 2, &[(1, 0, 3, 4)], &[(4, &[0b1000_0000])], &[(0, 1, 0)]),
    (
        "every link of three posts, 5 spare bits",
        3,
        &[(1, 2, 0, 9), (2, 0, 0, 9), (0, 1, 0, 9)],
        &[(9, &[0b1110_0000]), (10, &[0])],
        &[(0, 1, 2), (0, 2, 1), (1, 2, 0)],
    ),
    (
        "every link of four posts, 2 spare bits",
        4,
        &[(0, 1, 0, 9), (2, 0, 0, 9), (1, 2, 0, 9), (0, 3, 0, 9), (1, 3, 0, 9), (2, 3, 0, 9)],
        &[(9, &[0b1111_1100]), (10, &[0])],
        &[(0, 1, 0), (2, 3, 5)],
    ),
    (
        "a link that is measured away and back",
        3,
        &[(0, 1, 1, 200), (0, 1, 2, 10), (0, 1, 3, 200), (0, 2, 1, 10), (0, 2, 2, 200), (0, 2, 3, 10)],
        &[(100, &[0x80]), (10, &[0xC0]), (201, &[0])],
        &[(0, 1, 2), (0, 2, 5), (1, 2, NONE)],
    ),
    (
        "a measurement that is handed in late does not count",
        3,
        &[(0, 1, 8, 60), (1, 2, 8, 200), (1, 0, 7, 255), (2, 1, 7, 0)],
        &[(60, &[0xA0]), (61, &[0x20]), (201, &[0])],
        &[(0, 1, 0), (1, 2, 1), (0, 2, NONE)],
    ),
];

/// The sheet at the threshold, written over other bytes; an error where that is refused, makes another sheet or alters
/// anything else.
fn check_write(board: &mut Board, due: &[u8]) -> Result<(), String> {
    for other in [0xFF, 0x5A, 0x00] {
        board.lent.snapshot = vec![other; due.len()];
        let due = Memory { snapshot: due.to_vec(), ..board.lent.clone() };
        let refusal = board.call(Kind::SurveyWrite, 0, 0);
        if refusal != 0 {
            return Err(format!("the sheet at threshold {} is refusal {refusal}", board.threshold));
        }
        board.lent.difference(&due).map_or(Ok(()), |what| Err(format!("threshold {}: {what}", board.threshold)))?;
    }
    Ok(())
}

/// The position for a pair in either order; an error where it is another, or anything alters.
fn check_position(board: &mut Board, (a, b, due): Counting) -> Result<(), String> {
    for (a, b) in [(a, b), (b, a)] {
        let before = board.lent.clone();
        let found = board.answer(Kind::SurveyPosition, a, b);
        if found != due {
            return Err(format!("the position for {a} and {b}: {found}, due {due}"));
        }
        board.lent.difference(&before).map_or(Ok(()), Err)?;
    }
    Ok(())
}

/// Runs a case on a version and prints its name.
fn run_case(
    version: &dyn Calls,
    name: &str,
    (n, survey): (usize, Vec<u8>),
    sheets: &[(u64, Vec<u8>)],
    positions: &[Counting],
) -> Result<(), String> {
    let fails = |what| format!("case `{name}` on {}, {what}", version.name());
    let mut board = Board::new(version, n);
    board.falsify();
    board.lent.survey = survey;
    for (threshold, sheet) in sheets {
        board.threshold = *threshold;
        check_write(&mut board, sheet).map_err(fails)?;
    }
    for &counting in positions {
        check_position(&mut board, counting).map_err(fails)?;
    }
    println!("case on {}: survey: {name}: ok", version.name());
    Ok(())
}

/// Runs every case on a version and prints its name.
pub fn run(version: &dyn Calls) -> Result<(), String> {
    for (name, n, records, due, positions) in CASES {
        let sheets: Vec<_> = due.iter().map(|&(threshold, links)| (threshold, sheet(n, links))).collect();
        run_case(version, name, (n, survey(records)), &sheets, positions)?;
    }
    for (name, n, survey, due, positions) in long_surveys::CASES {
        run_case(version, name, (n, survey()), &due(), positions)?;
    }
    Ok(())
}
