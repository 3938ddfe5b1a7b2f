//! The ordinary sheets of timed sheets at a minute, and what a load at that minute leaves.

use super::sheets::{sparse, STAR_OF_40};
use super::{all_links, links, sheet, timed, Board, Hours};
use crate::calls::Calls;
use crate::memory::{Kind, Memory};

/// A case's name, the posts, the records, and the link bytes that are due at each minute.
type Case = (&'static str, usize, &'static [Hours], &'static [(u16, &'static [u8])]);

/// The bits of small boards are, in order, the pairs 0–1, 0–2, 1–2, 0–3, 1–3, 2–3.
const CASES: [Case; 19] = [
    (
        "a link exists from its from minute on, and not at its to minute",
        2,
        &[(0, 1, 10, 20)],
        &[(0, &[0]), (9, &[0]), (10, &[0x80]), (19, &[0x80]), (20, &[0]), (21, &[0]), (65_535, &[0])],
    ),
    ("hours of one minute", 2, &[(0, 1, 10, 11)], &[(9, &[0]), (10, &[0x80]), (11, &[0])]),
    (
        "records name a pair in either order",
        4,
        &[(2, 1, 10, 20), (0, 3, 10, 20), (3, 1, 15, 20)],
        &[(9, &[0]), (10, &[0b0011_0000]), (15, &[0b0011_1000]), (20, &[0])],
    ),
    (
        "a pair of which only the second record is open",
        3,
        &[(0, 1, 0, 10), (0, 1, 20, 30)],
        &[(5, &[0x80]), (10, &[0]), (19, &[0]), (20, &[0x80]), (29, &[0x80]), (30, &[0])],
    ),
    (
        "a pair of which only the first record is open, the later hours first in the file",
        3,
        &[(0, 1, 20, 30), (1, 0, 0, 10)],
        &[(5, &[0x80]), (10, &[0]), (19, &[0]), (20, &[0x80]), (29, &[0x80]), (30, &[0])],
    ),
    (
        "hours that overlap",
        3,
        &[(1, 2, 0, 15), (2, 1, 10, 20)],
        &[(0, &[0x20]), (9, &[0x20]), (12, &[0x20]), (15, &[0x20]), (19, &[0x20]), (20, &[0])],
    ),
    (
        "hours within others",
        3,
        &[(0, 2, 0, 30), (0, 2, 10, 20)],
        &[(5, &[0x40]), (15, &[0x40]), (20, &[0x40]), (29, &[0x40]), (30, &[0])],
    ),
    (
        "hours that touch",
        2,
        &[(0, 1, 0, 10), (0, 1, 10, 20)],
        &[(9, &[0x80]), (10, &[0x80]), (19, &[0x80]), (20, &[0])],
    ),
    ("a record that is there twice", 2, &[(0, 1, 5, 9), (0, 1, 5, 9)], &[(4, &[0]), (5, &[0x80]), (9, &[0])]),
    (
        "pairs with hours of their own",
        4,
        &[(0, 1, 0, 30), (0, 2, 10, 20), (0, 3, 15, 40), (2, 3, 20, 25)],
        &[(0, &[0x80]), (10, &[0xC0]), (15, &[0xD0]), (20, &[0x94]), (25, &[0x90]), (30, &[0x10]), (40, &[0])],
    ),
    ("no records", 4, &[], &[(0, &[0]), (600, &[0]), (65_535, &[0])]),
    ("one post", 1, &[], &[(0, &[]), (65_535, &[])]),
    ("every link of two posts, 7 spare bits", 2, &[(1, 0, 3, 4)], &[(3, &[0b1000_0000])]),
    (
        "every link of three posts, 5 spare bits",
        3,
        &[(0, 1, 0, 9), (2, 0, 0, 9), (1, 2, 0, 9)],
        &[(8, &[0b1110_0000]), (9, &[0])],
    ),
    (
        "every link of four posts, 2 spare bits",
        4,
        &[(0, 1, 0, 9), (2, 0, 0, 9), (1, 2, 0, 9), (0, 3, 0, 9), (1, 3, 0, 9), (2, 3, 0, 9)],
        &[(8, &[0b1111_1100]), (9, &[0])],
    ),
    (
        "the largest hours, and nothing at the last minute",
        2,
        &[(0, 1, 0, 65_535)],
        &[(0, &[0x80]), (65_534, &[0x80]), (65_535, &[0])],
    ),
    ("the last hours", 2, &[(0, 1, 65_534, 65_535)], &[(65_533, &[0]), (65_534, &[0x80]), (65_535, &[0])]),
    (
        "minutes of two bytes",
        2,
        &[(0, 1, 255, 256), (0, 1, 0x1234, 0x3412)],
        &[
            (254, &[0]),
            (255, &[0x80]),
            (256, &[0]),
            (0x1233, &[0]),
            (0x1234, &[0x80]),
            (0x3411, &[0x80]),
            (0x3412, &[0]),
        ],
    ),
    (
        "pairs of which each opens where the one before it closes",
        3,
        &[(0, 1, 0, 10), (0, 2, 10, 20), (1, 2, 20, 30)],
        &[(9, &[0x80]), (10, &[0x40]), (19, &[0x40]), (20, &[0x20]), (30, &[0])],
    ),
];

/// A timed sheet of four posts by hand: 0–1 from 0 to 256, and 2–1 from 1 to 65,535.
const BY_HAND: [u8; 13] = [3, 0, 1, 0x00, 0x00, 0x01, 0x00, 2, 1, 0x00, 0x01, 0xFF, 0xFF];

/// Post 0 of 42 linked to the posts from 1 to `last`, from minute 10 to 20.
fn star(last: u8) -> Vec<Hours> {
    (1..=last).map(|q| (0, q, 10, 20)).collect()
}

/// A case of which the timed sheet is long or given as bytes: its name, the timed sheet, and the sheet that is due at
/// each minute.
type Long = (&'static str, fn() -> Vec<u8>, fn() -> Vec<(u16, Vec<u8>)>);

const LONG: [Long; 6] = [
    (
        "a timed sheet packed by hand",
        || BY_HAND.to_vec(),
        || {
            [(0, 0x80), (1, 0xA0), (255, 0xA0), (256, 0x20), (65_534, 0x20), (65_535, 0)]
                .map(|(t, l)| (t, vec![3, l]))
                .into()
        },
    ),
    (
        "256 posts, the last two among those linked",
        || timed(256, &[(1, 0, 0, 300), (128, 127, 5, 300), (0, 255, 7, 300), (255, 254, 300, 301)]),
        || {
            let some = [(0, 255), (1, 0x80), (1_032, 0x01), (4_049, 0x40)];
            vec![(299, sparse(4_081, &some)), (300, sparse(4_081, &[(0, 255), (4_080, 0x01)]))]
        },
    ),
    ("40 links of a post at the minute", || timed(42, &star(40)), || vec![(10, sheet(42, &STAR_OF_40.concat()))]),
    (
        "40 links of a post at the minute and two records of one of them",
        || timed(42, &[star(40), vec![(40, 0, 0, 30), (0, 1, 10, 11)]].concat()),
        || vec![(10, sheet(42, &STAR_OF_40.concat()))],
    ),
    (
        "40 links of a post at the minute, and another where they close",
        || timed(42, &[star(40), vec![(0, 41, 20, 30), (41, 0, 9, 10)]].concat()),
        || {
            let last = sheet(42, &links(42, &[(0, 41)]));
            vec![(9, last.clone()), (10, sheet(42, &STAR_OF_40.concat())), (20, last)]
        },
    ),
    (
        "41 links of a post and of all posts, each before or after the minute",
        || {
            let all = all_links(42).into_iter().map(|(a, b)| (a as u8, b as u8, 300, 400));
            timed(42, &[star(41), all.collect(), vec![(7, 8, 25, 30)]].concat())
        },
        || [9, 20, 299, 400].map(|t| (t, sheet(42, &[0; 108]))).into_iter().chain([(27, seven_and_eight())]).collect(),
    ),
];

/// The sheet of 42 posts on which 7 and 8 are linked: bit 28 + 7.
fn seven_and_eight() -> Vec<u8> {
    sparse(109, &[(0, 41), (5, 0x10)])
}

/// The sheet at a minute, written over other bytes; an error where that is refused, makes another sheet or alters
/// anything else.
fn check_write(board: &mut Board, due: &[u8]) -> Result<(), String> {
    for other in [0xFF, 0x5A, 0x00] {
        board.lent.snapshot = vec![other; due.len()];
        let due = Memory { snapshot: due.to_vec(), ..board.lent.clone() };
        let refusal = board.call(Kind::ScheduleWrite, 0, 0);
        if refusal != 0 {
            return Err(format!("the sheet at minute {} is refusal {refusal}", board.minute));
        }
        board.lent.difference(&due).map_or(Ok(()), Err)?;
    }
    Ok(())
}

/// A load at a minute; an error where it is refused or leaves anything else than a load of the sheet leaves, then or
/// after a list of every post.
fn check_load(board: &mut Board, due: &[u8]) -> Result<(), String> {
    board.falsify();
    board.lent.edges.fill(255);
    board.lent.snapshot = due.to_vec();
    let mut other = Board { lent: board.lent.clone(), ..*board };
    let refusals = [board.call(Kind::ScheduleLoad, 0, 0), other.call(Kind::Load, 0, 0)];
    if refusals != [0, 0] {
        return Err(format!("the loads at minute {} are refusals {refusals:?}", board.minute));
    }
    board.lent.difference(&Memory { edges: due[1..].to_vec(), ..board.lent.clone() }).map_or(Ok(()), Err)?;
    board.lent.difference(&other.lent).map_or(Ok(()), Err)?;
    if board.lists(board.n) != other.lists(board.n) {
        return Err(format!("lists after the loads at minute {} answer differently", board.minute));
    }
    board.lent.difference(&other.lent).map_or(Ok(()), Err)
}

/// Runs a case on a version and prints its name.
fn run_case(version: &dyn Calls, name: &str, schedule: &[u8], due: &[(u16, Vec<u8>)]) -> Result<(), String> {
    for (minute, sheet) in due {
        let mut board = Board::new(version, usize::from(schedule[0]) + 1);
        board.lent.schedule = schedule.to_vec();
        board.minute = *minute;
        let fails = |what| format!("case `{name}` on {}, minute {minute}: {what}", version.name());
        check_write(&mut board, sheet).map_err(fails)?;
        check_load(&mut board, sheet).map_err(fails)?;
    }
    println!("case on {}: sheet at a minute: {name}: ok", version.name());
    Ok(())
}

/// Runs every case on a version and prints its name.
pub fn run(version: &dyn Calls) -> Result<(), String> {
    for (name, n, records, due) in CASES {
        let sheets: Vec<_> = due.iter().map(|&(minute, links)| (minute, sheet(n, links))).collect();
        run_case(version, name, &timed(n, records), &sheets)?;
    }
    for (name, schedule, due) in LONG {
        run_case(version, name, &schedule(), &due())?;
    }
    Ok(())
}
