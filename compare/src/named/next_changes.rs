//! The first minute after a minute at which any link of a timed sheet differs.

use super::{all_links, timed, Board, Hours};
use crate::calls::Calls;
use crate::memory::Kind;

/// The answer where no later minute differs.
const NONE: u64 = 65_536;

/// A case's name, the posts, the records, and the next change that is due after each minute.
type Case = (&'static str, usize, &'static [Hours], &'static [(u16, u64)]);

const CASES: [Case; 26] = [
    ("no records, no change", 4, &[], &[(0, NONE), (600, NONE), (65_534, NONE), (65_535, NONE)]),
    ("one post, no change", 1, &[], &[(0, NONE), (65_535, NONE)]),
    ("a link that opens is a change at its from minute", 2, &[(0, 1, 10, 20)], &[(0, 10), (8, 10), (9, 10)]),
    ("a link that closes is a change at its to minute", 2, &[(0, 1, 10, 20)], &[(10, 20), (15, 20), (19, 20)]),
    ("the minute itself is no change, nor what came before", 2, &[(0, 1, 10, 20)], &[(20, NONE), (21, NONE)]),
    ("hours of one minute", 2, &[(1, 0, 10, 11)], &[(0, 10), (9, 10), (10, 11), (11, NONE)]),
    (
        "hours that touch give no change where they do",
        2,
        &[(0, 1, 0, 10), (0, 1, 10, 20)],
        &[(0, 20), (9, 20), (10, 20), (19, 20), (20, NONE)],
    ),
    (
        "hours that touch, the later ones first and the posts in the other order",
        3,
        &[(2, 1, 10, 20), (1, 2, 5, 10)],
        &[(0, 5), (5, 20), (9, 20), (10, 20)],
    ),
    (
        "hours that overlap give no change where one closes or the other opens",
        2,
        &[(0, 1, 0, 12), (1, 0, 8, 20)],
        &[(0, 20), (7, 20), (8, 20), (11, 20), (12, 20)],
    ),
    (
        "hours within others give no change",
        2,
        &[(0, 1, 0, 30), (0, 1, 10, 20)],
        &[(0, 30), (9, 30), (15, 30), (20, 30)],
    ),
    ("a record that is there twice", 2, &[(0, 1, 5, 9), (0, 1, 5, 9)], &[(0, 5), (5, 9), (9, NONE)]),
    (
        "a gap between hours",
        2,
        &[(0, 1, 0, 10), (0, 1, 20, 30)],
        &[(0, 10), (9, 10), (10, 20), (15, 20), (19, 20), (20, 30), (30, NONE)],
    ),
    ("a gap of one minute", 2, &[(0, 1, 0, 10), (0, 1, 11, 20)], &[(5, 10), (9, 10), (10, 11), (11, 20)]),
    (
        "hours that join one upon the other, against the order of the file",
        2,
        &[(0, 1, 30, 40), (1, 0, 20, 30), (0, 1, 10, 20), (1, 0, 0, 10)],
        &[(0, 40), (10, 40), (25, 40), (39, 40), (40, NONE)],
    ),
    (
        "hours that join up to a gap",
        2,
        &[(0, 1, 41, 50), (0, 1, 18, 40), (0, 1, 0, 9), (0, 1, 9, 20)],
        &[(0, 40), (19, 40), (40, 41), (41, 50)],
    ),
    (
        "a pair that closes where another opens is a change",
        3,
        &[(0, 1, 0, 10), (0, 2, 10, 20)],
        &[(0, 10), (9, 10), (10, 20)],
    ),
    (
        "two pairs that change places again and again",
        3,
        &[(0, 1, 0, 10), (0, 2, 10, 20), (0, 1, 20, 30), (2, 0, 30, 40)],
        &[(0, 10), (10, 20), (20, 30), (30, 40), (40, NONE)],
    ),
    (
        "a pair that goes on under another record is none, and a later change of another pair is found",
        3,
        &[(0, 1, 0, 10), (1, 0, 10, 20), (1, 2, 0, 15)],
        &[(0, 15), (9, 15), (10, 15), (15, 20)],
    ),
    ("the first of two closings", 3, &[(0, 1, 0, 50), (0, 2, 0, 10)], &[(0, 10), (5, 10), (10, 50)]),
    ("an opening before every closing", 3, &[(0, 1, 0, 50), (0, 2, 10, 60)], &[(0, 10), (9, 10), (10, 50), (50, 60)]),
    ("a closing before every opening", 3, &[(0, 1, 0, 10), (0, 2, 30, 60)], &[(0, 10), (10, 30), (30, 60)]),
    ("hours that are over do not count", 3, &[(0, 1, 0, 5), (0, 2, 30, 40)], &[(5, 30), (10, 30), (30, 40)]),
    ("minutes of two bytes", 2, &[(0, 1, 256, 512)], &[(0, 256), (255, 256), (256, 512), (300, 512), (512, NONE)]),
    (
        "the last change possible is at 65,535, and none comes after",
        2,
        &[(0, 1, 0, 65_535)],
        &[(0, 65_535), (65_534, 65_535), (65_535, NONE)],
    ),
    (
        "the last hours",
        2,
        &[(0, 1, 65_534, 65_535)],
        &[(0, 65_534), (65_533, 65_534), (65_534, 65_535), (65_535, NONE)],
    ),
    ("the last two of 256 posts", 256, &[(255, 254, 1_000, 2_000)], &[(0, 1_000), (1_000, 2_000), (2_000, NONE)]),
];

/// A case of which the timed sheet is long: its name, the timed sheet, and the next change due after each minute.
type Long = (&'static str, fn() -> Vec<u8>, &'static [(u16, u64)]);

const LONG: [Long; 3] = [
    (
        "a thousand hours that touch, the last one first",
        || timed(5, &(0..1_000).rev().map(|i| (1, 3, 60 * i, 60 * i + 60)).collect::<Vec<_>>()),
        &[(0, 60_000), (59, 60_000), (30_000, 60_000), (59_999, 60_000), (60_000, NONE)],
    ),
    (
        "a crowded post is none of its concern, now or later",
        || timed(42, &(1..=41).map(|q| (0, q, 10, 20)).collect::<Vec<_>>()),
        &[(0, 10), (10, 20), (19, 20), (20, NONE)],
    ),
    (
        "every link of 256 posts, one of them a minute longer",
        || {
            let end = |a: usize, b: usize| if (a, b) == (200, 100) { 21 } else { 20 };
            let hours = |(a, b): (usize, usize)| (a as u8, b as u8, 10, end(a, b));
            timed(256, &all_links(256).into_iter().map(hours).collect::<Vec<_>>())
        },
        &[(0, 10), (10, 20), (20, 21), (21, NONE)],
    ),
];

/// Runs a case on a version and prints its name.
fn run_case(version: &dyn Calls, name: &str, schedule: &[u8], due: &[(u16, u64)]) -> Result<(), String> {
    for &(minute, due) in due {
        let mut board = Board::new(version, 4);
        board.falsify();
        board.lent.schedule = schedule.to_vec();
        board.minute = minute;
        let before = board.lent.clone();
        let found = board.answer(Kind::ScheduleNext, 0, 0);
        let fails = |what| Err(format!("case `{name}` on {}, minute {minute}: {what}", version.name()));
        if found != due {
            return fails(format!("{found}, due {due}"));
        }
        board.lent.difference(&before).map_or(Ok(()), fails)?;
    }
    println!("case on {}: next change: {name}: ok", version.name());
    Ok(())
}

/// Runs every case on a version and prints its name.
pub fn run(version: &dyn Calls) -> Result<(), String> {
    for (name, n, records, due) in CASES {
        run_case(version, name, &timed(n, records), due)?;
    }
    for (name, schedule, due) in LONG {
        run_case(version, name, &schedule(), due)?;
    }
    Ok(())
}
