//! The refusals of timed sheets, each cause by itself and beside the causes that are tested later.

use super::{all_links, timed, Answer, Board, Hours, Refused};
use crate::calls::Calls;
use crate::memory::Kind::{self, ScheduleLoad, ScheduleNext, ScheduleWrite};
use crate::memory::Memory;

const ALL: [Kind; 3] = [ScheduleWrite, ScheduleNext, ScheduleLoad];
/// The calls that have a board at the minute.
const BOARDS: [Kind; 2] = [ScheduleWrite, ScheduleLoad];

/// Records on a board of 42 posts that are wrong in one way only, and one that is not wrong.
const FAR: Hours = (0, 42, 10, 20);
const SAME: Hours = (7, 7, 10, 20);
const REVERSED: Hours = (0, 1, 20, 10);
const GOOD: Hours = (0, 1, 10, 20);

/// Post p of 42 linked to all others, from minute 10 to 20: p has 41 links.
fn crowd(p: u8) -> Vec<Hours> {
    (0..42).filter(|&q| q != p).map(|q| if q % 2 == 0 { (p, q, 10, 20) } else { (q, p, 10, 20) }).collect()
}

/// What these calls answer at two minutes on a falsified board, where this is the timed sheet and something else
/// that is lent may be altered.
fn altered(mut board: Board, kinds: &[Kind], schedule: &[u8], alter: impl Fn(&mut Memory)) -> Vec<Answer> {
    board.falsify();
    board.lent.schedule = schedule.to_vec();
    board.lent.snapshot.fill(0xA5);
    alter(&mut board.lent);
    let before = board.lent.clone();
    let at = |(minute, kind): (u16, Kind)| {
        board.minute = minute;
        (board.call(kind, 0, 0), board.lent == before)
    };
    [10, 19].iter().flat_map(|&minute| kinds.iter().map(move |&kind| (minute, kind))).map(at).collect()
}

/// What these calls answer on a board of 42 posts with this timed sheet.
fn answers(version: &dyn Calls, kinds: &[Kind], schedule: &[u8]) -> Vec<Answer> {
    altered(Board::new(version, 42), kinds, schedule, |_| {})
}

/// What these calls answer on a board of 42 posts with timed sheets of these records, each.
fn records(version: &dyn Calls, kinds: &[Kind], files: &[&[Hours]]) -> Vec<Answer> {
    files.iter().flat_map(|file| answers(version, kinds, &timed(42, file))).collect()
}

/// Every fault of the records, and a crowded post.
fn faults() -> Vec<u8> {
    timed(42, &[crowd(0), vec![REVERSED, SAME, FAR]].concat())
}

/// Timed sheets that are not the byte and whole records, those with every fault of the records among them.
fn malformed() -> Vec<Vec<u8>> {
    let whole = timed(42, &[GOOD, GOOD]);
    let cut = (1..6).map(|less| whole[..whole.len() - less].to_vec());
    let longer = (1..6).map(|more| [faults(), vec![0; more]].concat());
    cut.chain(longer).chain([vec![], whole[1..].to_vec(), faults()[1..].to_vec()]).collect()
}

/// The counts of figures that are refusal 1.
const COUNTS: [usize; 4] = [0, 257, 298, 65_578];

/// The answers of a load where the count of figures is refusal 1 and something else may be altered.
fn counted(version: &dyn Calls, schedule: &[u8], alter: impl Fn(&mut Memory)) -> Vec<Answer> {
    let each = |&count: &usize| {
        altered(Board::new(version, 42), &[ScheduleLoad], schedule, |lent| {
            lent.figures = vec![0xA5; 8 * count];
            alter(lent);
        })
    };
    COUNTS.iter().flat_map(each).collect()
}

/// Ways to another length of a buffer.
const RESIZES: [fn(&mut Vec<u8>); 3] = [Vec::clear, |bytes| bytes.truncate(bytes.len() - 1), |bytes| bytes.push(0)];

/// The answers of the sheet where it has another length, and of the load where the links or the marks have.
fn resized(version: &dyn Calls, schedule: &[u8]) -> Vec<Answer> {
    let one = |kind: Kind, resize: &dyn Fn(&mut Memory)| altered(Board::new(version, 42), &[kind], schedule, resize);
    let each = |resize: &fn(&mut Vec<u8>)| {
        [
            one(ScheduleWrite, &|lent| resize(&mut lent.snapshot)),
            one(ScheduleLoad, &|lent| resize(&mut lent.edges)),
            one(ScheduleLoad, &|lent| resize(&mut lent.marks)),
        ]
    };
    RESIZES.iter().flat_map(each).flatten().collect()
}

/// The answers of a load of a timed sheet with this number of posts on a board of 42.
fn of_others(version: &dyn Calls, counts: &[usize], file: &[Hours]) -> Vec<Answer> {
    counts.iter().flat_map(|&n| answers(version, &[ScheduleLoad], &timed(n, file))).collect()
}

pub const CASES: [Refused; 32] = [
    ("an empty one, a cut record and further bytes are refusal 9", 9, |version| {
        malformed().iter().flat_map(|schedule| answers(version, &ALL, schedule)).collect()
    }),
    ("a malformed one is refusal 9, before 1", 9, |version| {
        malformed().iter().flat_map(|schedule| counted(version, schedule, |_| {})).collect()
    }),
    ("a malformed one is refusal 9, before 2", 9, |version| {
        malformed().iter().flat_map(|schedule| resized(version, schedule)).collect()
    }),
    ("a malformed one is refusal 9, before 1 and 2", 9, |version| {
        malformed().iter().flat_map(|schedule| counted(version, schedule, |lent| lent.edges.clear())).collect()
    }),
    ("no figures and more than 256 are refusal 1 of the load", 1, |version| {
        counted(version, &timed(42, &[GOOD]), |_| {})
    }),
    ("no figures and more than 256 are refusal 1 of the load, before 2", 1, |version| {
        RESIZES.iter().flat_map(|r| counted(version, &timed(42, &[GOOD]), |lent| r(&mut lent.marks))).collect()
    }),
    ("no figures and more than 256 are refusal 1 of the load, before 4, 5, 13, 10 and 12", 1, |version| {
        let files = [vec![REVERSED, SAME, FAR], vec![SAME], vec![REVERSED], crowd(0)];
        files.iter().flat_map(|file| counted(version, &timed(42, file), |_| {})).collect()
    }),
    ("a sheet, links or marks of another length are refusal 2", 2, |version| resized(version, &timed(42, &[GOOD]))),
    ("a sheet of the length of another number of posts than the timed sheet's own is refusal 2", 2, |version| {
        [16, 41, 43, 256].iter().flat_map(|&n| answers(version, &[ScheduleWrite], &timed(n, &[GOOD]))).collect()
    }),
    ("another count of figures is refusal 2 of the load", 2, |version| {
        let figures = |count: usize| move |lent: &mut Memory| lent.figures.resize(8 * count, 0);
        let load = |count| altered(Board::new(version, 42), &[ScheduleLoad], &timed(42, &[GOOD]), figures(count));
        [1, 34, 41, 43, 256].map(load).concat()
    }),
    ("another length is refusal 2, before 4", 2, |version| resized(version, &timed(42, &[FAR]))),
    ("another length is refusal 2, before 5 and 13", 2, |version| {
        [SAME, REVERSED].iter().flat_map(|&fault| resized(version, &timed(42, &[fault]))).collect()
    }),
    ("another length is refusal 2, before 12", 2, |version| resized(version, &timed(42, &crowd(0)))),
    ("links or marks of another length are refusal 2 of the load, before 10", 2, |version| {
        let load = |resize: &dyn Fn(&mut Memory)| {
            altered(Board::new(version, 42), &[ScheduleLoad], &timed(43, &[GOOD]), resize)
        };
        RESIZES
            .iter()
            .flat_map(|r| [load(&|lent| r(&mut lent.edges)), load(&|lent| r(&mut lent.marks))])
            .flatten()
            .collect()
    }),
    ("a post of n or more is refusal 4", 4, |version| {
        let far = [(0, 42), (42, 0), (43, 1), (1, 255), (255, 254)].map(|(a, b)| [GOOD, (a, b, 10, 20), GOOD]);
        far.iter().flat_map(|file| records(version, &ALL, &[file, &file[1..2], &file[..2]])).collect()
    }),
    ("a post of n or more is refusal 4 whatever its hours", 4, |version| {
        records(version, &ALL, &[&[(0, 42, 300, 400)], &[(42, 0, 0, 1)], &[GOOD, (0, 42, 65_534, 65_535)]])
    }),
    ("n and n is refusal 4, before 5", 4, |version| records(version, &ALL, &[&[(42, 42, 10, 20)]])),
    ("equal posts before a post of n or more in the file are refusal 4, before 5", 4, |version| {
        records(version, &ALL, &[&[SAME, FAR], &[FAR, SAME], &[SAME, GOOD, GOOD, FAR]])
    }),
    ("reversed hours before a post of n or more in the file are refusal 4, before 13", 4, |version| {
        records(version, &ALL, &[&[REVERSED, FAR], &[FAR, REVERSED], &[(42, 0, 20, 10)], &[REVERSED, SAME, FAR]])
    }),
    ("a post is held against the timed sheet's own n: refusal 4 of the load, before 10", 4, |version| {
        of_others(version, &[1, 2, 41], &[(0, 41, 10, 20)])
    }),
    ("a post of n or more beside a crowded post is refusal 4, before 12", 4, |version| {
        records(version, &ALL, &[&[crowd(0), vec![FAR]].concat()])
    }),
    ("equal posts are refusal 5", 5, |version| {
        records(version, &ALL, &[&[SAME], &[GOOD, SAME], &[SAME, GOOD], &[(0, 0, 300, 400)], &[(41, 41, 0, 1)]])
    }),
    ("equal posts are refusal 5 on boards of one post and of 256", 5, |version| {
        let other = |n: usize| {
            altered(Board::new(version, n), &ALL, &timed(n, &[((n - 1) as u8, (n - 1) as u8, 1, 2)]), |_| {})
        };
        [other(1), other(256)].concat()
    }),
    ("reversed hours before equal posts in the file are refusal 5, before 13", 5, |version| {
        records(version, &ALL, &[&[REVERSED, SAME], &[SAME, REVERSED], &[(7, 7, 20, 10)], &[REVERSED, GOOD, SAME]])
    }),
    ("equal posts are refusal 5 of the load, before 10", 5, |version| of_others(version, &[8, 41, 43, 256], &[SAME])),
    ("equal posts beside a crowded post are refusal 5, before 12", 5, |version| {
        records(version, &ALL, &[&[crowd(0), vec![SAME]].concat()])
    }),
    ("a from that is not below its to is refusal 13", 13, |version| {
        let hours = [(0, 0), (10, 10), (65_535, 65_535), (1, 0), (20, 10), (256, 1), (65_535, 0), (300, 299)];
        let files = hours.map(|(from, to)| [GOOD, (3, 4, from, to), GOOD]);
        files.iter().flat_map(|file| records(version, &ALL, &[file, &file[1..2], &file[..2]])).collect()
    }),
    ("a from that is not below its to is refusal 13 of the load, before 10", 13, |version| {
        of_others(version, &[2, 41, 43, 256], &[GOOD, REVERSED])
    }),
    ("a from that is not below its to beside a crowded post is refusal 13, before 12", 13, |version| {
        records(version, &ALL, &[&[crowd(0), vec![REVERSED]].concat(), &[vec![REVERSED], crowd(41)].concat()])
    }),
    ("another number of posts is refusal 10 of the load", 10, |version| {
        [of_others(version, &[1, 2, 41, 43, 256], &[]), of_others(version, &[2, 41, 43, 256], &[GOOD])].concat()
    }),
    ("another number of posts and a crowded one are refusal 10 of the load, before 12", 10, |version| {
        of_others(version, &[43, 256], &[crowd(0), vec![(0, 42, 10, 20)]].concat())
    }),
    ("a post with 41 links at the minute is refusal 12 of the sheet and the load", 12, |version| {
        let all = all_links(42).into_iter().map(|(a, b)| (a as u8, b as u8, 0, 20)).collect();
        let closed_elsewhere = [crowd(5), vec![(1, 2, 0, 10), (5, 6, 0, 11)]].concat();
        let two_halves: Vec<Hours> =
            [(0, 15), (15, 60)].iter().flat_map(|&(f, t)| (1..42).map(move |q| (0, q, f, t))).collect();
        [crowd(0), crowd(20), crowd(41), all, closed_elsewhere, two_halves]
            .iter()
            .flat_map(|file| records(version, &BOARDS, &[file]))
            .collect()
    }),
];
