//! The refusals of surveys, each cause by itself and beside the causes that are tested later.

use super::{all_links, survey, Answer, Board, Heard, Refused};
use crate::calls::Calls;
use crate::memory::Kind::{self, SurveyPosition, SurveyWrite};
use crate::memory::{Call, Memory};
use crate::plain::packing::edge_bytes;

const BOTH: [Kind; 2] = [SurveyWrite, SurveyPosition];

/// The threshold of every sheet here.
const THRESHOLD: u64 = 100;

/// Records on a board of 42 posts that are wrong in one way only, and one that is not wrong.
const FAR: Heard = (0, 42, 1, 100);
const SAME: Heard = (7, 7, 1, 100);
const GOOD: Heard = (0, 1, 1, 100);

/// Post p of 42 linked to all others: p has 41 links.
fn crowd(p: u8) -> Vec<Heard> {
    (0..42).filter(|&q| q != p).map(|q| if q % 2 == 0 { (p, q, 1, 100) } else { (q, p, 1, 100) }).collect()
}

/// What these calls answer on a falsified board of 42 posts, asked for its posts 0 and 1, where this is the survey and
/// something that is lent or given may be altered.
fn altered(version: &dyn Calls, kinds: &[Kind], survey: &[u8], alter: impl Fn(&mut Memory, &mut Call)) -> Vec<Answer> {
    let answer = |&kind: &Kind| {
        let mut board = Board::new(version, 42);
        board.falsify();
        board.threshold = THRESHOLD;
        board.lent.survey = survey.to_vec();
        board.lent.snapshot.fill(0xA5);
        let mut call = board.given(kind, 0, 1);
        alter(&mut board.lent, &mut call);
        let before = board.lent.clone();
        (kind.refusal(board.lent.run(version, call)), board.lent == before)
    };
    kinds.iter().map(answer).collect()
}

/// What these calls answer with this survey.
fn answers(version: &dyn Calls, kinds: &[Kind], survey: &[u8]) -> Vec<Answer> {
    altered(version, kinds, survey, |_, _| {})
}

/// What these calls answer with surveys of these records, each.
fn records(version: &dyn Calls, kinds: &[Kind], files: &[&[Heard]]) -> Vec<Answer> {
    files.iter().flat_map(|file| answers(version, kinds, &survey(file))).collect()
}

/// What both calls answer for n posts, the sheet of their length, the last two asked about.
fn of_posts(version: &dyn Calls, n: usize, file: &[Heard]) -> Vec<Answer> {
    altered(version, &BOTH, &survey(file), |lent, call| {
        lent.snapshot = vec![0xA5; 1 + edge_bytes(n)];
        (call.n, call.a, call.b) = (n as u64, (n - 1) as u64, n.saturating_sub(2) as u64);
    })
}

/// The position asked for each of these pairs, with this survey.
fn asked(version: &dyn Calls, pairs: &[(u64, u64)], survey: &[u8]) -> Vec<Answer> {
    let one = |&(a, b): &(u64, u64)| altered(version, &[SurveyPosition], survey, |_, call| (call.a, call.b) = (a, b));
    pairs.iter().flat_map(one).collect()
}

/// Pairs of which a post is 42 or more, the lowest bits of which may be those of a post below it.
const FAR_PAIRS: [(u64, u64); 9] = [
    (0, 42),
    (42, 0),
    (42, 43),
    (1, 256),
    (257, 0),
    (1 << 32, 1),
    (0, (1 << 32) + 1),
    (1 << 63, 1),
    (u64::MAX, u64::MAX - 1),
];

/// Every fault of the records, and a crowded post.
fn faults() -> Vec<u8> {
    survey(&[crowd(0), vec![SAME, FAR]].concat())
}

/// Surveys that are not a whole number of records, those with every fault of the records among them.
fn broken() -> Vec<Vec<u8>> {
    let whole = survey(&[GOOD, GOOD]);
    let cut = (1..5).map(|less| whole[..whole.len() - less].to_vec());
    let parts = (1..5).map(|length| vec![0; length]);
    let longer = (1..5).map(|more| [faults(), vec![42; more]].concat());
    cut.chain(parts).chain(longer).chain([survey(&crowd(0))[1..].to_vec()]).collect()
}

/// What these calls answer with each of these surveys where n is refusal 1 and something that is lent may be altered.
fn counted(version: &dyn Calls, kinds: &[Kind], surveys: &[Vec<u8>], alter: fn(&mut Memory)) -> Vec<Answer> {
    const COUNTS: [u64; 8] = [0, 257, 298, 512, 65_578, (1 << 32) + 42, 1 << 63, u64::MAX];
    let one = |survey: &Vec<u8>, n: u64| {
        altered(version, kinds, survey, |lent, call| {
            call.n = n;
            alter(lent);
        })
    };
    surveys.iter().flat_map(|survey| COUNTS.map(|n| one(survey, n)).concat()).collect()
}

/// What the sheet answers with this survey where it has another length than n requires.
fn resized(version: &dyn Calls, survey: &[u8]) -> Vec<Answer> {
    let lengths = [0, 1, 108, 110, 1 + edge_bytes(41), 1 + edge_bytes(43), 1 + edge_bytes(256)];
    let one = |length| altered(version, &[SurveyWrite], survey, |lent, _| lent.snapshot.resize(length, 0xA5));
    lengths.map(one).concat()
}

pub const CASES: [Refused; 33] = [
    ("n of 0 and of more than 256 is refusal 1", 1, |version| {
        counted(version, &BOTH, &[vec![], survey(&[GOOD])], |_| {})
    }),
    ("n of 257 with the sheet of its length, and of 0 with none and a byte, is refusal 1", 1, |version| {
        let one = |n: u64, length: usize| {
            altered(version, &BOTH, &[], |lent, call| (lent.snapshot, call.n) = (vec![0xA5; length], n))
        };
        [one(257, 4_113), one(0, 0), one(0, 1)].concat()
    }),
    ("n of 0 and of more than 256 is refusal 1, before 2", 1, |version| {
        let files = [survey(&[GOOD])];
        [|lent: &mut Memory| lent.snapshot.clear(), |lent: &mut Memory| lent.snapshot.push(0)]
            .map(|alter| counted(version, &[SurveyWrite], &files, alter))
            .concat()
    }),
    ("n of 0 and of more than 256 is refusal 1, before 14", 1, |version| counted(version, &BOTH, &broken(), |_| {})),
    ("n of 0 and of more than 256 is refusal 1, before 2 and 14", 1, |version| {
        counted(version, &BOTH, &broken(), |lent| lent.snapshot.clear())
    }),
    ("n of 0 and of more than 256 is refusal 1, before 4, 5 and 12", 1, |version| {
        counted(version, &BOTH, &[faults(), survey(&[FAR]), survey(&[SAME]), survey(&crowd(0))], |_| {})
    }),
    ("n of 0 is refusal 1, before 4 and 5 of the pair asked about", 1, |version| {
        let one = |a, b| altered(version, &[SurveyPosition], &[], |_, call| (call.n, call.a, call.b) = (0, a, b));
        [one(0, 1), one(0, 0), one(u64::MAX, 0)].concat()
    }),
    ("a sheet of another length is refusal 2", 2, |version| {
        [resized(version, &survey(&[GOOD])), resized(version, &[])].concat()
    }),
    ("a sheet of another length is refusal 2, before 14", 2, |version| {
        broken().iter().flat_map(|survey| resized(version, survey)).collect()
    }),
    ("a sheet of another length is refusal 2, before 4", 2, |version| resized(version, &survey(&[FAR]))),
    ("a sheet of another length is refusal 2, before 5", 2, |version| resized(version, &survey(&[SAME]))),
    ("a sheet of another length is refusal 2, before 12", 2, |version| resized(version, &survey(&crowd(0)))),
    ("a survey that is not a whole number of records is refusal 14", 14, |version| {
        broken().iter().flat_map(|survey| answers(version, &BOTH, survey)).collect()
    }),
    ("a broken survey is refusal 14, before 4", 14, |version| {
        let files = [vec![FAR], vec![FAR, GOOD], vec![GOOD, FAR]].map(|file| [survey(&file), vec![0]].concat());
        files.iter().flat_map(|survey| answers(version, &BOTH, survey)).collect()
    }),
    ("a broken survey is refusal 14, before 5", 14, |version| {
        let files = [vec![SAME], vec![SAME, GOOD], vec![GOOD, SAME]].map(|file| [survey(&file), vec![0]].concat());
        files.iter().flat_map(|survey| answers(version, &BOTH, survey)).collect()
    }),
    ("a broken survey is refusal 14, before 12", 14, |version| {
        answers(version, &BOTH, &[survey(&crowd(0)), vec![0, 1, 0, 1]].concat())
    }),
    ("a broken survey is refusal 14, before 4 and 5 of the pair asked about", 14, |version| {
        let pairs = [&FAR_PAIRS[..], &[(0, 0), (42, 42)]].concat();
        broken().iter().flat_map(|survey| asked(version, &pairs, survey)).collect()
    }),
    ("a post of n or more is refusal 4", 4, |version| {
        let far = [(0, 42), (42, 0), (43, 1), (1, 255), (255, 254)].map(|(a, b)| [GOOD, (a, b, 1, 100), GOOD]);
        far.iter().flat_map(|file| records(version, &BOTH, &[file, &file[1..2], &file[..2]])).collect()
    }),
    ("a post of n or more is refusal 4 whatever its number and its strength", 4, |version| {
        records(version, &BOTH, &[&[(0, 42, 0, 0)], &[(42, 0, 0, 0), (42, 0, 9, 255)], &[GOOD, (0, 42, 65_535, 0)]])
    }),
    ("post n is refusal 4 where n is 1, 2, 41 and 255", 4, |version| {
        let last = |n: usize| (0, n as u8, 1, 0);
        [1, 2, 41, 255].map(|n| of_posts(version, n, &[last(n)])).concat()
    }),
    ("a post of n or more in the pair asked about is refusal 4", 4, |version| {
        [vec![], survey(&[GOOD]), survey(&crowd(0))].map(|survey| asked(version, &FAR_PAIRS, &survey)).concat()
    }),
    ("n and n is refusal 4, before 5", 4, |version| {
        [records(version, &BOTH, &[&[(42, 42, 1, 100)]]), asked(version, &[(42, 42), (u64::MAX, u64::MAX)], &[])]
            .concat()
    }),
    ("equal posts before a post of n or more in the file are refusal 4, before 5", 4, |version| {
        records(version, &BOTH, &[&[SAME, FAR], &[FAR, SAME], &[SAME, GOOD, GOOD, FAR]])
    }),
    (
        "a post of n or more in the pair asked about, beside equal posts in the file, is refusal 4, before 5",
        4,
        |version| asked(version, &FAR_PAIRS, &survey(&[GOOD, SAME])),
    ),
    ("equal posts asked about, beside a post of n or more in the file, are refusal 4, before 5", 4, |version| {
        asked(version, &[(0, 0), (41, 41)], &survey(&[GOOD, FAR]))
    }),
    ("a post of n or more beside a crowded post is refusal 4, before 12", 4, |version| {
        records(version, &BOTH, &[&[crowd(0), vec![FAR]].concat(), &[vec![FAR], crowd(41)].concat()])
    }),
    ("equal posts are refusal 5", 5, |version| {
        records(version, &BOTH, &[&[SAME], &[GOOD, SAME], &[SAME, GOOD], &[(0, 0, 0, 0)], &[GOOD, (41, 41, 9, 255)]])
    }),
    ("equal posts are refusal 5 whatever their number and their strength", 5, |version| {
        records(
            version,
            &BOTH,
            &[&[(7, 7, 0, 0)], &[(7, 7, 0, 0), (7, 7, 65_535, 255)], &[(7, 7, 9, 255), (7, 8, 9, 255)]],
        )
    }),
    ("equal posts are refusal 5 on boards of one post, of two and of 256", 5, |version| {
        [1, 2, 256].map(|n| of_posts(version, n, &[((n - 1) as u8, (n - 1) as u8, 1, 2)])).concat()
    }),
    ("equal posts asked about are refusal 5", 5, |version| {
        let pairs = [(0, 0), (7, 7), (41, 41)];
        let one_post = altered(version, &[SurveyPosition], &[], |_, call| (call.n, call.b) = (1, 0));
        [vec![], survey(&[GOOD]), survey(&[SAME])]
            .map(|survey| asked(version, &pairs, &survey))
            .concat()
            .into_iter()
            .chain(one_post)
            .collect()
    }),
    ("equal posts beside a crowded post are refusal 5, before 12", 5, |version| {
        records(version, &BOTH, &[&[crowd(0), vec![SAME]].concat(), &[vec![SAME], crowd(41)].concat()])
    }),
    ("a post with 41 links is refusal 12 of the sheet", 12, |version| {
        let all: Vec<Heard> = all_links(42).into_iter().map(|(a, b)| (a as u8, b as u8, 1, 255)).collect();
        let raised = [crowd(5), vec![(5, 6, 0, 0), (1, 2, 2, 0), (6, 5, 1, 100)]].concat();
        let twice = [crowd(0).into_iter().map(|(a, b, _, _)| (b, a, 0, 0)).collect(), crowd(0)].concat();
        [crowd(0), crowd(20), crowd(41), all, raised, twice]
            .iter()
            .flat_map(|file| records(version, &[SurveyWrite], &[file]))
            .collect()
    }),
    ("a post with 41 links is refusal 12 of the sheet at a threshold of 0, however weak they are", 12, |version| {
        let weak: Vec<Heard> = crowd(0).into_iter().map(|(a, b, _, _)| (a, b, 0, 0)).collect();
        altered(version, &[SurveyWrite], &survey(&weak), |_, call| call.threshold = 0)
    }),
];
