//! The refusals of a reconcile with pins and of the first conflict for numbers and lengths, each beside the causes that
//! are tested later.

use super::{links, spokes, Answer, Board, Refused};
use crate::calls::Calls;
use crate::memory::Kind::{self, Conflict, ReconcilePinned};
use crate::memory::{Call, Memory};
use crate::plain::packing::edge_bytes;

const BOTH: [Kind; 2] = [Conflict, ReconcilePinned];

/// What is lent on a board of 43 posts that every later cause refuses: post 0 of mine has 41 links, post 42 would have 42,
/// and mine confirms the link 0–1 that theirs removes.
fn refused() -> Memory {
    let star = links(43, &spokes(0, 1..=41));
    Memory {
        edges: star.clone(),
        pins: links(43, &[(0, 1)]),
        theirs: links(43, &spokes(42, 0..=41)),
        base: star,
        ..free(43)
    }
}

/// What is lent on a board of 43 posts where the same pair is in conflict, and nothing else is amiss.
fn in_conflict() -> Memory {
    let link = links(43, &[(0, 1)]);
    Memory { edges: link.clone(), pins: link.clone(), base: link, ..free(43) }
}

/// What is lent on a board of n posts without links, on which nobody speaks, with false figures and marks.
fn free(n: usize) -> Memory {
    let none = vec![0; edge_bytes(n)];
    Memory {
        edges: none.clone(),
        figures: vec![0xA5; 8 * n],
        marks: vec![0x96; n.div_ceil(8)],
        pins: none.clone(),
        theirs: none.clone(),
        their_pins: none.clone(),
        base: none,
        ..Memory::default()
    }
}

/// What these calls answer for n posts where this is lent.
fn answers(version: &dyn Calls, kinds: &[Kind], n: u64, lent: &Memory) -> Vec<Answer> {
    let answer = |&kind: &Kind| {
        let mut board = Board { lent: lent.clone(), ..Board::new(version, 1) };
        let call = Call { n, ..board.given(kind, 0, 0) };
        (kind.refusal(board.lent.run(version, call)), board.lent == *lent)
    };
    kinds.iter().map(answer).collect()
}

/// The buffers of which refusal 2 of both calls tests the length.
const BUFFERS: [fn(&mut Memory) -> &mut Vec<u8>; 5] = [
    |lent| &mut lent.edges,
    |lent| &mut lent.pins,
    |lent| &mut lent.theirs,
    |lent| &mut lent.their_pins,
    |lent| &mut lent.base,
];

/// Ways to another length of a buffer that is not empty.
const RESIZES: [fn(&mut Vec<u8>); 3] = [Vec::clear, |bytes| bytes.truncate(bytes.len() - 1), |bytes| bytes.push(0)];

/// What is lent after something about it has altered.
fn altered(lent: &Memory, alter: impl FnOnce(&mut Memory)) -> Memory {
    let mut lent = lent.clone();
    alter(&mut lent);
    lent
}

/// What both calls answer for n posts where one of the five buffers has another length.
fn resized(version: &dyn Calls, n: u64, lent: &Memory, resizes: &[fn(&mut Vec<u8>)]) -> Vec<Answer> {
    let one = |resize: fn(&mut Vec<u8>), buffer: fn(&mut Memory) -> &mut Vec<u8>| {
        answers(version, &BOTH, n, &altered(lent, |lent| resize(buffer(lent))))
    };
    resizes.iter().flat_map(|&resize| BUFFERS.map(|buffer| one(resize, buffer)).concat()).collect()
}

/// What the reconcile answers where the marks have another length, or there are figures for another number of posts.
fn other_marks(version: &dyn Calls, lent: &Memory) -> Vec<Answer> {
    let one = |alter: &dyn Fn(&mut Memory)| answers(version, &[ReconcilePinned], 43, &altered(lent, alter));
    let marks = RESIZES.map(|resize| one(&|lent| resize(&mut lent.marks)));
    let figures = [1, 8, 42, 44, 256].map(|count| one(&|lent| lent.figures.resize(8 * count, 0xA5)));
    [marks.concat(), figures.concat()].concat()
}

/// What the first conflict answers for numbers of posts that are refusal 1.
fn counted(version: &dyn Calls, lent: &Memory) -> Vec<Answer> {
    let counts = [0, 257, 299, 512, 65_579, (1 << 32) + 43, 1 << 63, u64::MAX];
    counts.map(|n| answers(version, &[Conflict], n, lent)).concat()
}

/// What the reconcile answers for counts of figures that are refusal 1.
fn figured(version: &dyn Calls, lent: &Memory) -> Vec<Answer> {
    let one = |count: usize| altered(lent, |lent| lent.figures.resize(8 * count, 0xA5));
    [0, 257, 299, 65_579].map(|count| answers(version, &[ReconcilePinned], 43, &one(count))).concat()
}

/// What is lent for 43 posts, all of it one byte shorter or longer, or none of it.
fn all_resized(lent: &Memory, resize: fn(&mut Vec<u8>)) -> Memory {
    altered(lent, |lent| BUFFERS.iter().for_each(|buffer| resize(buffer(lent))))
}

pub const CASES: [Refused; 13] = [
    ("no posts, with the buffers of their length, are refusal 1", 1, |version| answers(version, &BOTH, 0, &free(0))),
    ("257 posts, with the buffers of their length, are refusal 1", 1, |version| {
        answers(version, &BOTH, 257, &free(257))
    }),
    ("no posts and more than 256 are refusal 1, before 2", 1, |version| {
        [counted(version, &free(43)), figured(version, &free(43))].concat()
    }),
    ("no posts and more than 256 are refusal 1, before 11, 15 and 12", 1, |version| {
        [in_conflict(), refused()].map(|lent| [counted(version, &lent), figured(version, &lent)].concat()).concat()
    }),
    ("a buffer of another length is refusal 2", 2, |version| resized(version, 43, &free(43), &RESIZES)),
    ("a buffer of another length is refusal 2, before 15", 2, |version| resized(version, 43, &in_conflict(), &RESIZES)),
    ("a buffer of another length is refusal 2, before 11, 15 and 12", 2, |version| {
        resized(version, 43, &refused(), &RESIZES)
    }),
    ("a buffer of another length is refusal 2 of two posts and of 256", 2, |version| {
        [2, 256].map(|n| resized(version, n as u64, &free(n), &RESIZES)).concat()
    }),
    ("a byte where one post has none is refusal 2", 2, |version| {
        resized(version, 1, &free(1), &[|bytes| bytes.push(0)])
    }),
    ("all five buffers of one other length are refusal 2", 2, |version| {
        RESIZES.map(|resize| answers(version, &BOTH, 43, &all_resized(&in_conflict(), resize))).concat()
    }),
    ("buffers of 42 and of 44 posts are refusal 2 of 43", 2, |version| {
        let of = |n: usize| Memory { figures: vec![0; 8 * 43], marks: vec![0; 6], ..free(n) };
        [42, 44].map(|n| answers(version, &BOTH, 43, &of(n))).concat()
    }),
    ("marks or figures of another number of posts are refusal 2 of the reconcile", 2, |version| {
        other_marks(version, &free(43))
    }),
    ("marks or figures of another number of posts are refusal 2, before 11, 15 and 12", 2, |version| {
        [in_conflict(), refused()].map(|lent| other_marks(version, &lent)).concat()
    }),
];
