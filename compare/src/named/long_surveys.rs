//! Surveys that are long or given as bytes: their sheets at a threshold, and the positions of the records that count.

use super::sheets::{sparse, STAR_OF_40};
use super::surveys::{Counting, NONE};
use super::{all_links, sheet, survey, Heard};

/// A survey by hand: 0–1 in survey 256 at 200, 2–1 in survey 255 at 100, 0–1 in survey 1 at 255.
const BY_HAND: [u8; 15] = [0, 1, 0x01, 0x00, 0xC8, 2, 1, 0x00, 0xFF, 0x64, 0, 1, 0x00, 0x01, 0xFF];

/// Post 0 heard by the posts from 1 to `last`, in survey 5 at a strength of 100.
fn star(last: u8) -> Vec<Heard> {
    (1..=last).map(|q| (0, q, 5, 100)).collect()
}

/// The sheet of 42 posts where post 0 is linked to the posts 1 to 40.
fn full() -> Vec<u8> {
    sheet(42, &STAR_OF_40.concat())
}

/// All links of n posts, each in survey 5 at a strength of 100.
fn all_heard(n: usize) -> Vec<Heard> {
    all_links(n).into_iter().map(|(a, b)| (a as u8, b as u8, 5, 100)).collect()
}

/// 70,000 records of the pair 0–1, none with a higher number than the one before it.
fn many() -> Vec<Heard> {
    (0..70_000_u32).map(|i| (0, 1, 65_535_u32.saturating_sub(i) as u16, 9)).collect()
}

/// A case's name, the posts, the survey, the sheet that is due at each threshold, and the positions.
type Case = (&'static str, usize, fn() -> Vec<u8>, fn() -> Vec<(u64, Vec<u8>)>, &'static [Counting]);

pub const CASES: [Case; 10] = [
    (
        "a survey packed by hand",
        4,
        || BY_HAND.to_vec(),
        || {
            [(100, 0xA0), (101, 0x80), (200, 0x80), (201, 0)]
                .map(|(threshold, links)| (threshold, vec![3, links]))
                .into()
        },
        &[(0, 1, 0), (1, 2, 1), (0, 2, NONE)],
    ),
    (
        "256 posts, the last two among those linked",
        256,
        || survey(&[(1, 0, 2, 90), (128, 127, 2, 80), (0, 255, 2, 80), (255, 254, 2, 70), (254, 255, 1, 99)]),
        || {
            let some = [(0, 255), (1, 0x80), (1_032, 0x01), (4_049, 0x40), (4_080, 0x01)];
            [(70, 5), (71, 4), (81, 2), (91, 1)]
                .map(|(threshold, count)| (threshold, sparse(4_081, &some[..count])))
                .into()
        },
        &[(0, 1, 0), (127, 128, 1), (0, 255, 2), (254, 255, 3), (253, 255, NONE), (0, 2, NONE)],
    ),
    ("40 links of a post", 42, || survey(&star(40)), || vec![(100, full()), (0, full())], &[(0, 1, 0), (0, 40, 39)]),
    (
        "40 links of a post and a 41st that stays just below the threshold",
        42,
        || survey(&[star(40), vec![(41, 0, 5, 99)]].concat()),
        || vec![(100, full())],
        &[(0, 40, 39), (0, 41, 40)],
    ),
    (
        "40 links of a post and a 41st that is superseded, before it and after it in the file",
        42,
        || survey(&[vec![(0, 41, 6, 99)], star(40), vec![(0, 41, 5, 255), (41, 0, 4, 100)]].concat()),
        || vec![(100, full())],
        &[(0, 41, 0), (0, 1, 1), (0, 40, 40)],
    ),
    (
        "40 links of a post, each measured three times",
        42,
        || survey(&[star(40), star(40), star(40)].concat()),
        || vec![(100, full()), (99, full()), (101, sheet(42, &[0; 108]))],
        &[(0, 1, 80), (0, 40, 119), (0, 41, NONE)],
    ),
    (
        "each of 41 posts has 40 links",
        41,
        || survey(&all_heard(41)),
        || vec![(100, [vec![40], vec![0xFF; 102], vec![0xF0]].concat())],
        &[(0, 1, 0), (39, 40, 819)],
    ),
    (
        "41 links of a post, all superseded below the threshold",
        42,
        || survey(&[star(41), star(41).into_iter().map(|(a, b, _, _)| (b, a, 6, 20)).collect()].concat()),
        || vec![(21, sheet(42, &[0; 108])), (100, sheet(42, &[0; 108]))],
        &[(0, 1, 41), (0, 41, 81)],
    ),
    (
        "a crowded post is none of the position's concern",
        42,
        || survey(&[star(41), all_heard(42)].concat()),
        || vec![(101, sheet(42, &[0; 108]))],
        &[(0, 1, 41), (0, 41, 861), (40, 41, 901)],
    ),
    (
        "a position above 65,535",
        3,
        || survey(&[many(), vec![(2, 0, 0, 9)]].concat()),
        || vec![(9, vec![2, 0xC0]), (10, vec![2, 0])],
        &[(0, 1, 0), (0, 2, 70_000), (1, 2, NONE)],
    ),
];
