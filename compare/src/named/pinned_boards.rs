//! Reconciliations with pins on boards of other sizes than four: where the bit of a pair lies, and posts about the limit.

use super::pins::{check, Brought, NONE};
use super::{all_links, links, set_spare, spokes};
use crate::calls::Calls;
use crate::plain::packing::pair_count;

type Pairs = Vec<(usize, usize)>;

/// A case's name, the posts, what the editors bring, the answers of the reconcile and of the first conflict, and the
/// links that stand where it is accepted.
type Case = (&'static str, usize, fn() -> [Pairs; 5], (u64, u64), fn() -> Pairs);

fn none() -> Pairs {
    vec![]
}

/// Mine confirms these links of the original and theirs removes them.
fn removed(pairs: &[(usize, usize)]) -> [Pairs; 5] {
    [pairs.to_vec(), pairs.to_vec(), none(), none(), pairs.to_vec()]
}

/// Theirs adds these links.
fn added(pairs: &[(usize, usize)]) -> [Pairs; 5] {
    [none(), none(), pairs.to_vec(), none(), none()]
}

/// Post 0 linked to the posts from 1 to `last`.
fn star(last: usize) -> Pairs {
    spokes(0, 1..=last)
}

/// These pairs and more.
fn with(pairs: Pairs, more: &[(usize, usize)]) -> Pairs {
    [&pairs, more].concat()
}

/// The pairs of 256 posts but the last.
fn all_but_last() -> Pairs {
    all_links(256)[..32_639].to_vec()
}

const CASES: [Case; 30] = [
    ("one post has no pairs and no bytes", 1, || removed(&[]), (0, NONE), none),
    ("the pair of two posts in conflict is bit 0", 2, || removed(&[(0, 1)]), (15, 0), none),
    ("the last pair of 16 posts in conflict is bit 119", 16, || removed(&[(14, 15)]), (15, 119), none),
    ("the last pair of 17 posts in conflict is bit 135", 17, || removed(&[(15, 16)]), (15, 135), none),
    ("the last pair of 255 posts in conflict is bit 32,384", 255, || removed(&[(253, 254)]), (15, 32_384), none),
    ("the last pair of 256 posts in conflict is bit 32,639", 256, || removed(&[(254, 255)]), (15, 32_639), none),
    ("the first pair of 256 posts is before the last", 256, || removed(&[(254, 255), (0, 1)]), (15, 0), none),
    ("post 254's last pair is before post 255's first", 256, || removed(&[(0, 255), (253, 254)]), (15, 32_384), none),
    ("post 255's first pair is bit 32,385", 256, || removed(&[(0, 255)]), (15, 32_385), none),
    ("a conflict on 8–11 is before one on 9–11", 12, || removed(&[(8, 11), (9, 11)]), (15, 63), none),
    ("a conflict on 9–11 is bit 64", 12, || removed(&[(9, 11)]), (15, 64), none),
    ("a conflict on 15–32 is before one on 16–32", 40, || removed(&[(16, 32), (15, 32)]), (15, 511), none),
    ("a conflict on 16–32 is bit 512", 40, || removed(&[(16, 32)]), (15, 512), none),
    (
        "256 posts on which nobody speaks stay without links",
        256,
        || [none(), none(), none(), none(), none()],
        (0, NONE),
        none,
    ),
    (
        "the last pair of 256 posts comes where nobody confirms it",
        256,
        || added(&[(254, 255)]),
        (0, NONE),
        || vec![(254, 255)],
    ),
    (
        "the last pair of 256 posts comes where all others are confirmed",
        256,
        || [none(), all_but_last(), vec![(254, 255)], all_links(256), none()],
        (0, NONE),
        || vec![(254, 255)],
    ),
    (
        "of 256 posts both confirm all pairs, and 100–200 is left different",
        256,
        || [vec![(100, 200), (0, 1)], all_links(256), vec![(0, 1)], all_links(256), vec![(100, 200)]],
        (15, 20_000),
        none,
    ),
    (
        "a post comes to 40 links",
        42,
        || [star(39), star(39), star(40), vec![(0, 40)], star(39)],
        (0, NONE),
        || star(40),
    ),
    (
        "the 41st link of a post is refusal 12",
        42,
        || [star(40), star(40), star(41), vec![(0, 41)], star(40)],
        (12, NONE),
        none,
    ),
    ("all 41 links of a post are refusal 12", 42, || added(&star(41)), (12, NONE), none),
    (
        "one link of a full post goes and another comes",
        42,
        || [star(40), star(39), with(star(39), &[(0, 41)]), vec![(0, 40)], star(40)],
        (0, NONE),
        || with(star(39), &[(0, 41)]),
    ),
    (
        "a confirmed link of a full post that would go is refusal 15, before 12",
        42,
        || [star(40), star(40), with(star(39), &[(0, 41)]), none(), star(40)],
        (15, 780),
        none,
    ),
    (
        "a 41st link that is confirmed as absent is refusal 15, before 12",
        42,
        || [star(40), vec![(0, 41)], star(41), none(), star(40)],
        (15, 820),
        none,
    ),
    (
        "a 41st link beside a conflict elsewhere is refusal 15, before 12",
        43,
        || [with(star(40), &[(41, 42)]), vec![(41, 42)], star(41), none(), with(star(40), &[(41, 42)])],
        (15, 902),
        none,
    ),
    (
        "a post with 41 links of theirs and of the original, of which mine removes one, is accepted",
        42,
        || [star(40), star(41), star(41), star(40), star(41)],
        (0, NONE),
        || star(40),
    ),
    (
        "a crowded post of mine is refusal 11, and no conflict",
        42,
        || [star(41), none(), none(), none(), none()],
        (11, NONE),
        none,
    ),
    (
        "a crowded post of mine is refusal 11, before 15, and the conflict is told",
        42,
        || [with(star(41), &[(5, 6)]), vec![(5, 6)], star(41), none(), with(star(41), &[(5, 6)])],
        (11, 20),
        none,
    ),
    (
        "a crowded post of mine of which theirs removes most links is refusal 11",
        42,
        || [star(41), none(), star(3), star(41), star(41)],
        (11, NONE),
        none,
    ),
    (
        "a crowded post of mine and one that theirs would crowd are refusal 11, before 12",
        43,
        || [star(41), none(), with(star(41), &spokes(42, 1..=41)), none(), star(41)],
        (11, NONE),
        none,
    ),
    (
        "a crowded post of mine, in conflict, and one of theirs are refusal 11, before 15 and 12",
        43,
        || [star(41), star(41), spokes(42, 0..=41), none(), star(41)],
        (11, 0),
        none,
    ),
];

/// Runs every case on a version, without spare bits and with all of them, and prints its name.
pub fn run(version: &dyn Calls) -> Result<(), String> {
    for (name, n, brought, (refusal, conflict), due) in CASES {
        let packed = |spare: bool| {
            let mut brought: Brought = brought().map(|pairs| links(n, &pairs));
            let mut due = links(n, &due());
            if spare {
                brought.iter_mut().chain([&mut due]).for_each(|bits| set_spare(bits, pair_count(n)));
            }
            (brought, due)
        };
        for (brought, due) in [packed(false), packed(true)] {
            check(version, n, brought, (refusal, conflict, due))
                .map_err(|what| format!("case `{name}` on {}: {what}", version.name()))?;
        }
        println!("case on {}: pins: {name}: ok", version.name());
    }
    Ok(())
}
