//! The changes that previews show on small boards and on document 000's example graph.

use super::{all_links, board, spokes, Board};
use crate::calls::Calls;
use crate::memory::Kind::{self, Add, PreviewAdd, PreviewRemove, Remove};
use crate::memory::Memory;
use crate::plain::limits::UNIT;

/// The vertices of document 000's example graph in the order of their nodes, and its edges.
const VERTICES: &str = "abcdefghijkxuvyz";
const EDGES: &str = "ab ac ad ae bc bd bf cd ce cf cg ch dg dh di eg ei ej fh fi fk fx gi hi ij jk ux vx xy xz";
const C: usize = 2;
const D: usize = 3;
const E: usize = 4;
const F: usize = 5;
const G: usize = 6;
const I: usize = 8;
const J: usize = 9;
const K: usize = 10;

const STAR: [(usize, usize); 3] = [(0, 1), (0, 2), (0, 3)];
const ALL_OF_4: [(usize, usize); 6] = [(0, 1), (0, 2), (0, 3), (1, 2), (1, 3), (2, 3)];
const RING: [(usize, usize); 4] = [(0, 2), (1, 2), (1, 3), (0, 3)];
/// Post 0 linked to each post of the ring 1, 2, 3, 4.
const WHEEL: [(usize, usize); 8] = [(0, 1), (0, 2), (0, 3), (0, 4), (1, 2), (2, 3), (3, 4), (1, 4)];
/// Post 0 linked to 1, 2 and 3, and 1 to 3.
const KITE: [(usize, usize); 4] = [(0, 1), (0, 2), (0, 3), (1, 3)];

/// A post and the change of its score, as a numerator and a denominator.
type Change = (usize, i64, i64);

/// Each of 39 posts changes by this part of 1.
const fn each_of_39(numerator: i64, denominator: i64) -> [Change; 39] {
    let mut changes = [(0, numerator, denominator); 39];
    let mut p = 0;
    while p < changes.len() {
        changes[p].0 = p;
        p += 1;
    }
    changes
}

fn example(version: &dyn Calls) -> Board<'_> {
    let node = |vertex| VERTICES.find(vertex).expect("the vertex is listed");
    let pairs: Vec<(usize, usize)> = EDGES.split(' ').map(|edge| (node(&edge[..1]), node(&edge[1..]))).collect();
    board(version, VERTICES.len(), &pairs)
}

/// Post 0 linked to the posts 1 to `last`, on a board of 41 posts.
fn fan(version: &dyn Calls, last: usize) -> Board<'_> {
    board(version, 41, &spokes(0, 1..=last))
}

/// All links of 41 posts.
fn all_of_41(version: &dyn Calls) -> Board<'_> {
    board(version, 41, &all_links(41))
}

/// Post 2 linked to 0 and 1, and post 9 to `neighbour` and 40 more, on a board of 50 posts: 9 is crowded.
fn crowded_elsewhere(version: &dyn Calls, neighbour: usize) -> Board<'_> {
    board(version, 50, &[vec![(0, 2), (1, 2), (neighbour, 9)], spokes(9, 10..50)].concat())
}

/// A case's name, the preview and its posts, the changes that are due, 0 at every other post, and the board.
type Case = (&'static str, Kind, (usize, usize), &'static [Change], fn(&dyn Calls) -> Board<'_>);

const CASES: [Case; 28] = [
    (
        "document 000's examples 5 and 7: the preview of adding i and k",
        PreviewAdd,
        (I, K),
        &[(K, -1, 2), (I, 5, 2), (F, -3, 2), (J, -3, 2)],
        example,
    ),
    // The document prints 55/6 for c after this removal, and e unchanged at 9/2. By the definition c comes to 14/3, from
    // 41/6, and e to 13/2: the score of a common neighbour rises strictly at a removal.
    (
        "document 000's examples 6 and 8: the preview of removing c and g",
        PreviewRemove,
        (C, G),
        &[(G, -1, 6), (C, -13, 6), (D, 7, 3), (E, 2, 1)],
        example,
    ),
    (
        "the preview of removing i and k after they are added is the negation",
        PreviewRemove,
        (I, K),
        &[(K, 1, 2), (I, -5, 2), (F, 3, 2), (J, 3, 2)],
        |version| example(version).then(Add, I, K),
    ),
    (
        "the preview of adding c and g after they are removed is the negation",
        PreviewAdd,
        (C, G),
        &[(G, 1, 6), (C, 13, 6), (D, -7, 3), (E, -2, 1)],
        |version| example(version).then(Remove, C, G),
    ),
    ("the first link of a board changes no score", PreviewAdd, (0, 1), &[], |version| board(version, 2, &[])),
    ("the last link of a board changes no score", PreviewRemove, (0, 1), &[], |version| board(version, 2, &[(0, 1)])),
    ("the middle of a path goes from 0 to 1", PreviewAdd, (1, 2), &[(1, 1, 1)], |version| board(version, 3, &[(0, 1)])),
    ("a common neighbour falls by 1 where a star gets a link", PreviewAdd, (1, 2), &[(0, -1, 1)], |version| {
        board(version, 4, &STAR)
    }),
    ("a common neighbour rises by 1 where that link goes", PreviewRemove, (1, 2), &[(0, 1, 1)], |version| {
        board(version, 4, &STAR).then(Add, 1, 2)
    }),
    ("both common neighbours fall at the sixth link of 4", PreviewAdd, (2, 3), &[(0, -1, 2), (1, -1, 2)], |version| {
        board(version, 4, &ALL_OF_4[..5])
    }),
    ("both common neighbours rise where it goes", PreviewRemove, (2, 3), &[(0, 1, 2), (1, 1, 2)], |version| {
        board(version, 4, &ALL_OF_4)
    }),
    (
        "the ends' scores fall at an add across a ring of 4",
        PreviewAdd,
        (0, 1),
        &[(0, -1, 2), (1, -1, 2), (2, -1, 1), (3, -1, 1)],
        |version| board(version, 4, &RING),
    ),
    (
        "the ends' scores rise where the link across a ring of 4 goes",
        PreviewRemove,
        (0, 1),
        &[(0, 1, 2), (1, 1, 2), (2, 1, 1), (3, 1, 1)],
        |version| board(version, 4, &RING).then(Add, 0, 1),
    ),
    ("a path outside an end's neighbourhood does not count", PreviewAdd, (0, 2), &[(0, 1, 1), (2, 1, 1)], |version| {
        board(version, 4, &RING[1..])
    }),
    (
        "a new path between two others lowers a common neighbour",
        PreviewAdd,
        (1, 2),
        &[(0, -3, 2), (1, 1, 2)],
        |version| board(version, 4, &KITE),
    ),
    ("the loss of that path raises it", PreviewRemove, (1, 2), &[(0, 3, 2), (1, -1, 2)], |version| {
        board(version, 4, &KITE).then(Add, 1, 2)
    }),
    (
        "every post of a wheel changes at a link across it",
        PreviewAdd,
        (1, 3),
        &[(0, -1, 3), (1, -1, 6), (2, -1, 2), (3, -1, 6), (4, -1, 2)],
        |version| board(version, 5, &WHEEL),
    ),
    (
        "every post of a wheel changes where that link goes",
        PreviewRemove,
        (1, 3),
        &[(0, 1, 3), (1, 1, 6), (2, 1, 2), (3, 1, 6), (4, 1, 2)],
        |version| board(version, 5, &WHEEL).then(Add, 1, 3),
    ),
    ("the 40th link of a star is accepted", PreviewAdd, (0, 40), &[(0, 39, 1)], |version| fan(version, 39)),
    ("the loss of the 40th link of a star is accepted", PreviewRemove, (0, 40), &[(0, -39, 1)], |version| {
        fan(version, 40)
    }),
    ("the smallest share goes at the last link of 41 posts", PreviewAdd, (39, 40), &each_of_39(-1, 39), |version| {
        all_of_41(version).then(Remove, 39, 40)
    }),
    ("the smallest share comes where that link goes", PreviewRemove, (39, 40), &each_of_39(1, 39), all_of_41),
    ("the last two of 256 posts are added", PreviewAdd, (254, 255), &[(0, -1, 1), (255, 1, 1)], |version| {
        board(version, 256, &[(0, 254), (0, 255), (1, 255)])
    }),
    ("the last two of 256 posts are removed", PreviewRemove, (254, 255), &[(0, 1, 1), (255, -1, 1)], |version| {
        board(version, 256, &[(0, 254), (0, 255), (1, 255), (254, 255)])
    }),
    ("a crowded neighbour of one end shows 0 at an add", PreviewAdd, (0, 1), &[(0, 1, 1), (2, -1, 1)], |version| {
        crowded_elsewhere(version, 0)
    }),
    (
        "a crowded neighbour of one end shows 0 at a remove",
        PreviewRemove,
        (0, 1),
        &[(0, -1, 1), (2, 1, 1)],
        |version| crowded_elsewhere(version, 0).then(Add, 0, 1),
    ),
    ("a crowded neighbour of a common neighbour shows 0 at an add", PreviewAdd, (0, 1), &[(2, -1, 1)], |version| {
        crowded_elsewhere(version, 2)
    }),
    ("a crowded neighbour of a common neighbour shows 0 at a remove", PreviewRemove, (0, 1), &[(2, 1, 1)], |version| {
        crowded_elsewhere(version, 2).then(Add, 0, 1)
    }),
];

/// The changes of a board of n posts, in grains.
fn grains(n: usize, changes: &[Change]) -> Vec<i64> {
    let mut grains = vec![0; n];
    for &(p, numerator, denominator) in changes {
        grains[p] = UNIT as i64 / denominator * numerator;
    }
    grains
}

/// The changes that a preview writes over other numbers, on a falsified board; an error where it is refused or alters
/// anything else.
fn previewed(board: &mut Board, kind: Kind, a: usize, b: usize) -> Result<Vec<i64>, String> {
    board.falsify();
    board.lent.changes = (0..board.n as i64).map(|p| i64::MIN + p).collect();
    let before = board.lent.clone();
    let refusal = board.call(kind, a, b);
    let changes = board.lent.changes.clone();
    let rest = Memory { changes: before.changes.clone(), ..board.lent.clone() };
    if refusal != 0 {
        return Err(format!("refusal {refusal}"));
    }
    rest.difference(&before).map_or(Ok(changes), Err)
}

/// Runs every case on a version, its posts in both orders, and prints its name.
pub fn run(version: &dyn Calls) -> Result<(), String> {
    for (name, kind, (a, b), due, case) in CASES {
        for (a, b) in [(a, b), (b, a)] {
            let mut board = case(version);
            let due = Ok(grains(board.n, due));
            let found = previewed(&mut board, kind, a, b);
            if found != due {
                return Err(format!("case `{name}` on {}: {found:?}, due {due:?}", version.name()));
            }
        }
        println!("case on {}: {name}: ok", version.name());
    }
    Ok(())
}
