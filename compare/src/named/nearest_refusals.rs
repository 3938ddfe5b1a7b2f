//! The refusals of a search for the nearest listed post, each cause by itself and beside the causes that are tested
//! later.

use super::shapes::{path, Pairs};
use super::{all_links, board, links, spokes, Answer, Board, Refused};
use crate::calls::Calls;
use crate::memory::{Call, Kind, Memory};

/// The posts of a board.
const N: usize = 43;

/// Numbers of posts that are refusal 1.
const COUNTS: [u64; 8] = [0, 257, 299, 512, 65_579, (1 << 32) + 43, 1 << 63, u64::MAX];

/// Numbers of 43 or more, the lowest bits of which may be those of a post.
const FAR: [u64; 10] = [43, 44, 255, 256, 257, 65_536, 1 << 32, (1 << 32) + 1, (1 << 63) + 5, u64::MAX];

/// What a search answers on a falsified board within all limits, where something that is lent or given may be altered.
fn altered(mut board: Board, post: usize, list: &[u64], alter: impl Fn(&mut Memory, &mut Call)) -> Vec<Answer> {
    board.falsify();
    board.lent.listed = list.to_vec();
    let answer = |hops: u8| {
        let mut lent = board.lent.clone();
        let mut call = Call { hops, ..board.given(Kind::Nearest, post, 0) };
        alter(&mut lent, &mut call);
        let before = lent.clone();
        (call.kind.refusal(lent.run(board.version, call)), lent == before)
    };
    [0, 1, 2, 254, 255].map(answer).to_vec()
}

/// What it answers on a path of 43 posts, from its first post, the last one listed.
fn on_path(version: &dyn Calls, alter: impl Fn(&mut Memory, &mut Call)) -> Vec<Answer> {
    altered(board(version, N, &path(N)), 0, &[42], alter)
}

/// The links of p to 41 of 43 posts.
fn crowd(p: usize) -> Pairs {
    spokes(p, (0..N).filter(|&q| q != p).take(41))
}

/// What it answers on a board where post 0 has 41 links.
fn on_crowd(version: &dyn Calls, alter: impl Fn(&mut Memory, &mut Call)) -> Vec<Answer> {
    altered(board(version, N, &crowd(0)), 1, &[1, 42], alter)
}

/// Ways to another length of links that are some.
const RESIZES: [fn(&mut Vec<u8>); 5] = [
    Vec::clear,
    |bytes| bytes.truncate(bytes.len() - 1),
    |bytes| bytes.push(0),
    |bytes| *bytes = links(N - 1, &path(N - 1)),
    |bytes| *bytes = links(N + 1, &path(N + 1)),
];

/// Lists with a number in each place, beside the posts 0, 1 and 2.
fn lists_with(number: u64) -> Vec<Vec<u64>> {
    let beside = |at: usize| {
        let mut list = vec![0, 1, 2];
        list.insert(at, number);
        list
    };
    [vec![vec![number], vec![number; 2]], (0..4).map(beside).collect()].concat()
}

/// What it answers on a board, from post 0, with each of these numbers in each place of a list.
fn each_listed(version: &dyn Calls, n: usize, pairs: &[(usize, usize)], numbers: &[u64]) -> Vec<Answer> {
    let lists = numbers.iter().flat_map(|&number| lists_with(number));
    lists.flat_map(|list| altered(board(version, n, pairs), 0, &list, |_, _| {})).collect()
}

/// What it answers on a board, from each of these numbers, with an empty list, one of a post, and one of the number.
fn each_asked(version: &dyn Calls, n: usize, pairs: &[(usize, usize)], numbers: &[u64]) -> Vec<Answer> {
    let one = |number: u64, list: &[u64]| altered(board(version, n, pairs), 0, list, |_, call| call.a = number);
    numbers.iter().flat_map(|&number| [one(number, &[]), one(number, &[0]), one(number, &[number])].concat()).collect()
}

/// What it answers on boards of 256 posts with these links, from post 0: nothing listed, itself, 1 and the last post.
fn of_256(version: &dyn Calls, boards: &[Pairs]) -> Vec<Answer> {
    let lists: [&[u64]; 4] = [&[], &[0], &[1], &[255, 254]];
    let one = |pairs: &Pairs, list| altered(board(version, 256, pairs), 0, list, |_, _| {});
    boards.iter().flat_map(|pairs| lists.map(|list| one(pairs, list)).concat()).collect()
}

pub const CASES: [Refused; 25] = [
    ("no posts and more than 256 are refusal 1", 1, |version| {
        COUNTS.map(|n| on_path(version, |_, call| call.n = n)).concat()
    }),
    ("no posts, with no links, and 257, with the links of their length, are refusal 1", 1, |version| {
        let none = |list: &[u64]| altered(Board::new(version, 1), 0, list, |_, call| call.n = 0);
        let many = |list: &[u64]| altered(board(version, 257, &path(257)), 0, list, |_, _| {});
        [none(&[]), none(&[0]), many(&[]), many(&[256]), many(&[0])].concat()
    }),
    ("no posts and more than 256 are refusal 1, before 2", 1, |version| {
        let one = |resize: fn(&mut Vec<u8>), n: u64| {
            on_path(version, |lent, call| {
                resize(&mut lent.edges);
                call.n = n;
            })
        };
        RESIZES.iter().flat_map(|&resize| COUNTS.map(|n| one(resize, n)).concat()).collect()
    }),
    ("no posts and more than 256 are refusal 1, before 4", 1, |version| {
        let asked = COUNTS.map(|n| on_path(version, |_, call| (call.n, call.a) = (n, u64::MAX)));
        let listed = COUNTS.map(|n| {
            on_path(version, |lent, call| {
                lent.listed.push(u64::MAX);
                call.n = n;
            })
        });
        [asked.concat(), listed.concat()].concat()
    }),
    ("no posts and more than 256 are refusal 1, before 11", 1, |version| {
        COUNTS.map(|n| on_crowd(version, |_, call| call.n = n)).concat()
    }),
    ("no posts and more than 256 are refusal 1, before 2, 4 and 11", 1, |version| {
        let one = |n: u64| {
            on_crowd(version, |lent, call| {
                lent.edges.push(0);
                lent.listed.push(u64::MAX);
                (call.n, call.a) = (n, u64::MAX);
            })
        };
        COUNTS.map(one).concat()
    }),
    ("links of another length are refusal 2", 2, |version| {
        RESIZES.map(|resize| on_path(version, |lent, _| resize(&mut lent.edges))).concat()
    }),
    ("links of another length are refusal 2 of an empty list", 2, |version| {
        let one = |resize: fn(&mut Vec<u8>)| {
            on_path(version, |lent, _| {
                resize(&mut lent.edges);
                lent.listed.clear();
            })
        };
        RESIZES.map(one).concat()
    }),
    ("links of another length are refusal 2 of one post, of two and of 256", 2, |version| {
        let one =
            |n: usize, length: usize| altered(Board::new(version, n), 0, &[0], |lent, _| lent.edges.resize(length, 0));
        [one(1, 1), one(2, 0), one(2, 2), one(256, 4_079), one(256, 4_081), one(256, 4_048), one(256, 0)].concat()
    }),
    ("links of another length are refusal 2, before 4", 2, |version| {
        let asked = |resize: fn(&mut Vec<u8>)| {
            on_path(version, |lent, call| {
                resize(&mut lent.edges);
                call.a = 43;
            })
        };
        let listed = |resize: fn(&mut Vec<u8>)| {
            on_path(version, |lent, _| {
                resize(&mut lent.edges);
                lent.listed.insert(0, 43);
            })
        };
        [RESIZES.map(asked).concat(), RESIZES.map(listed).concat()].concat()
    }),
    ("links of another length are refusal 2, before 11", 2, |version| {
        let lengths = [0, 112, 114, 4_080];
        lengths.map(|length| on_crowd(version, |lent, _| lent.edges = vec![0xFF; length])).concat()
    }),
    ("links of another length are refusal 2, before 4 and 11", 2, |version| {
        let one = |length: usize| {
            on_crowd(version, |lent, call| {
                lent.edges = vec![0xFF; length];
                lent.listed.push(43);
                call.a = 43;
            })
        };
        [0, 112, 114, 4_080].map(one).concat()
    }),
    ("a post of n or more is refusal 4", 4, |version| each_asked(version, N, &path(N), &FAR)),
    ("a listed number of n or more is refusal 4", 4, |version| each_listed(version, N, &path(N), &FAR)),
    ("post n and a listed n are refusal 4 where n is 1, 2, 41, 255 and 256", 4, |version| {
        let of = |n: usize| {
            let listed = altered(board(version, n, &path(n)), 0, &[0, n as u64], |_, _| {});
            [each_asked(version, n, &path(n), &[n as u64]), listed].concat()
        };
        [1, 2, 41, 255, 256].map(of).concat()
    }),
    ("a listed number of n or more is refusal 4 where no post is reached", 4, |version| {
        each_listed(version, N, &[], &FAR)
    }),
    ("a listed number of n or more after 300 posts is refusal 4", 4, |version| {
        on_path(version, |lent, _| lent.listed = [vec![0; 300], vec![43]].concat())
    }),
    ("a post of n or more beside a crowded post is refusal 4, before 11", 4, |version| {
        [0, 20, 42].map(|p| each_asked(version, N, &crowd(p), &FAR)).concat()
    }),
    ("a listed number of n or more beside a crowded post is refusal 4, before 11", 4, |version| {
        [0, 20, 42].map(|p| each_listed(version, N, &crowd(p), &FAR)).concat()
    }),
    ("a post with 41 links is refusal 11, whatever the post and the list", 11, |version| {
        let lists: [&[u64]; 5] = [&[], &[0], &[1, 0], &[42], &[20, 21, 20]];
        let one = |p: usize, post: usize| {
            lists.map(|list| altered(board(version, N, &crowd(p)), post, list, |_, _| {})).concat()
        };
        [0, 20, 42].map(|p| [0, 20, 41, 42].map(|post| one(p, post)).concat()).concat()
    }),
    ("a post of 256 with 41 links is refusal 11, before it, after it and on both sides", 11, |version| {
        let both = (108..=128).chain(130..=149);
        let fans =
            [spokes(2, 3..=43), spokes(2, 215..=255), spokes(255, 2..=42), spokes(253, 200..=240), spokes(129, both)];
        of_256(version, &fans)
    }),
    ("a post of 256 with 64 links or more is refusal 11", 11, |version| {
        let fan = |count: usize| spokes(2, (0..256).filter(|&q| q != 2).take(count));
        of_256(version, &[64, 65, 100, 104, 128, 129, 168, 192, 232, 255].map(fan))
    }),
    ("a crowded post that is not reached is refusal 11", 11, |version| {
        let apart = [spokes(200, 201..=241), spokes(241, 200..=240), spokes(220, (199..220).chain(221..=240))];
        of_256(version, &apart.map(|fan| [vec![(0, 1), (1, 2)], fan].concat()))
    }),
    ("a crowded post at the end of a path is refusal 11, beyond the limit too", 11, |version| {
        of_256(version, &[[path(214), spokes(213, 214..=253)].concat()])
    }),
    ("all links of 42 and of 256 posts are refusal 11", 11, |version| {
        let full = altered(board(version, 42, &all_links(42)), 0, &[1], |_, _| {});
        [full, of_256(version, &[all_links(256)])].concat()
    }),
];
