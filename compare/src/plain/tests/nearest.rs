//! The nearest listed node: by hand on small boards, and on random boards by the distances of all pairs.

use super::BOTH;
use crate::boards::node_count;
use crate::calls::Calls;
use crate::plain::limits::MAX_DEGREE;
use crate::plain::packing::{bit, edge_bytes, pair_count, pair_index, pairs, put_bit};
use crate::rng::Rng;
use crate::sparse::sparse_edges;
use crate::tuned::{BY_BLOCKS, BY_ROWS};

const BOARDS: usize = 300;
const SEARCHES: usize = 40;
const NONE: u64 = 1 << 32;

fn versions() -> [&'static dyn Calls; 3] {
    [&BOTH[0], &BY_ROWS, &BY_BLOCKS]
}

/// The answer in which all versions agree.
fn nearest(edges: &[u8], n: usize, node: u64, listed: &[u64], hops: u8) -> u64 {
    let answers = versions().map(|version| version.nearest(edges, n as u64, node, listed, hops));
    assert_eq!(answers, [answers[0]; 3]);
    answers[0]
}

fn edges(n: usize, pairs: &[(usize, usize)]) -> Vec<u8> {
    let mut edges = vec![0; edge_bytes(n)];
    pairs.iter().for_each(|&(a, b)| put_bit(&mut edges, pair_index(a, b), true));
    edges
}

/// The distance of every two nodes, where one reaches the other: each node in turn is let in between all pairs.
fn distances(n: usize, edges: &[u8]) -> Vec<Vec<Option<usize>>> {
    let mut distances = vec![vec![None; n]; n];
    for (a, b) in pairs(n).filter(|&(a, b)| bit(edges, pair_index(a, b))) {
        (distances[a][b], distances[b][a]) = (Some(1), Some(1));
    }
    (0..n).for_each(|p| distances[p][p] = Some(0));
    for between in 0..n {
        for a in 0..n {
            for b in 0..n {
                let through = distances[a][between].zip(distances[between][b]).map(|(x, y)| x + y);
                let shorter = [distances[a][b], through].into_iter().flatten().min();
                distances[a][b] = shorter;
            }
        }
    }
    distances
}

/// By the distances from a node, the least listed one with its distance, of those within the limit.
fn by_distances(distances: &[Option<usize>], listed: &[u64], hops: u8) -> u64 {
    let known = listed.iter().filter_map(|&q| distances[q as usize].map(|distance| (distance, q)));
    let within = known.filter(|&(distance, _)| distance <= usize::from(hops));
    within.min().map_or(NONE, |(distance, q)| (distance << 16) as u64 + q)
}

/// A board within the limit: sparse, or of some edges.
fn random_board(rng: &mut Rng) -> (usize, Vec<u8>) {
    let n = node_count(rng).min(90);
    if rng.chance(50) {
        return (n, sparse_edges(rng, n));
    }
    let mut edges = rng.bytes(edge_bytes(n));
    let percent = rng.pick(&[2, 5, 10, 50]) * MAX_DEGREE / n.max(MAX_DEGREE);
    (0..pair_count(n)).for_each(|index| put_bit(&mut edges, index, rng.chance(percent)));
    (n, edges)
}

#[test]
fn the_answer_is_the_least_by_the_distances_of_all_pairs() {
    let mut rng = Rng::new(9);
    let (mut found, mut none, mut far) = (0, 0, 0);
    for _ in 0..BOARDS {
        let (n, edges) = random_board(&mut rng);
        let distances = distances(n, &edges);
        for _ in 0..SEARCHES {
            let node = rng.below(n);
            let listed: Vec<u64> = (0..rng.pick(&[0, 1, 1, 2, 5, 20])).map(|_| rng.below(n) as u64).collect();
            let hops = rng.pick(&[0, 1, 2, 3, 5, 10, 30, 255]);
            let answer = nearest(&edges, n, node as u64, &listed, hops);
            if answer.wrapping_neg() == 11 {
                assert!((0..n).any(|p| distances[p].iter().filter(|&&other| other == Some(1)).count() > MAX_DEGREE));
                continue;
            }
            assert_eq!(answer, by_distances(&distances[node], &listed, hops));
            found += usize::from(answer != NONE);
            none += usize::from(answer == NONE && !listed.is_empty());
            far += usize::from(answer != NONE && answer >> 16 >= 10);
        }
    }
    assert!(found > 1_000 && none > 1_000 && far > 100, "{found} found, {none} not, {far} of them far");
}

#[test]
fn a_star_and_its_tail_by_hand() {
    // 0 is joined to 1, 2 and 3, and 3 to 4, and 4 to 5
    let star = edges(7, &[(0, 1), (0, 2), (0, 3), (3, 4), (4, 5)]);
    for (node, listed, hops, due) in [
        (0, vec![0, 1], 0, 0),
        (0, vec![3, 2], 1, 65_538),
        (0, vec![5], 3, 3 * 65_536 + 5),
        (0, vec![5], 2, NONE),
        (1, vec![5, 2, 3], 255, 2 * 65_536 + 2),
        (5, vec![1, 2], 4, 4 * 65_536 + 1),
        (5, vec![1, 2], 3, NONE),
        (5, vec![6], 255, NONE),
        (6, vec![0, 1, 2, 3, 4, 5], 255, NONE),
        (6, vec![6, 6], 0, 6),
        (4, vec![], 255, NONE),
    ] {
        assert_eq!(nearest(&star, 7, node, &listed, hops), due, "from {node}, listed {listed:?}, within {hops}");
    }
}

#[test]
fn every_two_nodes_of_a_path_of_256() {
    let path = edges(256, &(1..256).map(|b| (b - 1, b)).collect::<Vec<_>>());
    for (a, b) in (0..256).step_by(17).flat_map(|a| (0..256).step_by(15).map(move |b| (a, b))) {
        let hops = u64::abs_diff(a, b);
        assert_eq!(nearest(&path, 256, a, &[b], hops as u8), hops * 65_536 + b);
        if hops > 0 {
            assert_eq!(nearest(&path, 256, a, &[b], hops as u8 - 1), NONE);
        }
    }
}

#[test]
fn the_refusals_in_their_order() {
    let crowd = edges(42, &(1..42).map(|b| (0, b)).collect::<Vec<_>>());
    let full = edges(42, &(1..41).map(|b| (0, b)).collect::<Vec<_>>());
    for (edges, n, node, listed, due) in [
        (&crowd[1..], 0, 42, vec![42], 1),
        (&crowd[1..], 257, 42, vec![42], 1),
        (&crowd[1..], 42, 42, vec![42], 2),
        (&crowd[..], 42, 42, vec![], 4),
        (&crowd[..], 42, 41, vec![41, 42], 4),
        (&crowd[..], 42, 41, vec![u64::MAX, 41], 4),
        (&crowd[..], 42, 41, vec![41], 11),
        (&crowd[..], 42, 41, vec![], 11),
    ] {
        for version in versions() {
            assert_eq!(version.nearest(edges, n, node, &listed, 0).wrapping_neg(), due);
        }
    }
    assert_eq!(nearest(&full, 42, 40, &[41, 39], 255), 2 * 65_536 + 39);
}
