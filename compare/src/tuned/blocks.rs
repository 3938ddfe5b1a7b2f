//! The nearest listed node: breadth first, by sets of nodes, over the whole matrix, whose upper half is made of blocks of
//! the lower one.

use super::matrix::{each, first, insert, matrix, Set, EMPTY};
use super::nearest::{checked, NONE};
use super::planes::any_over;
use super::refuse::CROWDED;

pub fn nearest(edges: &[u8], n: u64, node: u64, listed: &[u64], hops: u8) -> Result<u64, u64> {
    let count = checked(edges, n, node, listed)?;
    let matrix = matrix(edges, count);
    let rows = matrix.as_flattened();
    if any_over(&rows[..count.next_multiple_of(8)]) {
        return Err(CROWDED);
    }
    let mut wanted = EMPTY;
    listed.iter().for_each(|&other| insert(&mut wanted, other as usize));
    Ok(search(rows, node as usize, &wanted, hops))
}

/// The lowest of the wanted nodes that are nearest, after its hops.
fn search(rows: &[Set], node: usize, wanted: &Set, hops: u8) -> u64 {
    let (mut seen, mut last) = (EMPTY, EMPTY);
    insert(&mut last, node);
    for length in 0..=u64::from(hops) {
        let mut found = EMPTY;
        (0..4).for_each(|w| found[w] = last[w] & wanted[w]);
        if let Some(lowest) = first(&found) {
            return length << 16 | lowest;
        }
        let mut next = EMPTY;
        each(&last, |p| (0..4).for_each(|w| next[w] |= rows[p][w]));
        (0..4).for_each(|w| seen[w] |= last[w]);
        (0..4).for_each(|w| last[w] = next[w] & !seen[w]);
        if last == EMPTY {
            break;
        }
    }
    NONE
}
