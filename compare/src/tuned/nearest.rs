//! The nearest listed node: breadth first, by sets of nodes, over the rows of all nodes, made edge by edge.

use super::refuse::{any_over, edge_bytes, node_count, BUFFER_LENGTH, CROWDED, NO_SUCH_NODE};
use super::rows::{both, each_of, either, insert, rows, Row, EMPTY};

/// The answer where no listed node is within the limit.
pub const NONE: u64 = 1 << 32;

/// n as a count of nodes, or refusal 1, 2 or 4.
pub fn checked(edges: &[u8], n: u64, node: u64, listed: &[u64]) -> Result<usize, u64> {
    let count = node_count(n)?;
    if edges.len() != edge_bytes(count) {
        return Err(BUFFER_LENGTH);
    }
    if node >= n || listed.iter().any(|&other| other >= n) {
        return Err(NO_SUCH_NODE);
    }
    Ok(count)
}

pub fn nearest(edges: &[u8], n: u64, node: u64, listed: &[u64], hops: u8) -> Result<u64, u64> {
    let count = checked(edges, n, node, listed)?;
    let (rows, degrees) = rows(edges, count);
    if any_over(&degrees[..count]) {
        return Err(CROWDED);
    }
    let mut wanted = EMPTY;
    listed.iter().for_each(|&other| insert(&mut wanted, other as usize));
    Ok(search(&rows, node as usize, &wanted, hops))
}

/// The lowest of the wanted nodes that are nearest, after its hops.
fn search(rows: &[Row], node: usize, wanted: &Row, hops: u8) -> u64 {
    let (mut seen, mut last) = (EMPTY, EMPTY);
    insert(&mut last, node);
    for length in 0..=u64::from(hops) {
        let found = both(&last, wanted);
        if let Some(place) = found.iter().position(|&word| word != 0) {
            return length << 16 | (64 * place) as u64 | u64::from(found[place].leading_zeros());
        }
        let mut next = EMPTY;
        each_of(&last, |p| next = either(next, &rows[p]));
        seen = either(seen, &last);
        (0..4).for_each(|w| last[w] = next[w] & !seen[w]);
        if last == EMPTY {
            break;
        }
    }
    NONE
}
