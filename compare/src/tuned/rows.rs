//! Rows of the adjacency matrix as sets of 256 bits, most significant first.

/// A set of nodes: node a is bit 63 − a mod 64 of word a / 64.
pub type Row = [u64; 4];

pub const EMPTY: Row = [0; 4];

#[inline]
pub fn insert(row: &mut Row, a: usize) {
    row[a / 64] |= 1 << (63 - a % 64);
}

#[inline]
pub fn flip(row: &mut Row, a: usize) {
    row[a / 64] ^= 1 << (63 - a % 64);
}

#[inline]
pub fn contains(row: &Row, a: usize) -> bool {
    row[a / 64] >> (63 - a % 64) & 1 != 0
}

#[inline]
pub fn count(row: &Row) -> usize {
    row.iter().map(|word| word.count_ones() as usize).sum()
}

#[inline]
pub fn both(x: &Row, y: &Row) -> Row {
    [x[0] & y[0], x[1] & y[1], x[2] & y[2], x[3] & y[3]]
}

#[inline]
pub fn either(x: Row, y: &Row) -> Row {
    [x[0] | y[0], x[1] | y[1], x[2] | y[2], x[3] | y[3]]
}

/// The number of nodes below 64 `W` in both sets.
#[inline]
pub fn ones_of_both<const W: usize>(x: &Row, y: &Row) -> usize {
    let mut ones = 0;
    for place in 0..W {
        ones += (x[place] & y[place]).count_ones();
    }
    ones as usize
}

/// Calls `visit` with each node of the set, in order.
#[inline]
pub fn each(row: &Row, mut visit: impl FnMut(usize)) {
    for (place, &word) in row.iter().enumerate() {
        let mut left = word;
        while left != 0 {
            let lead = left.leading_zeros();
            visit(64 * place + lead as usize);
            left ^= 1 << (63 - lead);
        }
    }
}

/// Calls `visit` with each node of the set, word by word, in falling order in a word: no step waits for the last one.
#[inline]
pub fn each_of(row: &[u64], mut visit: impl FnMut(usize)) {
    for (place, &word) in row.iter().enumerate() {
        let mut left = word;
        while left != 0 {
            visit(64 * place + 63 - left.trailing_zeros() as usize);
            left &= left - 1;
        }
    }
}

/// The part of a set that lies below p.
#[inline]
pub fn below(row: &Row, p: usize) -> Row {
    let mut part = EMPTY;
    for (place, word) in part.iter_mut().enumerate().take(p / 64 + 1) {
        let left = p - 64 * place;
        *word = if left < 64 { row[place] & !(u64::MAX >> left) } else { row[place] };
    }
    part
}

/// The nodes of a set of at most `N`, in order, and their number.
pub fn members<const N: usize>(row: &Row) -> ([usize; N], usize) {
    let mut members = [0; N];
    let mut length = 0;
    each(row, |a| {
        members[length] = a;
        length += 1;
    });
    (members, length)
}

/// The bit of the pair low < high.
#[inline]
pub fn pair(low: usize, high: usize) -> usize {
    high * (high - 1) / 2 + low
}

#[inline]
pub fn bit(bytes: &[u8], index: usize) -> bool {
    bytes[index / 8] << (index % 8) & 128 != 0
}

#[inline]
pub fn set_bit(bytes: &mut [u8], index: usize) {
    bytes[index / 8] |= 128 >> (index % 8);
}

/// The 64 bits from `start`; bits beyond the end are 0.
#[inline]
fn window(bytes: &[u8], start: usize) -> u64 {
    let (from, shift) = (start / 8, start % 8);
    if let Some(nine) = bytes.get(from..from + 9) {
        let head = u64::from_be_bytes(nine[..8].try_into().expect("eight bytes"));
        return head << shift | u64::from(nine[8]) >> (8 - shift);
    }
    let mut padded = [0; 9];
    let tail = bytes.get(from..).unwrap_or(&[]);
    padded[..tail.len()].copy_from_slice(tail);
    let head = u64::from_be_bytes(padded[..8].try_into().expect("eight bytes"));
    head << shift | u64::from(padded[8]) >> (8 - shift)
}

/// The neighbours of p below p: a run of p bits.
#[inline]
pub fn lower(edges: &[u8], p: usize) -> Row {
    let mut row = EMPTY;
    let start = p * p.wrapping_sub(1) / 2;
    for (place, word) in row.iter_mut().enumerate().take(p.div_ceil(64)) {
        let left = p - 64 * place;
        let bits = window(edges, start + 64 * place);
        *word = if left < 64 { bits & !(u64::MAX >> left) } else { bits };
    }
    row
}

/// All neighbours of p.
pub fn row(edges: &[u8], n: usize, p: usize) -> Row {
    let mut row = lower(edges, p);
    let mut index = p * (p + 1) / 2 + p;
    for b in p + 1..n {
        if bit(edges, index) {
            insert(&mut row, b);
        }
        index += b;
    }
    row
}

/// The degrees of all nodes, in one pass over the edges.
pub fn degrees(edges: &[u8], n: usize) -> [u16; 256] {
    let mut degrees = [0; 256];
    for b in 1..n {
        let mut own = 0;
        each_of(&lower(edges, b), |a| {
            degrees[a] += 1;
            own += 1;
        });
        degrees[b] += own;
    }
    degrees
}

/// The rows and the degrees of all nodes, in one pass over the edges.
pub fn rows(edges: &[u8], n: usize) -> (Vec<Row>, [u16; 256]) {
    let mut rows = vec![EMPTY; n];
    let mut degrees = [0; 256];
    for b in 1..n {
        let row = lower(edges, b);
        rows[b] = row;
        let mut own = 0;
        each_of(&row, |a| {
            insert(&mut rows[a], b);
            degrees[a] += 1;
            own += 1;
        });
        degrees[b] += own;
    }
    (rows, degrees)
}
