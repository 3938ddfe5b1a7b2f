//! The whole adjacency matrix in a time that no number of edges changes: its lower half is read 16 rows at a time, and
//! blocks of 64 by 64 bits are turned over, two at a time, for the upper half.

use std::array;

/// A set of nodes whose bits lie as in the edges, in words of which the first byte is the lowest: node a is bit
/// (a mod 64) ^ 7 of word a / 64.
pub type Set = [u64; 4];

pub const EMPTY: Set = [0; 4];

/// The nodes of a block.
const BLOCK: usize = 64;

#[inline]
pub fn insert(set: &mut Set, a: usize) {
    set[a / BLOCK] |= 1 << ((a ^ 7) % BLOCK);
}

/// Calls `visit` with each node of the set.
#[inline]
pub fn each(set: &Set, mut visit: impl FnMut(usize)) {
    for (place, &word) in set.iter().enumerate() {
        let mut left = word;
        while left != 0 {
            visit(BLOCK * place + (left.trailing_zeros() as usize ^ 7));
            left &= left - 1;
        }
    }
}

/// The lowest node of the set.
#[inline]
pub fn first(set: &Set) -> Option<u64> {
    let place = set.iter().position(|&word| word != 0)?;
    Some((BLOCK * place) as u64 + u64::from(set[place].swap_bytes().leading_zeros()))
}

/// `BELOW[i]` has the first i nodes of a word.
const BELOW: [u64; BLOCK] = {
    let mut below = [0; BLOCK];
    let mut i = 0;
    while i < BLOCK {
        below[i] = !(u64::MAX >> i).swap_bytes();
        i += 1;
    }
    below
};

/// Row `I` of 16, the first of which is that of `base` and begins these bytes: `W` words. As `base` is a multiple of 16,
/// the place in a byte at which the row begins depends on `I` alone.
#[inline(always)]
fn row<const I: usize, const W: usize>(bytes: &[u8], base: usize) -> Set {
    let (before, shift) = const { (I * I.saturating_sub(1) / 16, I * I.saturating_sub(1) / 2 % 8) };
    let from = I * base / 8 + before;
    let bytes = &bytes[from..from + 8 * W + 1];
    let kept = 0x0101_0101_0101_0101 * (0xFF << shift & 0xFF);
    let word = |at: usize| u64::from_le_bytes(bytes[at..at + 8].try_into().expect("eight bytes"));
    let mut row = EMPTY;
    for (place, own) in row.iter_mut().enumerate().take(W) {
        *own = word(8 * place) << shift & kept | word(8 * place + 1) >> (8 - shift) & !kept;
    }
    row
}

/// The parts below the diagonal of 16 rows, the first of which is that of `base`: `W` words each.
fn lower<const W: usize>(edges: &[u8], base: usize, rows: &mut [Set; 16]) {
    let start = base * base.saturating_sub(1) / 16;
    let length = 15 * base / 8 + 14 + 8 * W;
    let mut padded = [0; 512];
    let bytes = edges.get(start..start + length).unwrap_or_else(|| {
        let tail = &edges[start..];
        padded[..tail.len()].copy_from_slice(tail);
        &padded
    });
    macro_rules! read {
        ($($i:literal)*) => { $(rows[$i] = row::<$i, W>(bytes, base);)* };
    }
    read!(0 1 2 3 4 5 6 7 8 9 10 11 12 13 14 15);
    for (row, below) in rows.iter_mut().zip(&BELOW[base % BLOCK..]) {
        row[W - 1] &= below;
    }
}

/// The words of two blocks, side by side.
type Pair = [u64; 2];

/// Of every two words that lie so far apart, the higher half of each field of the one changes places with the lower
/// half of the other: halves of as many bytes, or of as many bits, of which the higher ones come first in a byte.
#[inline(always)]
fn exchange<const BYTES: bool>(words: &mut [Pair; 8], apart: usize) {
    let shift = if BYTES { 8 * apart } else { apart };
    let lower_halves = u64::MAX / ((1 << shift) + 1);
    for k in (0..8).filter(|k| k & apart == 0) {
        let (high, low) = if BYTES { (k, k + apart) } else { (k + apart, k) };
        (0..2).for_each(|side| {
            let differing = (words[high][side] >> shift ^ words[low][side]) & lower_halves;
            words[low][side] ^= differing;
            words[high][side] ^= differing << shift;
        });
    }
}

/// Both blocks are turned over: what row a has of b, row b gets of a.
#[inline(never)]
fn turn(block: &mut [Pair; BLOCK]) {
    for k in 0..8 {
        let mut words = array::from_fn(|i| block[k + 8 * i]);
        exchange::<true>(&mut words, 4);
        exchange::<true>(&mut words, 2);
        exchange::<true>(&mut words, 1);
        words.into_iter().enumerate().for_each(|(i, pair)| block[k + 8 * i] = pair);
    }
    for words in block.as_chunks_mut().0 {
        exchange::<false>(words, 4);
        exchange::<false>(words, 2);
        exchange::<false>(words, 1);
    }
}

/// The blocks of the lower half: the rows and the word.
const BLOCKS: [(usize, usize); 10] = [(0, 0), (1, 0), (1, 1), (2, 0), (2, 1), (2, 2), (3, 0), (3, 1), (3, 2), (3, 3)];

/// The upper half comes to mirror the lower one.
fn mirror(bands: &mut [[Set; BLOCK]]) {
    let words = bands.len();
    for pair in BLOCKS[..words * (words + 1) / 2].chunks(2) {
        let [(v, w), (y, z)] = [pair[0], pair[pair.len() - 1]].map(|(v, w)| (v % 4, w % 4));
        let mut block = array::from_fn(|i| [bands[v][i][w], bands[y][i][z]]);
        turn(&mut block);
        (0..BLOCK).for_each(|i| bands[w][i][v] |= block[i][0]);
        (0..BLOCK).for_each(|i| bands[z][i][y] |= block[i][1]);
    }
}

/// The rows of n nodes, in bands of 64; those from n on are empty.
pub fn matrix(edges: &[u8], n: usize) -> Vec<[Set; BLOCK]> {
    let mut bands = vec![[EMPTY; BLOCK]; n.div_ceil(BLOCK)];
    let rows = bands.as_flattened_mut();
    for (place, rows) in rows.as_chunks_mut().0.iter_mut().take(n.div_ceil(16)).enumerate() {
        match place / 4 {
            0 => lower::<1>(edges, 16 * place, rows),
            1 => lower::<2>(edges, 16 * place, rows),
            2 => lower::<3>(edges, 16 * place, rows),
            _ => lower::<4>(edges, 16 * place, rows),
        }
    }
    rows[n..n.next_multiple_of(16)].fill(EMPTY);
    mirror(&mut bands);
    bands
}
