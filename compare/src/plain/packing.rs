//! Bits packed in bytes, most significant first, and the bit of a pair.

/// The bytes that hold `bits` bits.
pub fn bytes_for(bits: usize) -> usize {
    bits.div_ceil(8)
}

/// The number of pairs of n nodes: the edge bits.
pub fn pair_count(n: usize) -> usize {
    n * n.saturating_sub(1) / 2
}

/// The length of the edges buffer.
pub fn edge_bytes(n: usize) -> usize {
    bytes_for(pair_count(n))
}

/// The length of the marks buffer.
pub fn mark_bytes(n: usize) -> usize {
    bytes_for(n)
}

/// The fewest bytes of a list's scratch.
pub fn scratch_bytes(n: usize) -> usize {
    bytes_for(n)
}

/// The bit of the unordered pair a, b.
pub fn pair_index(a: usize, b: usize) -> usize {
    let (low, high) = if a < b { (a, b) } else { (b, a) };
    high * (high - 1) / 2 + low
}

/// The pairs a < b of n nodes, in bit order.
pub fn pairs(n: usize) -> impl Iterator<Item = (usize, usize)> {
    (0..n).flat_map(|b| (0..b).map(move |a| (a, b)))
}

/// Bit `index` of the bytes.
pub fn bit(bytes: &[u8], index: usize) -> bool {
    bytes[index / 8] & (128 >> (index % 8)) != 0
}

/// Bit `index` of the bytes becomes `value`; every other bit stays.
pub fn put_bit(bytes: &mut [u8], index: usize, value: bool) {
    let mask = 128 >> (index % 8);
    if value {
        bytes[index / 8] |= mask;
    } else {
        bytes[index / 8] &= !mask;
    }
}
