//! The links of boards of a simple shape.

pub type Pairs = Vec<(usize, usize)>;

/// Each post linked to the next.
pub fn path(n: usize) -> Pairs {
    (1..n).map(|b| (b - 1, b)).collect()
}

/// A path from post 0 that goes on by so many posts at a time, beyond the last from the first on; n has no factor in
/// common with them.
pub fn stride(n: usize, step: usize) -> Pairs {
    path(n).into_iter().map(|(a, b)| (a * step % n, b * step % n)).collect()
}

/// A path whose ends are linked.
pub fn ring(n: usize) -> Pairs {
    (0..n).map(|p| (p, (p + 1) % n)).collect()
}

/// Rows of so many seats, each linked to those beside, before and behind it.
pub fn grid(n: usize, width: usize) -> Pairs {
    let beside = path(n).into_iter().filter(|&(_, b)| b % width != 0);
    beside.chain((width..n).map(|b| (b - width, b))).collect()
}
