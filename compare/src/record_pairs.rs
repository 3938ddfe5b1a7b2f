//! The pairs of which the records of a random schedule or survey are.

use crate::boards::random_edges;
use crate::plain::limits::MAX_DEGREE;
use crate::plain::packing::{self, bit, pair_index};
use crate::rng::Rng;

/// What pairs the records are of.
#[derive(Clone, Copy)]
pub enum Style {
    /// A few, any.
    Few,
    /// One to three, with several records each.
    Repeated,
    /// Of one node, about as many as a node may hold, a few of them more than once.
    Crowded,
    /// Those of a whole board.
    Board,
}

impl Style {
    /// A style for n nodes; those of a whole board have many records.
    pub fn random(rng: &mut Rng, n: usize, boards: bool) -> Style {
        match rng.below(20) {
            0..=5 if n > MAX_DEGREE => Style::Crowded,
            6..=9 if boards => Style::Board,
            10..=14 => Style::Repeated,
            _ => Style::Few,
        }
    }
}

/// A pair of two different nodes, in either order; n is above 1.
pub fn pair(rng: &mut Rng, n: usize) -> (usize, usize) {
    let a = rng.below(n);
    (a, (a + rng.between(1, n - 1)) % n)
}

/// The nodes of a pair as a record has them, in either order.
pub fn ends(rng: &mut Rng, (a, b): (usize, usize)) -> (u8, u8) {
    if rng.chance(50) {
        (a as u8, b as u8)
    } else {
        (b as u8, a as u8)
    }
}

/// The pair of each record; none where there is one node.
pub fn pairs(rng: &mut Rng, n: usize, style: Style) -> Vec<(usize, usize)> {
    if n == 1 {
        return Vec::new();
    }
    match style {
        Style::Few => (0..rng.between(0, 12)).map(|_| pair(rng, n)).collect(),
        Style::Repeated => {
            let some: Vec<_> = (0..rng.between(1, 3)).map(|_| pair(rng, n)).collect();
            (0..rng.between(4, 30)).map(|_| rng.pick(&some)).collect()
        }
        Style::Crowded => {
            let p = rng.below(n);
            let mut others: Vec<usize> = (0..n).filter(|&q| q != p).collect();
            rng.shuffle(&mut others);
            others.truncate(rng.between(MAX_DEGREE - 1, MAX_DEGREE + 4));
            for _ in 0..rng.below(4) {
                others.push(rng.pick(&others));
            }
            others.into_iter().map(|q| (p, q)).collect()
        }
        Style::Board => {
            let edges = random_edges(rng, n);
            packing::pairs(n).filter(|&(a, b)| bit(&edges, pair_index(a, b))).collect()
        }
    }
}
