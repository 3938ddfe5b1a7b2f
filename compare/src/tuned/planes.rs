//! Whether a node has more edges than the limit: the degrees of all nodes at once, a plane of bits for each digit.

use super::matrix::{Set, EMPTY};
use super::refuse::LIMIT;

/// The digits of a degree; what is beyond them is above the limit.
type Planes = [Set; LIMIT.ilog2() as usize + 1];

/// For each node the sum of three bits: its digit, and its carry.
#[inline(always)]
fn add(x: Set, y: Set, z: Set) -> (Set, Set) {
    let (mut digits, mut carries) = (EMPTY, EMPTY);
    for w in 0..4 {
        let odd = x[w] ^ y[w];
        digits[w] = odd ^ z[w];
        carries[w] = x[w] & y[w] | odd & z[w];
    }
    (digits, carries)
}

/// Adds the bits of eight rows to the planes. The nodes whose sum passes these are left.
#[inline(always)]
fn add_eight(planes: &mut Planes, rows: &[Set; 8]) -> Set {
    let (ones, a) = add(planes[0], rows[0], rows[1]);
    let (ones, b) = add(ones, rows[2], rows[3]);
    let (ones, c) = add(ones, rows[4], rows[5]);
    let (ones, d) = add(ones, rows[6], rows[7]);
    let (twos, e) = add(planes[1], a, b);
    let (twos, f) = add(twos, c, d);
    let (fours, mut carries) = add(planes[2], e, f);
    [planes[0], planes[1], planes[2]] = [ones, twos, fours];
    for plane in &mut planes[3..] {
        (*plane, carries) = add(*plane, carries, EMPTY);
    }
    carries
}

/// A node is in more than `LIMIT` of the rows; their number is a multiple of eight.
pub fn any_over(rows: &[Set]) -> bool {
    let mut planes = [EMPTY; _];
    let mut passed = EMPTY;
    for eight in rows.as_chunks().0 {
        let carries = add_eight(&mut planes, eight);
        (0..4).for_each(|w| passed[w] |= carries[w]);
    }
    (0..4).any(|w| passed[w] | above(&planes, w) != 0)
}

/// The nodes of a word whose digits are those of a number above the limit.
fn above(planes: &Planes, w: usize) -> u64 {
    let digits = planes.iter().enumerate();
    digits.fold(0, |above, (digit, plane)| if LIMIT >> digit & 1 == 1 { above & plane[w] } else { above | plane[w] })
}
