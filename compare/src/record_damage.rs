//! Damage to the records of a schedule or of a survey.

use crate::rng::Rng;

/// The file is cut within its last record, or longer than its last record; records have this many bytes.
pub fn cut(rng: &mut Rng, size: usize, file: &mut Vec<u8>) {
    let length = rng.between(1, size - 1);
    if rng.chance(50) {
        file.truncate(file.len().saturating_sub(length));
    } else {
        file.extend(rng.bytes(length));
    }
}

/// The nodes of a record: two of n, which differ where n is above 1.
pub fn nodes(rng: &mut Rng, n: usize) -> [u8; 2] {
    let a = rng.below(n);
    [a as u8, ((a + rng.between(1, n)) % n) as u8]
}

/// One of the nodes of a record becomes n or more, where a byte holds that.
pub fn send_far(rng: &mut Rng, n: usize, nodes: &mut [u8; 2]) {
    nodes[rng.below(2)] = rng.between(n.min(255), 255) as u8;
}

/// Some records of a file, after so many other bytes, become such records, or such records come between them.
pub fn spoil<const SIZE: usize>(
    rng: &mut Rng,
    first: usize,
    file: &mut Vec<u8>,
    faulty: impl Fn(&mut Rng) -> [u8; SIZE],
) {
    for _ in 0..rng.between(1, 3) {
        let places = file.len() / SIZE;
        let at = first + SIZE * rng.below(places + 1);
        let replaced = if at + SIZE <= file.len() && rng.chance(50) { SIZE } else { 0 };
        file.splice(at..at + replaced, faulty(rng));
    }
}
