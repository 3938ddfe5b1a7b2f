//! What a random reconcile brings: theirs and the base, and the pins of both editors.

use crate::boards::{approach, random_edges, set_spare};
use crate::crowd::crowd_one;
use crate::memory::Memory;
use crate::plain::packing::{bit, edge_bytes, pair_count, put_bit};
use crate::rng::Rng;

/// `edges` with a few bits the other way.
fn varied(rng: &mut Rng, n: usize, edges: &[u8], most: usize) -> Vec<u8> {
    let mut bytes = edges.to_vec();
    if n > 1 {
        for _ in 0..rng.between(0, most) {
            let index = rng.below(pair_count(n));
            // more removals than additions, so that full boards stay within the limit
            let value = !bit(&bytes, index) && rng.chance(60);
            put_bit(&mut bytes, index, value);
        }
    }
    bytes
}

/// Theirs and the base of a reconcile.
pub fn bring_theirs(rng: &mut Rng, n: usize, memory: &mut Memory) {
    let most = if rng.chance(10) { 60 } else { 8 };
    memory.base = varied(rng, n, &memory.edges, most);
    let base = memory.base.clone();
    memory.theirs = if rng.chance(8) { random_edges(rng, n) } else { varied(rng, n, &base, most) };
    if rng.chance(20) {
        crowd_one(rng, n, &mut memory.theirs);
    }
    for bits in [&mut memory.theirs, &mut memory.base] {
        set_spare_at_times(rng, n, bits);
    }
    if rng.chance(20) {
        approach(rng, n, memory, |_| (0..n).collect());
    }
}

/// Some of the spare bits of a buffer that has a bit for each pair become 1, three times in ten.
fn set_spare_at_times(rng: &mut Rng, n: usize, bits: &mut [u8]) {
    if rng.chance(30) {
        set_spare(rng, bits, pair_count(n));
    }
}

/// The pins of one editor: none, a few or many, of any pairs.
fn some_pins(rng: &mut Rng, n: usize) -> Vec<u8> {
    let mut pins = vec![0; edge_bytes(n)];
    match rng.below(10) {
        0..=2 => {}
        3..=5 if n > 1 => (0..rng.between(1, 8)).for_each(|_| put_bit(&mut pins, rng.below(pair_count(n)), true)),
        _ => {
            let percent = rng.pick(&[5, 50, 95, 100]);
            (0..pair_count(n)).for_each(|index| put_bit(&mut pins, index, rng.chance(percent)));
        }
    }
    pins
}

/// Of a pair that the editors left different, the one who left it as the base has it confirms it, which is a conflict, or
/// does not.
fn confirm(memory: &mut Memory, index: usize, value: bool) {
    let kept = bit(&memory.edges, index) == bit(&memory.base, index);
    let pins = if kept { &mut memory.pins } else { &mut memory.their_pins };
    put_bit(pins, index, value);
}

/// Of the pairs that the editors left different, those stay in conflict that are, or none, one, often the last, or about
/// half come to be.
fn confirm_some(rng: &mut Rng, n: usize, memory: &mut Memory) {
    let differs = |index: &usize| bit(&memory.edges, *index) != bit(&memory.theirs, *index);
    let different: Vec<usize> = (0..pair_count(n)).filter(differs).collect();
    let Some(&last) = different.last() else {
        return;
    };
    let any = rng.pick(&different);
    let (percent, one) = match rng.below(12) {
        0..=2 => return,
        3..=7 => (0, None),
        8..=9 => (0, Some(rng.pick(&[any, last]))),
        _ => (50, None),
    };
    different.iter().for_each(|&index| confirm(memory, index, rng.chance(percent)));
    one.into_iter().for_each(|index| confirm(memory, index, true));
}

/// The pins of both editors, theirs and the base being there: none at all, any, such that there is no conflict, or such
/// that there are some where the editors left pairs different.
pub fn bring_pins(rng: &mut Rng, n: usize, memory: &mut Memory) {
    let none = rng.chance(12);
    for pins in [&mut memory.pins, &mut memory.their_pins] {
        *pins = if none { vec![0; edge_bytes(n)] } else { some_pins(rng, n) };
    }
    if !none {
        confirm_some(rng, n, memory);
    }
    for pins in [&mut memory.pins, &mut memory.their_pins] {
        set_spare_at_times(rng, n, pins);
    }
}
