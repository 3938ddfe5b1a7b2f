//! Clear, add and remove over figures that are bytes.

use super::bound::{bound, inside};
use super::refuse::{self, BUFFER_LENGTH};
use super::rows::{count, each_of, either, lower, pair, set_bit, EMPTY};
use super::touched::Touched;

fn put(figures: &mut [u8], p: usize, figure: u64) {
    figures[8 * p..8 * p + 8].copy_from_slice(&figure.to_le_bytes());
}

fn get(figures: &[u8], p: usize) -> u64 {
    u64::from_le_bytes(figures[8 * p..8 * p + 8].try_into().expect("eight bytes"))
}

fn check(n: u64, edges: &[u8], figures: &[u8], marks: &[u8]) -> u64 {
    let refusal = refuse::state(n, edges, marks);
    if refusal == 0 && figures.len() as u64 != 8 * n {
        return BUFFER_LENGTH;
    }
    refusal
}

pub fn clear(n: u64, edges: &mut [u8], figures: &mut [u8], marks: &mut [u8]) -> u64 {
    let refusal = check(n, edges, figures, marks);
    if refusal == 0 {
        edges.fill(0);
        figures.fill(0);
        marks.fill(0);
    }
    refusal
}

pub fn edit(n: u64, edges: &mut [u8], figures: &mut [u8], marks: &mut [u8], a: u64, b: u64, adds: bool) -> u64 {
    let refusal = check(n, edges, figures, marks);
    if refusal != 0 {
        return refusal;
    }
    let n = n as usize;
    let touched = match Touched::new(n, edges, a, b, adds) {
        Ok(touched) => touched,
        Err(refusal) => return refusal,
    };
    let (low, high) = touched.ends();
    let index = pair(low, high);
    edges[index / 8] ^= 128 >> (index % 8);
    let rows = touched.rows();
    let mut lowers = vec![EMPTY; n];
    each_of(&rows.iter().fold(EMPTY, either), |q| lowers[q] = lower(edges, q));
    for (place, (&p, own)) in touched.nodes().iter().zip(rows).enumerate() {
        let p = usize::from(p);
        let mut figure = bound(count(own), inside(own, &lowers));
        if adds && place > 1 {
            figure = figure.min(get(figures, p));
        }
        put(figures, p, figure);
        set_bit(marks, p);
    }
    0
}
