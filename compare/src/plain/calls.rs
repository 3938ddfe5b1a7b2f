//! The plain version behind the C functions' signatures.

use super::refusal::{refuse_if, Refusal};
use super::score::Scorer;
use super::state::{check_node_count, State};
use super::{clear, edit, list, nearest, pinned, preview, reconcile, schedule, score, snapshot, survey};
use crate::calls::{Calls, Entry};

/// The plain version with one of its two ways to score.
pub struct Plain {
    pub name: &'static str,
    pub scorer: Scorer,
}

/// The refusal number, 0 for acceptance.
fn number(answer: Result<(), Refusal>) -> u64 {
    answer.map_or_else(Refusal::number, |()| 0)
}

/// A value, or 2^64 less the refusal number.
fn value(answer: Result<u64, Refusal>) -> u64 {
    answer.unwrap_or_else(|refusal| refusal.number().wrapping_neg())
}

/// Runs a call over figures that are 8n bytes, each figure least significant byte first; another
/// length is refusal 2.
fn over_bytes(
    n: u64,
    edges: &mut [u8],
    figures: &mut [u8],
    marks: &mut [u8],
    call: impl FnOnce(State) -> Result<(), Refusal>,
) -> Result<(), Refusal> {
    check_node_count(n)?;
    refuse_if(figures.len() as u64 != 8 * n, Refusal::BufferLength)?;
    let mut numbers: Vec<u64> = figures
        .chunks_exact(8)
        .map(|bytes| bytes.iter().rev().fold(0, |sum, &byte| sum << 8 | u64::from(byte)))
        .collect();
    let answer = call(State { edges, figures: &mut numbers, marks });
    for (bytes, number) in figures.chunks_exact_mut(8).zip(numbers) {
        for (place, byte) in bytes.iter_mut().enumerate() {
            *byte = (number >> (8 * place)) as u8;
        }
    }
    answer
}

impl Calls for Plain {
    fn name(&self) -> &'static str {
        self.name
    }

    fn clear(&self, n: u64, edges: &mut [u8], figures: &mut [u8], marks: &mut [u8]) -> u64 {
        number(over_bytes(n, edges, figures, marks, clear::clear))
    }

    fn add(&self, n: u64, edges: &mut [u8], figures: &mut [u8], marks: &mut [u8], a: u64, b: u64) -> u64 {
        number(over_bytes(n, edges, figures, marks, |state| edit::add(state, a, b)))
    }

    fn remove(&self, n: u64, edges: &mut [u8], figures: &mut [u8], marks: &mut [u8], a: u64, b: u64) -> u64 {
        number(over_bytes(n, edges, figures, marks, |state| edit::remove(state, a, b)))
    }

    fn preview_add(&self, edges: &[u8], figures: &[u64], marks: &[u8], changes: &mut [i64], a: u64, b: u64) -> u64 {
        number(preview::preview(edges, figures, marks, changes, |copy| edit::add(copy, a, b), self.scorer))
    }

    fn preview_remove(&self, edges: &[u8], figures: &[u64], marks: &[u8], changes: &mut [i64], a: u64, b: u64) -> u64 {
        number(preview::preview(edges, figures, marks, changes, |copy| edit::remove(copy, a, b), self.scorer))
    }

    fn score(&self, n: u64, edges: &[u8], node: u64) -> u64 {
        value(score::score(n, edges, node, self.scorer))
    }

    fn load(&self, edges: &mut [u8], figures: &mut [u64], marks: &mut [u8], snapshot: &[u8]) -> u64 {
        number(snapshot::load(State { edges, figures, marks }, snapshot))
    }

    fn write(&self, edges: &mut [u8], figures: &mut [u64], marks: &mut [u8], snapshot: &mut [u8]) -> u64 {
        number(snapshot::write(State { edges, figures, marks }, snapshot))
    }

    fn schedule_write(&self, schedule: &[u8], minute: u16, snapshot: &mut [u8]) -> u64 {
        number(schedule::write(schedule, minute, snapshot))
    }

    fn schedule_next(&self, schedule: &[u8], minute: u16) -> u64 {
        value(schedule::next(schedule, minute))
    }

    fn schedule_load(
        &self,
        edges: &mut [u8],
        figures: &mut [u64],
        marks: &mut [u8],
        schedule: &[u8],
        minute: u16,
    ) -> u64 {
        number(schedule::load(State { edges, figures, marks }, schedule, minute))
    }

    fn survey_write(&self, survey: &[u8], n: u64, threshold: u64, snapshot: &mut [u8]) -> u64 {
        number(survey::write(survey, n, threshold, snapshot))
    }

    fn survey_position(&self, survey: &[u8], n: u64, a: u64, b: u64) -> u64 {
        value(survey::position(survey, n, a, b))
    }

    fn reconcile(&self, edges: &mut [u8], figures: &mut [u64], marks: &mut [u8], theirs: &[u8], base: &[u8]) -> u64 {
        number(reconcile::reconcile(State { edges, figures, marks }, theirs, base))
    }

    fn reconcile_pinned(
        &self,
        edges: &mut [u8],
        figures: &mut [u64],
        marks: &mut [u8],
        pins: &[u8],
        theirs: &[u8],
        their_pins: &[u8],
        base: &[u8],
    ) -> u64 {
        number(pinned::reconcile_pinned(State { edges, figures, marks }, pins, theirs, their_pins, base))
    }

    fn conflict(&self, edges: &[u8], n: u64, pins: &[u8], theirs: &[u8], their_pins: &[u8], base: &[u8]) -> u64 {
        value(pinned::conflict(edges, n, pins, theirs, their_pins, base))
    }

    fn nearest(&self, edges: &[u8], n: u64, node: u64, listed: &[u64], hops: u8) -> u64 {
        value(nearest::nearest(edges, n, node, listed, hops))
    }

    fn list(
        &self,
        edges: &mut [u8],
        figures: &mut [u64],
        marks: &mut [u8],
        entries: &mut [u64],
        scratch: &mut [u8],
    ) -> u64 {
        value(list::list(State { edges, figures, marks }, entries, scratch, self.scorer))
    }

    fn list_entries(
        &self,
        edges: &mut [u8],
        figures: &mut [u64],
        marks: &mut [u8],
        entries: &mut [Entry],
        scratch: &mut [u8],
    ) -> u64 {
        value(list::list_entries(State { edges, figures, marks }, entries, scratch, self.scorer))
    }
}
