//! The tuned version behind the C functions' signatures.

use super::{blocks, edit, list, merge, nearest, next_change, pinned, preview, schedule, score, snapshot, survey};
use crate::calls::{Calls, Entry};

/// How the nearest listed node is found: the answer, or a refusal.
type Search = fn(&[u8], u64, u64, &[u64], u8) -> Result<u64, u64>;

pub struct Tuned {
    name: &'static str,
    search: Search,
}

/// The search goes over rows that are made edge by edge.
pub const BY_ROWS: Tuned = Tuned { name: "tuned", search: nearest::nearest };
/// The search goes over a matrix that is made block by block.
pub const BY_BLOCKS: Tuned = Tuned { name: "tuned (blocks)", search: blocks::nearest };

impl Calls for Tuned {
    fn name(&self) -> &'static str {
        self.name
    }

    fn clear(&self, n: u64, edges: &mut [u8], figures: &mut [u8], marks: &mut [u8]) -> u64 {
        edit::clear(n, edges, figures, marks)
    }

    fn add(&self, n: u64, edges: &mut [u8], figures: &mut [u8], marks: &mut [u8], a: u64, b: u64) -> u64 {
        edit::edit(n, edges, figures, marks, a, b, true)
    }

    fn remove(&self, n: u64, edges: &mut [u8], figures: &mut [u8], marks: &mut [u8], a: u64, b: u64) -> u64 {
        edit::edit(n, edges, figures, marks, a, b, false)
    }

    fn preview_add(&self, edges: &[u8], figures: &[u64], marks: &[u8], changes: &mut [i64], a: u64, b: u64) -> u64 {
        preview::preview(edges, figures, marks, changes, a, b, true)
    }

    fn preview_remove(&self, edges: &[u8], figures: &[u64], marks: &[u8], changes: &mut [i64], a: u64, b: u64) -> u64 {
        preview::preview(edges, figures, marks, changes, a, b, false)
    }

    fn score(&self, n: u64, edges: &[u8], node: u64) -> u64 {
        score::score(n, edges, node).unwrap_or_else(u64::wrapping_neg)
    }

    fn load(&self, edges: &mut [u8], figures: &mut [u64], marks: &mut [u8], snapshot: &[u8]) -> u64 {
        snapshot::load(edges, figures, marks, snapshot)
    }

    fn write(&self, edges: &mut [u8], figures: &mut [u64], marks: &mut [u8], snapshot: &mut [u8]) -> u64 {
        snapshot::write(edges, figures, marks, snapshot)
    }

    fn schedule_write(&self, schedule: &[u8], minute: u16, snapshot: &mut [u8]) -> u64 {
        schedule::write(schedule, minute, snapshot)
    }

    fn schedule_next(&self, schedule: &[u8], minute: u16) -> u64 {
        next_change::next(schedule, minute).unwrap_or_else(u64::wrapping_neg)
    }

    fn schedule_load(
        &self,
        edges: &mut [u8],
        figures: &mut [u64],
        marks: &mut [u8],
        schedule: &[u8],
        minute: u16,
    ) -> u64 {
        schedule::load(edges, figures, marks, schedule, minute)
    }

    fn survey_write(&self, survey: &[u8], n: u64, threshold: u64, snapshot: &mut [u8]) -> u64 {
        survey::write(survey, n, threshold, snapshot).err().unwrap_or(0)
    }

    fn survey_position(&self, survey: &[u8], n: u64, a: u64, b: u64) -> u64 {
        survey::position(survey, n, a, b).unwrap_or_else(u64::wrapping_neg)
    }

    fn reconcile(&self, edges: &mut [u8], figures: &mut [u64], marks: &mut [u8], theirs: &[u8], base: &[u8]) -> u64 {
        merge::reconcile(edges, figures, marks, theirs, base)
    }

    fn reconcile_pinned(
        &self,
        edges: &mut [u8],
        figures: &mut [u64],
        marks: &mut [u8],
        pins: &[u8],
        theirs: &[u8],
        their_pins: &[u8],
        base: &[u8],
    ) -> u64 {
        pinned::reconcile_pinned(edges, figures, marks, pins, theirs, their_pins, base)
    }

    fn conflict(&self, edges: &[u8], n: u64, pins: &[u8], theirs: &[u8], their_pins: &[u8], base: &[u8]) -> u64 {
        pinned::conflict(edges, n, pins, theirs, their_pins, base).unwrap_or_else(u64::wrapping_neg)
    }

    fn nearest(&self, edges: &[u8], n: u64, node: u64, listed: &[u64], hops: u8) -> u64 {
        (self.search)(edges, n, node, listed, hops).unwrap_or_else(u64::wrapping_neg)
    }

    fn list(
        &self,
        edges: &mut [u8],
        figures: &mut [u64],
        marks: &mut [u8],
        entries: &mut [u64],
        scratch: &mut [u8],
    ) -> u64 {
        list::list(edges, figures, marks, entries, scratch).unwrap_or_else(u64::wrapping_neg)
    }

    fn list_entries(
        &self,
        edges: &mut [u8],
        figures: &mut [u64],
        marks: &mut [u8],
        entries: &mut [Entry],
        scratch: &mut [u8],
    ) -> u64 {
        list::list(edges, figures, marks, entries, scratch).unwrap_or_else(u64::wrapping_neg)
    }
}
