//! Every call as its C function gives it: numbers by value, memory lent as slices, one number back.

/// An entry as a record: a node's number and its grains.
#[repr(C)]
#[derive(Clone, Copy, Debug, Default, PartialEq, Eq)]
pub struct Entry {
    pub node: u64,
    pub figure: u64,
}

pub trait Calls: Sync {
    /// What is called, for messages.
    fn name(&self) -> &'static str;
    fn clear(&self, n: u64, edges: &mut [u8], figures: &mut [u8], marks: &mut [u8]) -> u64;
    fn add(&self, n: u64, edges: &mut [u8], figures: &mut [u8], marks: &mut [u8], a: u64, b: u64) -> u64;
    fn remove(&self, n: u64, edges: &mut [u8], figures: &mut [u8], marks: &mut [u8], a: u64, b: u64) -> u64;
    fn preview_add(&self, edges: &[u8], figures: &[u64], marks: &[u8], changes: &mut [i64], a: u64, b: u64) -> u64;
    fn preview_remove(&self, edges: &[u8], figures: &[u64], marks: &[u8], changes: &mut [i64], a: u64, b: u64) -> u64;
    fn score(&self, n: u64, edges: &[u8], node: u64) -> u64;
    fn load(&self, edges: &mut [u8], figures: &mut [u64], marks: &mut [u8], snapshot: &[u8]) -> u64;
    fn write(&self, edges: &mut [u8], figures: &mut [u64], marks: &mut [u8], snapshot: &mut [u8]) -> u64;
    /// The ordinary snapshot of a schedule at a minute.
    fn schedule_write(&self, schedule: &[u8], minute: u16, snapshot: &mut [u8]) -> u64;
    /// The first minute after this one at which any edge differs, or 65,536.
    fn schedule_next(&self, schedule: &[u8], minute: u16) -> u64;
    fn schedule_load(
        &self,
        edges: &mut [u8],
        figures: &mut [u64],
        marks: &mut [u8],
        schedule: &[u8],
        minute: u16,
    ) -> u64;
    /// The ordinary snapshot of a survey: the pairs of which the record that counts reaches a threshold.
    fn survey_write(&self, survey: &[u8], n: u64, threshold: u64, snapshot: &mut [u8]) -> u64;
    /// The position of the record of a survey that counts for a pair, or 2^63.
    fn survey_position(&self, survey: &[u8], n: u64, a: u64, b: u64) -> u64;
    fn reconcile(&self, edges: &mut [u8], figures: &mut [u64], marks: &mut [u8], theirs: &[u8], base: &[u8]) -> u64;
    /// Reconcile where the pins of either editor, a bit for each pair, confirm pairs.
    #[expect(clippy::too_many_arguments, reason = "the C function has them")]
    fn reconcile_pinned(
        &self,
        edges: &mut [u8],
        figures: &mut [u64],
        marks: &mut [u8],
        pins: &[u8],
        theirs: &[u8],
        their_pins: &[u8],
        base: &[u8],
    ) -> u64;
    /// The bit of the first pair on which both editors have spoken and which they left different, or 2^32.
    fn conflict(&self, edges: &[u8], n: u64, pins: &[u8], theirs: &[u8], their_pins: &[u8], base: &[u8]) -> u64;
    /// The listed node that is reached over the fewest edges, at most `hops`, and of several the lowest number, as
    /// edges · 65,536 + node, or 2^32.
    fn nearest(&self, edges: &[u8], n: u64, node: u64, listed: &[u64], hops: u8) -> u64;
    fn list(
        &self,
        edges: &mut [u8],
        figures: &mut [u64],
        marks: &mut [u8],
        entries: &mut [u64],
        scratch: &mut [u8],
    ) -> u64;
    /// The list over entries as records; `list` has them in a row of numbers.
    fn list_entries(
        &self,
        edges: &mut [u8],
        figures: &mut [u64],
        marks: &mut [u8],
        entries: &mut [Entry],
        scratch: &mut [u8],
    ) -> u64;
}
