//! Timed sheets: a byte n−1, then records of 48 bits, most significant first. The ordinary sheet at a minute, the next
//! change after a minute, and the load at a minute.

use super::packing::edge_bytes;
use super::records::check_pairs;
use super::refusal::{refuse_if, Refusal};
use super::snapshot;
use super::state::State;
use std::collections::BTreeSet;

/// The bytes of a record.
pub const RECORD_BYTES: usize = 6;

/// The answer where no later minute differs.
pub const NONE: u64 = 65_536;

/// The hours of a pair: two nodes (8 bits each) in either order, a from minute and a to minute (16 each).
#[derive(Clone, Copy, Debug, PartialEq, Eq)]
pub struct Record {
    pub a: u8,
    pub b: u8,
    pub from: u16,
    pub to: u16,
}

impl Record {
    /// The record in these `RECORD_BYTES` bytes.
    pub fn read(bytes: &[u8]) -> Record {
        let minute = |at: usize| u16::from(bytes[at]) << 8 | u16::from(bytes[at + 1]);
        Record { a: bytes[0], b: bytes[1], from: minute(2), to: minute(4) }
    }

    fn is_open(&self, minute: u16) -> bool {
        self.from <= minute && minute < self.to
    }

    /// The pair, its lower node first.
    fn pair(&self) -> (u8, u8) {
        (self.a.min(self.b), self.a.max(self.b))
    }
}

struct Schedule {
    n: usize,
    records: Vec<Record>,
}

impl Schedule {
    /// A schedule that is its first byte and whole records; otherwise refusal 9.
    fn parse(bytes: &[u8]) -> Result<Schedule, Refusal> {
        let (&first, rest) = bytes.split_first().ok_or(Refusal::BadSnapshot)?;
        refuse_if(rest.len() % RECORD_BYTES != 0, Refusal::BadSnapshot)?;
        Ok(Schedule { n: usize::from(first) + 1, records: rest.chunks(RECORD_BYTES).map(Record::read).collect() })
    }

    /// Refusals 4, 5 and 13, each over all records.
    fn check(&self) -> Result<(), Refusal> {
        let pairs: Vec<_> = self.records.iter().map(|record| (record.a.into(), record.b.into())).collect();
        check_pairs(self.n as u64, &pairs)?;
        refuse_if(self.records.iter().any(|record| record.from >= record.to), Refusal::NoHours)
    }

    /// The pairs that are joined at a minute: those of which some record has from ≤ minute < to.
    fn pairs_at(&self, minute: u16) -> BTreeSet<(u8, u8)> {
        self.records.iter().filter(|record| record.is_open(minute)).map(Record::pair).collect()
    }

    /// The ordinary snapshot at a minute.
    fn snapshot_at(&self, minute: u16) -> Vec<u8> {
        snapshot::of_pairs(self.n, self.pairs_at(minute).into_iter().map(|(a, b)| (a.into(), b.into())))
    }
}

/// Makes the ordinary snapshot at a minute in a buffer of exactly its length.
pub fn write(schedule: &[u8], minute: u16, snapshot: &mut [u8]) -> Result<(), Refusal> {
    let schedule = Schedule::parse(schedule)?;
    refuse_if(snapshot.len() != 1 + edge_bytes(schedule.n), Refusal::BufferLength)?;
    schedule.check()?;
    snapshot::hand_over(&schedule.snapshot_at(minute), snapshot)
}

/// The first minute after `minute` at which any edge differs from its state at `minute`, or `NONE`.
pub fn next(schedule: &[u8], minute: u16) -> Result<u64, Refusal> {
    let schedule = Schedule::parse(schedule)?;
    schedule.check()?;
    let now = schedule.pairs_at(minute);
    let mut later = (minute..=u16::MAX).skip(1);
    Ok(later.find(|&then| schedule.pairs_at(then) != now).map_or(NONE, u64::from))
}

/// Loads the ordinary snapshot at a minute.
pub fn load(state: State, schedule: &[u8], minute: u16) -> Result<(), Refusal> {
    let schedule = Schedule::parse(schedule)?;
    state.check()?;
    schedule.check()?;
    snapshot::load(state, &schedule.snapshot_at(minute))
}
