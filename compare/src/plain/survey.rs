//! Surveys: records of 40 bits, most significant first, of which one counts for each pair. The ordinary sheet at a
//! threshold, and the position of the record that counts.

use super::packing::{edge_bytes, pairs};
use super::records::check_pairs;
use super::refusal::{refuse_if, Refusal};
use super::snapshot;
use super::state::check_node_count;

/// The bytes of a record.
pub const RECORD_BYTES: usize = 5;

/// The answer where a pair has no record.
pub const NONE: u64 = 1 << 63;

/// A measurement of a pair: two nodes (8 bits each) in either order, survey number (16), strength (8).
#[derive(Clone, Copy, Debug, PartialEq, Eq)]
pub struct Record {
    pub a: u8,
    pub b: u8,
    pub number: u16,
    pub strength: u8,
}

impl Record {
    /// The record in these `RECORD_BYTES` bytes.
    pub fn read(bytes: &[u8]) -> Record {
        let number = u16::from(bytes[2]) << 8 | u16::from(bytes[3]);
        Record { a: bytes[0], b: bytes[1], number, strength: bytes[4] }
    }

    fn is_of(&self, a: usize, b: usize) -> bool {
        let ends = (usize::from(self.a), usize::from(self.b));
        ends == (a, b) || ends == (b, a)
    }
}

struct Survey {
    records: Vec<Record>,
}

impl Survey {
    /// A survey of whole records; otherwise refusal 14.
    fn parse(bytes: &[u8]) -> Result<Survey, Refusal> {
        refuse_if(!bytes.len().is_multiple_of(RECORD_BYTES), Refusal::BadSurvey)?;
        Ok(Survey { records: bytes.chunks(RECORD_BYTES).map(Record::read).collect() })
    }

    /// The nodes that each record names.
    fn pairs(&self) -> Vec<(u64, u64)> {
        self.records.iter().map(|record| (record.a.into(), record.b.into())).collect()
    }

    /// Of two records of a pair, the one at `place` has the higher number, or the same and is later in the file.
    fn supersedes(&self, place: usize, other: usize) -> bool {
        let (mine, yours) = (self.records[place].number, self.records[other].number);
        mine > yours || mine == yours && place > other
    }

    /// The position of the pair's record that no other of the pair supersedes, or none if the pair has no record.
    fn counting(&self, a: usize, b: usize) -> Option<usize> {
        let own: Vec<usize> = (0..self.records.len()).filter(|&place| self.records[place].is_of(a, b)).collect();
        own.iter().copied().find(|&place| !own.iter().any(|&other| self.supersedes(other, place)))
    }

    /// The strength of the pair's record that counts reaches the threshold.
    fn joins(&self, a: usize, b: usize, threshold: u64) -> bool {
        self.counting(a, b).is_some_and(|place| u64::from(self.records[place].strength) >= threshold)
    }
}

/// Makes the ordinary snapshot of n nodes at a threshold in a buffer of exactly its length.
pub fn write(survey: &[u8], n: u64, threshold: u64, snapshot: &mut [u8]) -> Result<(), Refusal> {
    check_node_count(n)?;
    let count = n as usize;
    refuse_if(snapshot.len() != 1 + edge_bytes(count), Refusal::BufferLength)?;
    let survey = Survey::parse(survey)?;
    check_pairs(n, &survey.pairs())?;
    let joined = pairs(count).filter(|&(a, b)| survey.joins(a, b, threshold));
    let made = snapshot::of_pairs(count, joined);
    snapshot::hand_over(&made, snapshot)
}

/// The position of the record that counts for the pair a, b, the file's first being 0, or `NONE`.
pub fn position(survey: &[u8], n: u64, a: u64, b: u64) -> Result<u64, Refusal> {
    check_node_count(n)?;
    let survey = Survey::parse(survey)?;
    check_pairs(n, &[survey.pairs(), vec![(a, b)]].concat())?;
    Ok(survey.counting(a as usize, b as usize).map_or(NONE, |place| place as u64))
}
