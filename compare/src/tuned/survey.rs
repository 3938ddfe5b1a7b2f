//! Surveys: the ordinary sheet at a threshold, and the position of the record that counts for a pair.

use super::records::{pair_of, Edges, Nodes};
use super::refuse::{edge_bytes, node_count, BAD_SURVEY, BUFFER_LENGTH, NO_SUCH_NODE, SAME_NODE};

/// The answer where a pair has no record.
const NONE: u64 = 1 << 63;

/// A record: two nodes in either order, the survey's number, and the strength.
#[derive(Clone, Copy)]
struct Record {
    a: u8,
    b: u8,
    number: u16,
    strength: u8,
}

/// The records of a survey, or refusal 14.
#[inline]
fn records(survey: &[u8]) -> Result<impl Iterator<Item = Record> + Clone + '_, u64> {
    if !survey.len().is_multiple_of(5) {
        return Err(BAD_SURVEY);
    }
    let record = |bytes: &[u8]| Record {
        a: bytes[0],
        b: bytes[1],
        number: u16::from_be_bytes([bytes[2], bytes[3]]),
        strength: bytes[4],
    };
    Ok(survey.chunks_exact(5).map(record))
}

pub fn write(survey: &[u8], n: u64, threshold: u64, snapshot: &mut [u8]) -> Result<(), u64> {
    let n = node_count(n)?;
    if snapshot.len() != 1 + edge_bytes(n) {
        return Err(BUFFER_LENGTH);
    }
    let records = records(survey)?;
    let mut nodes = Nodes::default();
    records.clone().for_each(|record| nodes.see(record.a, record.b));
    nodes.check(n)?;
    let mut edges = Edges::none();
    // the highest number of each pair so far; a pair without a record is as one that was measured in survey 0, in vain
    let mut latest = vec![0_u16; n * (n - 1) / 2];
    for Record { a, b, number, strength } in records {
        let index = pair_of(a, b);
        if number >= latest[index] {
            latest[index] = number;
            edges.put(index, a, b, u64::from(strength) >= threshold);
        }
    }
    edges.write(n, snapshot)
}

pub fn position(survey: &[u8], n: u64, a: u64, b: u64) -> Result<u64, u64> {
    let n = node_count(n)?;
    let records = records(survey)?;
    if a.max(b) >= n as u64 {
        return Err(NO_SUCH_NODE);
    }
    let (a, b) = (a as u8, b as u8);
    let mut nodes = Nodes::default();
    let (mut latest, mut found) = (0, NONE);
    for (place, record) in (0..).zip(records) {
        nodes.see(record.a, record.b);
        let own = (record.a, record.b) == (a, b) || (record.a, record.b) == (b, a);
        if own && record.number >= latest {
            latest = record.number;
            found = place;
        }
    }
    nodes.check(n)?;
    if a == b {
        return Err(SAME_NODE);
    }
    Ok(found)
}
