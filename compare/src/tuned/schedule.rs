//! Timed sheets: the ordinary sheet at a minute, and the load at a minute.

use super::records::{pair_of, Edges, Nodes, MOST_BYTES};
use super::refuse::{self, edge_bytes, BAD_SNAPSHOT, BUFFER_LENGTH, NO_HOURS, OTHER_NODE_COUNT};
use super::snapshot;

/// A record: two nodes in either order, and hours.
#[derive(Clone, Copy)]
pub struct Record {
    pub a: u8,
    pub b: u8,
    pub from: u16,
    pub to: u16,
}

impl Record {
    /// The bit of the pair of two different nodes.
    #[inline]
    pub fn pair(self) -> usize {
        pair_of(self.a, self.b)
    }
}

/// A schedule's node count and the bytes of its records.
#[derive(Clone, Copy)]
pub struct Schedule<'a> {
    pub n: usize,
    bytes: &'a [u8],
}

impl<'a> Schedule<'a> {
    /// The schedule, or refusal 9.
    #[inline]
    pub fn parse(schedule: &'a [u8]) -> Result<Schedule<'a>, u64> {
        match schedule.split_first() {
            Some((&first, bytes)) if bytes.len().is_multiple_of(6) => Ok(Schedule { n: usize::from(first) + 1, bytes }),
            _ => Err(BAD_SNAPSHOT),
        }
    }

    /// The number of records.
    #[inline]
    pub fn count(self) -> usize {
        self.bytes.len() / 6
    }

    #[inline]
    pub fn records(self) -> impl Iterator<Item = Record> + 'a {
        self.bytes.chunks_exact(6).map(|bytes| Record {
            a: bytes[0],
            b: bytes[1],
            from: u16::from_be_bytes([bytes[2], bytes[3]]),
            to: u16::from_be_bytes([bytes[4], bytes[5]]),
        })
    }

    /// Refusals 4, 5 and 13, in one pass over the records.
    #[inline]
    pub fn check(self) -> Result<(), u64> {
        let (mut nodes, mut closed) = (Nodes::default(), false);
        for record in self.records() {
            nodes.see(record.a, record.b);
            closed |= record.from >= record.to;
        }
        nodes.check(self.n)?;
        if closed {
            return Err(NO_HOURS);
        }
        Ok(())
    }

    /// Calls `visit` with the bit and the nodes of each record that is open at a minute.
    #[inline]
    fn each_open(self, minute: u16, mut visit: impl FnMut(usize, Record)) {
        for record in self.records() {
            if record.from <= minute && minute < record.to {
                visit(record.pair(), record);
            }
        }
    }
}

pub fn write(schedule: &[u8], minute: u16, snapshot: &mut [u8]) -> u64 {
    made(schedule, minute, snapshot).err().unwrap_or(0)
}

fn made(schedule: &[u8], minute: u16, snapshot: &mut [u8]) -> Result<(), u64> {
    let schedule = Schedule::parse(schedule)?;
    if snapshot.len() != 1 + edge_bytes(schedule.n) {
        return Err(BUFFER_LENGTH);
    }
    schedule.check()?;
    let mut edges = Edges::none();
    schedule.each_open(minute, |index, record| edges.put(index, record.a, record.b, true));
    edges.write(schedule.n, snapshot)
}

pub fn load(edges: &mut [u8], figures: &mut [u64], marks: &mut [u8], schedule: &[u8], minute: u16) -> u64 {
    let schedule = match Schedule::parse(schedule) {
        Ok(schedule) => schedule,
        Err(refusal) => return refusal,
    };
    let n = figures.len();
    let refusal = refuse::state(n as u64, edges, marks);
    if refusal != 0 {
        return refusal;
    }
    if let Err(refusal) = schedule.check() {
        return refusal;
    }
    if schedule.n != n {
        return OTHER_NODE_COUNT;
    }
    let mut bits = [0; MOST_BYTES];
    schedule.each_open(minute, |index, _| bits[index / 8] |= 128 >> (index % 8));
    snapshot::put(edges, figures, marks, &bits[..edge_bytes(n)])
}
