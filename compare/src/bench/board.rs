//! A board that owns all that a call is lent.

use crate::calls::{Calls, Entry};
use crate::plain::packing::{bit, edge_bytes, mark_bytes, pair_index, pairs, put_bit, scratch_bytes};
use crate::rng::Rng;
use crate::tuned::BY_ROWS;

/// A state that owns its buffers, the figures in both forms.
#[derive(Clone)]
pub struct Board {
    pub n: usize,
    pub edges: Vec<u8>,
    pub bytes: Vec<u8>,
    pub figures: Vec<u64>,
    pub marks: Vec<u8>,
    /// The snapshot of the board; its edges are the base of a reconcile.
    pub snapshot: Vec<u8>,
    pub schedule: Vec<u8>,
    pub survey: Vec<u8>,
    pub pins: Vec<u8>,
    pub theirs: Vec<u8>,
    pub their_pins: Vec<u8>,
    pub listed: Vec<u64>,
    pub entries: Vec<u64>,
    pub records: Vec<Entry>,
    pub scratch: Vec<u8>,
    pub changes: Vec<i64>,
    /// The pair that an edit names or a survey is asked about, or the node that is scored or from which a search goes.
    pub a: u64,
    pub b: u64,
    /// The minute at which the schedule is read.
    pub minute: u16,
    /// The threshold at which the survey is read.
    pub threshold: u64,
    /// The hop limit of a search.
    pub hops: u8,
}

impl Board {
    /// A random board of n nodes with `links` edges at nearly every node, loaded: all open.
    pub fn random(rng: &mut Rng, n: usize, links: usize) -> Board {
        let mut pairs: Vec<_> = pairs(n).collect();
        rng.shuffle(&mut pairs);
        Board::of(n, links, pairs)
    }

    /// Rows of seats, two or more, loaded: blocks of `links` - 1 consecutive nodes, every two nodes of a block joined,
    /// and random edges between neighbouring blocks, one or two at about a quarter of the nodes.
    pub fn clustered(rng: &mut Rng, n: usize, links: usize) -> Board {
        let size = links - 1;
        let mut joined: Vec<_> = pairs(n).filter(|&(a, b)| a / size == b / size).collect();
        let last = (n - 1) / size * size;
        let mut between = vec![0; n];
        for _ in 0..n / 8 {
            let a = rng.below(last);
            let next = (a / size + 1) * size;
            let b = rng.between(next, (next + size).min(n) - 1);
            if between[a] < 2 && between[b] < 2 {
                joined.push((a, b));
                between[a] += 1;
                between[b] += 1;
            }
        }
        Board::of(n, links, joined)
    }

    /// The board with those of the pairs, taken in order, that leave each node within `links` edges, loaded: all open.
    fn of(n: usize, links: usize, pairs: Vec<(usize, usize)>) -> Board {
        let snapshot = snapshot(n, links, pairs);
        let mut board = Board {
            n,
            edges: vec![0; edge_bytes(n)],
            bytes: vec![0; 8 * n],
            figures: vec![0; n],
            marks: vec![0; mark_bytes(n)],
            pins: vec![0; edge_bytes(n)],
            theirs: Vec::new(),
            their_pins: vec![0; edge_bytes(n)],
            listed: Vec::new(),
            entries: vec![0; 16],
            records: vec![Entry::default(); 8],
            scratch: vec![0; scratch_bytes(n)],
            changes: vec![0; n],
            schedule: vec![snapshot[0]],
            survey: Vec::new(),
            snapshot,
            a: 0,
            b: 0,
            minute: 0,
            threshold: 0,
            hops: u8::MAX,
        };
        board.load(&BY_ROWS);
        board.theirs = board.edges.clone();
        board.pour();
        board
    }

    /// The figures as numbers become the figures as bytes.
    pub fn pour(&mut self) {
        self.bytes = self.figures.iter().flat_map(|figure| figure.to_le_bytes()).collect();
    }

    /// The figures as bytes become the figures as numbers.
    pub fn pour_back(&mut self) {
        self.figures = self
            .bytes
            .chunks_exact(8)
            .map(|bytes| u64::from_le_bytes(bytes.try_into().expect("eight bytes")))
            .collect();
    }

    /// The pairs that are joined, or those that are not.
    pub fn pairs(&self, joined: bool) -> Vec<(usize, usize)> {
        pairs(self.n).filter(|&(a, b)| bit(&self.edges, pair_index(a, b)) == joined).collect()
    }

    pub fn clear(&mut self, version: &dyn Calls) -> u64 {
        version.clear(self.n as u64, &mut self.edges, &mut self.bytes, &mut self.marks)
    }

    pub fn load(&mut self, version: &dyn Calls) -> u64 {
        version.load(&mut self.edges, &mut self.figures, &mut self.marks, &self.snapshot)
    }

    pub fn write(&mut self, version: &dyn Calls) -> u64 {
        version.write(&mut self.edges, &mut self.figures, &mut self.marks, &mut self.snapshot)
    }

    pub fn schedule_write(&mut self, version: &dyn Calls) -> u64 {
        version.schedule_write(&self.schedule, self.minute, &mut self.snapshot)
    }

    pub fn schedule_next(&mut self, version: &dyn Calls) -> u64 {
        version.schedule_next(&self.schedule, self.minute)
    }

    pub fn schedule_load(&mut self, version: &dyn Calls) -> u64 {
        version.schedule_load(&mut self.edges, &mut self.figures, &mut self.marks, &self.schedule, self.minute)
    }

    pub fn survey_write(&mut self, version: &dyn Calls) -> u64 {
        version.survey_write(&self.survey, self.n as u64, self.threshold, &mut self.snapshot)
    }

    pub fn survey_position(&mut self, version: &dyn Calls) -> u64 {
        version.survey_position(&self.survey, self.n as u64, self.a, self.b)
    }

    pub fn score(&mut self, version: &dyn Calls) -> u64 {
        version.score(self.n as u64, &self.edges, self.a)
    }

    pub fn add(&mut self, version: &dyn Calls) -> u64 {
        version.add(self.n as u64, &mut self.edges, &mut self.bytes, &mut self.marks, self.a, self.b)
    }

    pub fn remove(&mut self, version: &dyn Calls) -> u64 {
        version.remove(self.n as u64, &mut self.edges, &mut self.bytes, &mut self.marks, self.a, self.b)
    }

    pub fn preview_add(&mut self, version: &dyn Calls) -> u64 {
        version.preview_add(&self.edges, &self.figures, &self.marks, &mut self.changes, self.a, self.b)
    }

    pub fn preview_remove(&mut self, version: &dyn Calls) -> u64 {
        version.preview_remove(&self.edges, &self.figures, &self.marks, &mut self.changes, self.a, self.b)
    }

    pub fn reconcile(&mut self, version: &dyn Calls) -> u64 {
        version.reconcile(&mut self.edges, &mut self.figures, &mut self.marks, &self.theirs, &self.snapshot[1..])
    }

    pub fn reconcile_pinned(&mut self, version: &dyn Calls) -> u64 {
        let Board { edges, figures, marks, pins, theirs, their_pins, snapshot, .. } = self;
        version.reconcile_pinned(edges, figures, marks, pins, theirs, their_pins, &snapshot[1..])
    }

    pub fn conflict(&mut self, version: &dyn Calls) -> u64 {
        let Board { edges, n, pins, theirs, their_pins, snapshot, .. } = self;
        version.conflict(edges, *n as u64, pins, theirs, their_pins, &snapshot[1..])
    }

    pub fn nearest(&mut self, version: &dyn Calls) -> u64 {
        version.nearest(&self.edges, self.n as u64, self.a, &self.listed, self.hops)
    }

    pub fn list(&mut self, version: &dyn Calls) -> u64 {
        version.list(&mut self.edges, &mut self.figures, &mut self.marks, &mut self.entries, &mut self.scratch)
    }

    pub fn list_entries(&mut self, version: &dyn Calls) -> u64 {
        version.list_entries(&mut self.edges, &mut self.figures, &mut self.marks, &mut self.records, &mut self.scratch)
    }
}

/// The snapshot of those of the pairs, taken in order, that leave each node within `links` edges.
fn snapshot(n: usize, links: usize, pairs: Vec<(usize, usize)>) -> Vec<u8> {
    let mut snapshot = vec![0; 1 + edge_bytes(n)];
    snapshot[0] = (n - 1) as u8;
    let mut degrees = vec![0; n];
    for (a, b) in pairs {
        let absent = !bit(&snapshot[1..], pair_index(a, b));
        if absent && degrees[a] < links && degrees[b] < links {
            put_bit(&mut snapshot[1..], pair_index(a, b), true);
            degrees[a] += 1;
            degrees[b] += 1;
        }
    }
    snapshot
}
