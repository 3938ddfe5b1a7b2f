//! One call with everything that is lent to it.

use crate::calls::{Calls, Entry};
use crate::plain::refusal::Refusal;
use std::fmt;

#[derive(Clone, Copy, Debug, PartialEq, Eq)]
pub enum Kind {
    Clear,
    Load,
    Write,
    ScheduleWrite,
    ScheduleNext,
    ScheduleLoad,
    SurveyWrite,
    SurveyPosition,
    Score,
    PreviewAdd,
    Add,
    PreviewRemove,
    Remove,
    Reconcile,
    ReconcilePinned,
    Conflict,
    Nearest,
    List,
    ListEntries,
}

pub const KINDS: [Kind; 19] = [
    Kind::Clear,
    Kind::Load,
    Kind::Write,
    Kind::ScheduleWrite,
    Kind::ScheduleNext,
    Kind::ScheduleLoad,
    Kind::SurveyWrite,
    Kind::SurveyPosition,
    Kind::Score,
    Kind::PreviewAdd,
    Kind::Add,
    Kind::PreviewRemove,
    Kind::Remove,
    Kind::Reconcile,
    Kind::ReconcilePinned,
    Kind::Conflict,
    Kind::Nearest,
    Kind::List,
    Kind::ListEntries,
];

/// A call and the numbers that it is given; those that its kind does not take are ignored.
#[derive(Clone, Copy, Debug)]
pub struct Call {
    pub kind: Kind,
    pub n: u64,
    pub a: u64,
    pub b: u64,
    pub minute: u16,
    pub threshold: u64,
    pub hops: u8,
}

impl fmt::Display for Call {
    fn fmt(&self, f: &mut fmt::Formatter) -> fmt::Result {
        let Call { kind, n, a, b, minute, threshold, hops } = self;
        match kind {
            Kind::Clear => write!(f, "clear, n = {n}"),
            Kind::Score => write!(f, "score, n = {n}, node {a}"),
            Kind::PreviewAdd => write!(f, "preview of an add, {a} and {b}"),
            Kind::Add => write!(f, "add, n = {n}, {a} and {b}"),
            Kind::PreviewRemove => write!(f, "preview of a remove, {a} and {b}"),
            Kind::Remove => write!(f, "remove, n = {n}, {a} and {b}"),
            Kind::Load => write!(f, "load"),
            Kind::Write => write!(f, "write"),
            Kind::ScheduleWrite => write!(f, "snapshot of a schedule at minute {minute}"),
            Kind::ScheduleNext => write!(f, "next change after minute {minute}"),
            Kind::ScheduleLoad => write!(f, "load of a schedule at minute {minute}"),
            Kind::SurveyWrite => write!(f, "snapshot of a survey, n = {n}, threshold {threshold}"),
            Kind::SurveyPosition => write!(f, "record of a survey that counts, n = {n}, {a} and {b}"),
            Kind::Reconcile => write!(f, "reconcile"),
            Kind::ReconcilePinned => write!(f, "reconcile with pins"),
            Kind::Conflict => write!(f, "first conflict, n = {n}"),
            Kind::Nearest => write!(f, "nearest listed node, n = {n}, from {a}, at most {hops} hops"),
            Kind::List => write!(f, "list"),
            Kind::ListEntries => write!(f, "list, entries as records"),
        }
    }
}

impl Kind {
    /// The refusal in an answer of this kind of call, 0 for acceptance.
    pub fn refusal(self, answer: u64) -> u64 {
        match self {
            Kind::Score
            | Kind::ScheduleNext
            | Kind::SurveyPosition
            | Kind::Conflict
            | Kind::Nearest
            | Kind::List
            | Kind::ListEntries => {
                let negated = answer.wrapping_neg();
                if negated <= Refusal::LAST {
                    negated
                } else {
                    0
                }
            }
            _ => answer,
        }
    }

    /// The call is lent a state, or a part of it with its n.
    pub fn has_state(self) -> bool {
        !matches!(self, Kind::ScheduleWrite | Kind::ScheduleNext | Kind::SurveyWrite | Kind::SurveyPosition)
    }
}

/// Every buffer that a call can be lent.
#[derive(Clone, Default, PartialEq, Eq)]
pub struct Memory {
    pub edges: Vec<u8>,
    /// Each figure as eight bytes, least significant first; calls that take numbers are lent as
    /// many as there are whole ones.
    pub figures: Vec<u8>,
    pub marks: Vec<u8>,
    pub snapshot: Vec<u8>,
    pub schedule: Vec<u8>,
    pub survey: Vec<u8>,
    pub pins: Vec<u8>,
    pub theirs: Vec<u8>,
    pub their_pins: Vec<u8>,
    pub base: Vec<u8>,
    pub listed: Vec<u64>,
    /// The plain entries; as records, as many as there are whole ones.
    pub entries: Vec<u64>,
    pub scratch: Vec<u8>,
    pub changes: Vec<i64>,
}

impl Memory {
    /// Runs the call of one version over this memory.
    pub fn run(&mut self, version: &dyn Calls, call: Call) -> u64 {
        let Call { kind, n, a, b, minute, threshold, hops } = call;
        let Memory { edges, marks, snapshot, schedule, survey, pins, theirs, their_pins, base, .. } = self;
        let Memory { figures, listed, entries, scratch, changes, .. } = self;
        match kind {
            Kind::Clear => version.clear(n, edges, figures, marks),
            Kind::Add => version.add(n, edges, figures, marks, a, b),
            Kind::Remove => version.remove(n, edges, figures, marks, a, b),
            Kind::Score => version.score(n, edges, a),
            Kind::PreviewAdd => {
                over_numbers(figures, |figures| version.preview_add(edges, figures, marks, changes, a, b))
            }
            Kind::PreviewRemove => {
                over_numbers(figures, |figures| version.preview_remove(edges, figures, marks, changes, a, b))
            }
            Kind::Load => over_numbers(figures, |figures| version.load(edges, figures, marks, snapshot)),
            Kind::Write => over_numbers(figures, |figures| version.write(edges, figures, marks, snapshot)),
            Kind::ScheduleWrite => version.schedule_write(schedule, minute, snapshot),
            Kind::ScheduleNext => version.schedule_next(schedule, minute),
            Kind::ScheduleLoad => {
                over_numbers(figures, |figures| version.schedule_load(edges, figures, marks, schedule, minute))
            }
            Kind::SurveyWrite => version.survey_write(survey, n, threshold, snapshot),
            Kind::SurveyPosition => version.survey_position(survey, n, a, b),
            Kind::Reconcile => over_numbers(figures, |figures| version.reconcile(edges, figures, marks, theirs, base)),
            Kind::ReconcilePinned => over_numbers(figures, |figures| {
                version.reconcile_pinned(edges, figures, marks, pins, theirs, their_pins, base)
            }),
            Kind::Conflict => version.conflict(edges, n, pins, theirs, their_pins, base),
            Kind::Nearest => version.nearest(edges, n, a, listed, hops),
            Kind::List => over_numbers(figures, |figures| version.list(edges, figures, marks, entries, scratch)),
            Kind::ListEntries => over_records(entries, |entries| {
                over_numbers(figures, |figures| version.list_entries(edges, figures, marks, entries, scratch))
            }),
        }
    }

    /// The buffers of bytes, by name.
    fn bytes(&self) -> [(&'static str, &[u8]); 11] {
        [
            ("edges", &self.edges),
            ("figures", &self.figures),
            ("marks", &self.marks),
            ("snapshot", &self.snapshot),
            ("schedule", &self.schedule),
            ("survey", &self.survey),
            ("pins", &self.pins),
            ("theirs", &self.theirs),
            ("their pins", &self.their_pins),
            ("base", &self.base),
            ("scratch", &self.scratch),
        ]
    }

    /// The buffers of unsigned numbers, by name.
    fn numbers(&self) -> [(&'static str, &[u64]); 2] {
        [("listed", &self.listed), ("entries", &self.entries)]
    }

    /// Where two memories differ first: the buffer, the place and both values.
    pub fn difference(&self, other: &Memory) -> Option<String> {
        for ((name, mine), (_, yours)) in self.bytes().into_iter().zip(other.bytes()) {
            if let Some((place, mine, yours)) = first_difference(mine, yours) {
                return Some(format!("{name} byte {place}: {mine:#04x} against {yours:#04x}"));
            }
        }
        for ((name, mine), (_, yours)) in self.numbers().into_iter().zip(other.numbers()) {
            if let Some((place, mine, yours)) = first_difference(mine, yours) {
                return Some(format!("{name} number {place}: {mine} against {yours}"));
            }
        }
        let (place, mine, yours) = first_difference(&self.changes, &other.changes)?;
        Some(format!("change {place}: {mine} against {yours}"))
    }
}

/// Runs a call over figures as numbers.
fn over_numbers(figures: &mut [u8], call: impl FnOnce(&mut [u64]) -> u64) -> u64 {
    let mut numbers: Vec<u64> =
        figures.chunks_exact(8).map(|bytes| u64::from_le_bytes(bytes.try_into().expect("eight bytes"))).collect();
    let answer = call(&mut numbers);
    for (bytes, number) in figures.chunks_exact_mut(8).zip(numbers) {
        bytes.copy_from_slice(&number.to_le_bytes());
    }
    answer
}

/// Runs a call over entries as records.
fn over_records(entries: &mut [u64], call: impl FnOnce(&mut [Entry]) -> u64) -> u64 {
    let mut records: Vec<Entry> =
        entries.chunks_exact(2).map(|pair| Entry { node: pair[0], figure: pair[1] }).collect();
    let answer = call(&mut records);
    for (pair, record) in entries.chunks_exact_mut(2).zip(records) {
        pair.copy_from_slice(&[record.node, record.figure]);
    }
    answer
}

/// Where two buffers of one length differ first, and both values there.
fn first_difference<T: Copy + PartialEq>(mine: &[T], yours: &[T]) -> Option<(usize, T, T)> {
    (0..mine.len()).map(|place| (place, mine[place], yours[place])).find(|(_, mine, yours)| mine != yours)
}

/// The buffers, long ones cut.
impl fmt::Display for Memory {
    fn fmt(&self, f: &mut fmt::Formatter) -> fmt::Result {
        for (name, buffer) in self.bytes() {
            write!(f, "  {name}, {} bytes:", buffer.len())?;
            for byte in buffer.iter().take(64) {
                write!(f, " {byte:02x}")?;
            }
            writeln!(f, "{}", if buffer.len() > 64 { " .." } else { "" })?;
        }
        write!(f, "  listed, {} numbers:", self.listed.len())?;
        for number in self.listed.iter().take(32) {
            write!(f, " {number}")?;
        }
        writeln!(f, "{}", if self.listed.len() > 32 { " .." } else { "" })?;
        writeln!(f, "  entries, {} numbers", self.entries.len())?;
        writeln!(f, "  changes, {} numbers", self.changes.len())
    }
}
