//! Cases by name, each on every call that has the thing tested: the description's that the proofs leave to a run,
//! the figures of small boards, what previews show and when they are refused, the sheets that are written and when a
//! write is refused, of timed sheets the sheets at a minute, loads at a minute, next changes, and when these are
//! refused, of surveys the sheets at a threshold, the records that count, and when these are refused, of pins the links
//! that stand, the first conflict, and when a reconcile with pins is refused, of the scratch the lists that it serves and
//! when one is refused, and of listed posts the nearest one and when the search for it is refused.

mod figures;
mod long_surveys;
mod nearest;
mod nearest_boards;
mod nearest_refusals;
mod next_changes;
mod pin_refusals;
mod pinned_boards;
mod pins;
mod preview_refusals;
mod previews;
mod refusals;
mod schedule_loads;
mod schedule_refusals;
mod schedules;
mod scratch;
mod shapes;
mod sheet_refusals;
mod sheets;
mod survey_refusals;
mod surveys;

use crate::calls::Calls;
use crate::memory::{Call, Kind, Memory};
use crate::plain::packing::{edge_bytes, mark_bytes, pair_count, pair_index, put_bit, scratch_bytes};

/// A board of n posts, with all that a call can be lent: of the lengths that n requires, one entry, no links anywhere,
/// a timed sheet and a survey without records, no listed posts, and a threshold and a hop limit of 0.
struct Board<'a> {
    version: &'a dyn Calls,
    n: usize,
    lent: Memory,
    minute: u16,
    threshold: u64,
    hops: u8,
}

impl<'a> Board<'a> {
    fn new(version: &'a dyn Calls, n: usize) -> Board<'a> {
        let links = vec![0; edge_bytes(n)];
        let lent = Memory {
            figures: vec![0; 8 * n],
            marks: vec![0; mark_bytes(n)],
            snapshot: sheet(n, &links),
            schedule: sheet(n, &[]),
            survey: Vec::new(),
            pins: links.clone(),
            theirs: links.clone(),
            their_pins: links.clone(),
            base: links.clone(),
            edges: links,
            listed: Vec::new(),
            entries: vec![0; 2],
            scratch: vec![0; scratch_bytes(n)],
            changes: vec![0; n],
        };
        Board { version, n, lent, minute: 0, threshold: 0, hops: 0 }
    }

    /// A call with the board's numbers.
    fn given(&self, kind: Kind, a: usize, b: usize) -> Call {
        let (n, minute, threshold, hops) = (self.n as u64, self.minute, self.threshold, self.hops);
        Call { kind, n, a: a as u64, b: b as u64, minute, threshold, hops }
    }

    /// What a call answers.
    fn answer(&mut self, kind: Kind, a: usize, b: usize) -> u64 {
        let call = self.given(kind, a, b);
        self.lent.run(self.version, call)
    }

    /// The refusal of a call, 0 for acceptance.
    fn call(&mut self, kind: Kind, a: usize, b: usize) -> u64 {
        kind.refusal(self.answer(kind, a, b))
    }

    /// The refusal of a load of a sheet with these links.
    fn load(&mut self, links: &[u8]) -> u64 {
        self.lent.snapshot = sheet(self.n, links);
        self.call(Kind::Load, 0, 0)
    }

    /// The refusal of a reconcile in which theirs has these links.
    fn reconcile(&mut self, theirs: Vec<u8>) -> u64 {
        self.lent.theirs = theirs;
        self.call(Kind::Reconcile, 0, 0)
    }

    /// The board after a call.
    fn then(mut self, kind: Kind, a: usize, b: usize) -> Board<'a> {
        self.call(kind, a, b);
        self
    }

    /// False figures and marks, and spare bits that are 1.
    fn falsify(&mut self) {
        self.lent.figures.fill(0xA5);
        self.lent.marks.fill(0x96);
        set_spare(&mut self.lent.marks, self.n);
        set_spare(&mut self.lent.edges, pair_count(self.n));
    }

    fn figures(&self) -> Vec<u64> {
        self.lent.figures.chunks(8).map(|bytes| u64::from_le_bytes(bytes.try_into().expect("eight bytes"))).collect()
    }

    /// The refusals of both lists, of k entries.
    fn lists(&mut self, k: usize) -> Vec<u64> {
        self.lent.entries = vec![0; 2 * k];
        [Kind::List, Kind::ListEntries].map(|kind| self.call(kind, 0, 0)).to_vec()
    }
}

/// The sheet of a board.
fn sheet(n: usize, links: &[u8]) -> Vec<u8> {
    [&[(n - 1) as u8], links].concat()
}

/// A record of a timed sheet: two posts, a from minute and a to minute.
type Hours = (u8, u8, u16, u16);

/// The timed sheet of n posts with these records.
fn timed(n: usize, records: &[Hours]) -> Vec<u8> {
    let bytes = |&(a, b, from, to): &Hours| [&[a, b][..], &from.to_be_bytes(), &to.to_be_bytes()].concat();
    sheet(n, &records.iter().flat_map(bytes).collect::<Vec<_>>())
}

/// A record of a survey: two posts, the survey's number, and the strength.
type Heard = (u8, u8, u16, u8);

/// The survey of these records.
fn survey(records: &[Heard]) -> Vec<u8> {
    let bytes = |&(a, b, number, strength): &Heard| [&[a, b][..], &number.to_be_bytes(), &[strength]].concat();
    records.iter().flat_map(bytes).collect()
}

/// The links of a board.
fn links(n: usize, pairs: &[(usize, usize)]) -> Vec<u8> {
    let mut links = vec![0; edge_bytes(n)];
    pairs.iter().for_each(|&(a, b)| put_bit(&mut links, pair_index(a, b), true));
    links
}

/// The bits of a buffer from `used` on become 1.
fn set_spare(bytes: &mut [u8], used: usize) {
    (used..8 * bytes.len()).for_each(|i| put_bit(bytes, i, true));
}

/// A board with these links.
fn board<'a>(version: &'a dyn Calls, n: usize, pairs: &[(usize, usize)]) -> Board<'a> {
    let mut board = Board::new(version, n);
    board.lent.edges = links(n, pairs);
    board
}

/// The links of p to each of the others.
fn spokes(p: usize, others: impl Iterator<Item = usize>) -> Vec<(usize, usize)> {
    others.map(|q| (p, q)).collect()
}

/// All links of n posts.
fn all_links(n: usize) -> Vec<(usize, usize)> {
    (0..n).flat_map(|b| spokes(b, 0..b)).collect()
}

/// What a call answers, and whether all that it is lent is as it was.
type Answer = (u64, bool);

/// A case's name, the number that is due, and what refused calls answer on a version.
type Refused = (&'static str, u64, fn(&dyn Calls) -> Vec<Answer>);

/// Runs cases of refused calls on a version and prints their names.
fn run_refused(version: &dyn Calls, call: &str, cases: &[Refused]) -> Result<(), String> {
    for (name, due, case) in cases {
        let found = case(version);
        if found.iter().any(|&answer| answer != (*due, true)) {
            let name_of = version.name();
            return Err(format!("case `{name}` of {call} on {name_of}: {found:?}, due {due} with all as it was"));
        }
        println!("case on {}: {call}: {name}: ok", version.name());
    }
    Ok(())
}

/// Runs every case on a version and prints its name.
pub fn run(version: &dyn Calls) -> Result<(), String> {
    for (name, due, case) in refusals::CASES {
        let found = case(version);
        if found.iter().any(|&number| number != due) {
            return Err(format!("case `{name}` on {}: answers {found:?}, due {due} each", version.name()));
        }
        println!("case on {}: {name}: ok", version.name());
    }
    for (name, due, marks, case) in figures::CASES {
        let board = case(version);
        let found = (board.figures(), board.lent.marks[0]);
        if found != (due.to_vec(), marks) {
            return Err(format!("case `{name}` on {}: {found:?}, due {due:?} and {marks}", version.name()));
        }
        println!("case on {}: {name}: ok", version.name());
    }
    previews::run(version)?;
    run_refused(version, "preview", &preview_refusals::CASES)?;
    sheets::run(version)?;
    run_refused(version, "write", &sheet_refusals::CASES)?;
    schedules::run(version)?;
    schedule_loads::run(version)?;
    next_changes::run(version)?;
    run_refused(version, "timed sheet", &schedule_refusals::CASES)?;
    surveys::run(version)?;
    run_refused(version, "survey", &survey_refusals::CASES)?;
    pins::run(version)?;
    pinned_boards::run(version)?;
    run_refused(version, "pins", &pin_refusals::CASES)?;
    scratch::run(version)?;
    run_refused(version, "scratch", &scratch::REFUSED)?;
    nearest::run(version)?;
    run_refused(version, "nearest", &nearest_refusals::CASES)
}
