//! The comparison: random histories and single damaged calls, every answer and every lent byte and number.

use crate::boards::{corrupt, node_count, state};
use crate::calls::Calls;
use crate::damage::damage;
use crate::generate::{call_of_kind, next_call, single_call};
use crate::memory::{Call, Kind, Memory, KINDS};
use crate::plain::calls::Plain;
use crate::plain::refusal::Refusal;
use crate::plain::{derived, paths};
use crate::rng::Rng;
use crate::{nearest_check, pinned_check, preview_check, schedule_check};

const BY_PATHS: Plain = Plain { name: "plain (paths)", scorer: paths::score };
const BY_FORM: Plain = Plain { name: "plain (derived form)", scorer: derived::score };

/// A check of a call against other calls of the same version: the memory before it, after it, and its answer.
type Check = fn(&dyn Calls, Call, &Memory, &Memory, u64) -> Result<(), String>;

/// The checks, each with what a call stands against.
const CHECKS: [(Check, &str); 4] = [
    (preview_check::check, "its own edit and scores"),
    (schedule_check::check, "its own snapshot"),
    (pinned_check::check, "its own reconcile and first conflict"),
    (nearest_check::check, "its own other searches"),
];

/// What a run met: how often each kind of call gave each refusal.
#[derive(Default)]
pub struct Tally {
    pub calls: usize,
    pub histories: usize,
    pub singles: usize,
    refusals: [[usize; Refusal::LAST as usize + 1]; KINDS.len()],
}

impl Tally {
    fn count(&mut self, kind: Kind, answer: u64) {
        self.calls += 1;
        let row = KINDS.iter().position(|&other| other == kind).expect("every kind is listed");
        self.refusals[row][kind.refusal(answer) as usize] += 1;
    }

    /// A line for each kind of call, a column for each refusal number.
    pub fn table(&self) -> String {
        let mut out = format!("{:<15}", "refusal");
        for number in 0..=Refusal::LAST {
            out += &format!("{number:>7}");
        }
        for (kind, row) in KINDS.iter().zip(&self.refusals) {
            out += &format!("\n{:<15}", format!("{kind:?}").to_lowercase());
            for &times in row {
                out += &if times == 0 { format!("{:>7}", ".") } else { format!("{times:>7}") };
            }
        }
        out
    }
}

/// Compares one call of `version` with the plain version, and with other calls of its own. The memory ends as the plain
/// version leaves it.
fn compare(version: &dyn Calls, call: Call, memory: &mut Memory) -> Result<u64, String> {
    let before = memory.clone();
    let answer = memory.run(&BY_PATHS, call);
    let scores = [Kind::Score, Kind::PreviewAdd, Kind::PreviewRemove, Kind::List, Kind::ListEntries];
    if scores.contains(&call.kind) {
        agree(&BY_FORM, call, &before, memory, answer)?;
    }
    agree(version, call, &before, memory, answer)?;
    for (check, other) in CHECKS {
        check(version, call, &before, memory, answer).map_err(|what| {
            format!("{} against {other}, {call}\n  {what}\nbefore the call:\n{before}", version.name())
        })?;
    }
    Ok(answer)
}

/// `version` gives the answer and the memory that the plain version gave.
fn agree(version: &dyn Calls, call: Call, before: &Memory, after: &Memory, answer: u64) -> Result<(), String> {
    let mut own = before.clone();
    let given = own.run(version, call);
    let what = if given != answer {
        format!("the answer: {given} against {answer}")
    } else if let Some(place) = own.difference(after) {
        place
    } else {
        return Ok(());
    };
    Err(format!("{} against {}, {call}\n  {what}\nbefore the call:\n{before}", version.name(), BY_PATHS.name))
}

/// The steps of a history; a single call is a history of 1.
fn length(rng: &mut Rng, single: bool) -> usize {
    if single {
        1
    } else if rng.chance(50) {
        rng.between(2, 12)
    } else {
        rng.between(40, 240)
    }
}

/// The call of one step, with what it brings put into the memory.
fn call_of_step(rng: &mut Rng, n: usize, memory: &mut Memory, step: usize, single: bool) -> Call {
    let kind = rng.pick(&KINDS);
    match step {
        0 if single => single_call(rng, n, memory, kind),
        0 if rng.chance(45) => call_of_kind(rng, n, memory, Kind::Clear),
        0 if rng.chance(80) => {
            let load = rng.pick(&[Kind::Load, Kind::ScheduleLoad]);
            call_of_kind(rng, n, memory, load)
        }
        _ => next_call(rng, n, memory),
    }
}

/// Runs one history from a random state. The error is the difference, after the number of its step.
fn history(version: &dyn Calls, rng: &mut Rng, tally: &mut Tally) -> Result<(), (usize, String)> {
    let n = node_count(rng);
    let mut memory = state(rng, n);
    let single = rng.chance(97);
    for step in 0..length(rng, single) {
        let mut call = call_of_step(rng, n, &mut memory, step, single);
        // a damaged call is made on a copy, so that the history goes on from whole buffers
        let damaged = rng.chance(if single { 60 } else { 6 });
        let mut copy = memory.clone();
        let lent = if damaged { &mut copy } else { &mut memory };
        if damaged {
            for _ in 0..rng.between(1, 2) {
                damage(rng, n, lent, &mut call);
            }
        }
        let answer = compare(version, call, lent).map_err(|difference| (step + 1, difference))?;
        tally.count(call.kind, answer);
        if rng.chance(3) {
            corrupt(rng, n, &mut memory);
        }
    }
    if single {
        tally.singles += 1;
    } else {
        tally.histories += 1;
    }
    Ok(())
}

/// Runs about `calls` calls from `seed`.
pub fn run(version: &dyn Calls, seed: u64, calls: usize) -> Result<Tally, String> {
    let mut tally = Tally::default();
    let mut seeds = Rng::new(seed);
    while tally.calls < calls {
        let mut rng = Rng::new(seeds.next());
        history(version, &mut rng, &mut tally).map_err(|(step, difference)| {
            let number = tally.calls + 1;
            let place = format!("seed {seed}, call {number} (step {step} of its history)");
            format!("DIFFERENCE at {place}; seed {seed} with {number} calls shows it again\n  {difference}")
        })?;
    }
    Ok(tally)
}
