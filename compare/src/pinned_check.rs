//! A reconcile with pins against the reconcile and the first conflict of the same version.

use crate::calls::Calls;
use crate::memory::{Call, Kind, Memory};
use crate::plain::packing::{edge_bytes, pair_count};
use crate::plain::pinned::NONE;
use crate::plain::refusal::Refusal::{BufferLength, Conflict, Crowded, NodeCount};

/// An accepted reconcile with pins leaves what the reconcile leaves. It is refused for a conflict exactly if the first
/// conflict is a pair, where nothing that is tested earlier refuses it. With no pair confirmed it answers and leaves what
/// the reconcile does. Calls of other kinds pass.
pub fn check(version: &dyn Calls, call: Call, before: &Memory, after: &Memory, answer: u64) -> Result<(), String> {
    if call.kind != Kind::ReconcilePinned {
        return Ok(());
    }
    let n = before.figures.len() / 8;
    let mut reconciled = before.clone();
    let refusal = reconciled.run(version, Call { kind: Kind::Reconcile, ..call });
    if answer == 0 {
        same("reconcile", refusal, &reconciled, 0, after)?;
    }
    if ![NodeCount, BufferLength, Crowded].map(|refusal| refusal.number()).contains(&answer) {
        check_conflict(version, Call { kind: Kind::Conflict, n: n as u64, ..call }, before, answer)?;
    }
    if before.pins.len() == edge_bytes(n) && before.their_pins.len() == edge_bytes(n) {
        let unpinned = vec![0; edge_bytes(n)];
        let mut copy = Memory { pins: unpinned.clone(), their_pins: unpinned, ..before.clone() };
        let unpinned_answer = copy.run(version, call);
        let copy = Memory { pins: before.pins.clone(), their_pins: before.their_pins.clone(), ..copy };
        same("reconcile, beside no pins", refusal, &reconciled, unpinned_answer, &copy)?;
    }
    Ok(())
}

/// The answer and the memory that a call leaves are those of another.
fn same(call: &str, due: u64, left: &Memory, answer: u64, memory: &Memory) -> Result<(), String> {
    if answer != due {
        return Err(format!("the answer: {answer}, {due} of the {call}"));
    }
    memory.difference(left).map_or(Ok(()), |what| Err(format!("{what} of the {call}")))
}

/// The first conflict is a pair exactly if the answer of the reconcile with pins is that there is one.
fn check_conflict(version: &dyn Calls, call: Call, before: &Memory, answer: u64) -> Result<(), String> {
    let found = before.clone().run(version, call);
    let agrees = if answer == Conflict.number() { found < pair_count(call.n as usize) as u64 } else { found == NONE };
    if agrees {
        Ok(())
    } else {
        Err(format!("the answer: {answer}, beside {found} as the first conflict"))
    }
}
