//! Damage to what a call is given.

use crate::boards::{node_count, random_edges};
use crate::crowd::{crowd, crowd_one};
use crate::memory::{Call, Kind, Memory};
use crate::plain::packing::{edge_bytes, mark_bytes, scratch_bytes};
use crate::rng::Rng;
use crate::schedule_damage::damage_schedule;
use crate::survey_damage::damage_survey;

/// What can go wrong with what a call is given.
#[derive(Clone, Copy)]
enum Damage {
    Edges,
    Marks,
    Figures,
    Scratch,
    Snapshot,
    SnapshotOfOther,
    SnapshotFirst,
    Schedule,
    Survey,
    Pins,
    Theirs,
    TheirPins,
    Base,
    Listed,
    Entries,
    Changes,
    N,
    A,
    B,
    Same,
    Crowd,
    CrowdOne,
    OtherBoard,
}

/// Another length than the right one.
fn wrong_length(rng: &mut Rng, right: usize) -> usize {
    match rng.below(6) {
        0 => 0,
        1 => right + 1,
        2 => right.saturating_sub(1),
        3 => 2 * right + 1,
        4 => right + rng.below(300),
        _ => rng.below(right + 2),
    }
}

fn resize(rng: &mut Rng, bytes: &mut Vec<u8>) {
    resize_about(rng, bytes, bytes.len());
}

/// The bytes come to another length than the right one: they are cut, or any others follow them.
fn resize_about(rng: &mut Rng, bytes: &mut Vec<u8>, right: usize) {
    let length = wrong_length(rng, right);
    let fresh = rng.bytes(length);
    let kept = bytes.len().min(length);
    bytes.truncate(length);
    bytes.extend(&fresh[kept..]);
}

/// One thing that a call of this kind can have wrong.
fn chosen(rng: &mut Rng, kind: Kind) -> Damage {
    use Damage::*;
    let own: &[Damage] = match kind {
        Kind::Clear => &[N],
        Kind::Score => &[N, A],
        Kind::PreviewAdd | Kind::PreviewRemove => &[Changes, Changes, A, B, Same, Crowd, Crowd, Crowd],
        Kind::Add | Kind::Remove => &[N, A, B, Same, Crowd, Crowd],
        Kind::Load => &[Snapshot, SnapshotOfOther, SnapshotFirst],
        Kind::Write => &[Snapshot],
        Kind::ScheduleWrite => &[Schedule, Schedule, Snapshot],
        Kind::ScheduleNext | Kind::ScheduleLoad => &[Schedule],
        Kind::SurveyWrite => &[Survey, Survey, Survey, Snapshot, N],
        Kind::SurveyPosition => &[Survey, Survey, N, A, B, Same],
        Kind::Reconcile => &[Theirs, Base, CrowdOne],
        Kind::ReconcilePinned => &[Pins, Theirs, TheirPins, Base, CrowdOne, CrowdOne],
        Kind::Conflict => &[N, Pins, Theirs, TheirPins, Base, CrowdOne],
        Kind::Nearest => &[N, A, Listed, Listed, CrowdOne, CrowdOne],
        Kind::List | Kind::ListEntries => &[Scratch, Entries],
    };
    if rng.chance(60) || !kind.has_state() {
        rng.pick(own)
    } else {
        rng.pick(&[Edges, Marks, Figures, OtherBoard])
    }
}

/// One thing that the call is given goes wrong.
pub fn damage(rng: &mut Rng, n: usize, memory: &mut Memory, call: &mut Call) {
    use Damage::*;
    let numbers = [0, 1, 255, 256, 257, 1 << 32, (1 << 32) + n as u64, u64::MAX];
    match chosen(rng, call.kind) {
        Edges => resize(rng, &mut memory.edges),
        Marks => resize(rng, &mut memory.marks),
        Figures => resize(rng, &mut memory.figures),
        Scratch => resize_about(rng, &mut memory.scratch, scratch_bytes(n)),
        Snapshot => resize(rng, &mut memory.snapshot),
        Schedule => damage_schedule(rng, &mut memory.schedule),
        Survey => damage_survey(rng, n, &mut memory.survey),
        Pins => resize(rng, &mut memory.pins),
        Theirs => resize(rng, &mut memory.theirs),
        TheirPins => resize(rng, &mut memory.their_pins),
        Base => resize(rng, &mut memory.base),
        Listed => spoil_list(rng, n, &mut memory.listed),
        Entries => {
            let length = wrong_length(rng, memory.entries.len());
            memory.entries.resize(length, 7);
        }
        Changes => {
            let length = wrong_length(rng, memory.changes.len());
            memory.changes.resize(length, rng.next() as i64);
        }
        N => call.n = rng.pick(&numbers),
        A => call.a = far(rng, n),
        B => call.b = far(rng, n),
        Same => call.b = call.a,
        Crowd => crowd(rng, n, &mut memory.edges, call.a, call.b),
        CrowdOne => crowd_one(rng, n, &mut memory.edges),
        SnapshotFirst => {
            if let Some(first) = memory.snapshot.first_mut() {
                *first = rng.next() as u8;
            }
        }
        SnapshotOfOther => memory.snapshot = other_snapshot(rng),
        OtherBoard => other_board(rng, n, memory, call),
    }
}

/// A number that is none of n nodes; its lowest bits may be those of one.
fn far(rng: &mut Rng, n: usize) -> u64 {
    let (n, node) = (n as u64, rng.below(n) as u64);
    rng.pick(&[n, n + 1, 256, 1 << 32, (1 << 32) + node, 1 << 63, u64::MAX])
}

/// A number that is no node comes into a list: first, last or anywhere, in the place of another or beside it.
fn spoil_list(rng: &mut Rng, n: usize, listed: &mut Vec<u64>) {
    let any = rng.below(listed.len() + 1);
    let at = rng.pick(&[0, any, listed.len().saturating_sub(1), listed.len()]);
    match listed.get_mut(at) {
        Some(number) if rng.chance(70) => *number = far(rng, n),
        _ => listed.insert(at, far(rng, n)),
    }
}

/// The snapshot of any number of nodes.
fn other_snapshot(rng: &mut Rng) -> Vec<u8> {
    let other = node_count(rng);
    [vec![(other - 1) as u8], random_edges(rng, other)].concat()
}

/// Another n altogether, 0 and 257 among them, with every length as it requires.
fn other_board(rng: &mut Rng, n: usize, memory: &mut Memory, call: &mut Call) {
    let other = rng.pick(&[0, 1, 2, n + 1, n.saturating_sub(1), 257, 300]);
    call.n = other as u64;
    memory.figures = rng.bytes(8 * other);
    memory.marks = rng.bytes(mark_bytes(other));
    let Memory { edges, pins, theirs, their_pins, base, .. } = memory;
    for bits in [edges, pins, theirs, their_pins, base] {
        *bits = rng.bytes(edge_bytes(other));
    }
    if matches!(call.kind, Kind::PreviewAdd | Kind::PreviewRemove) {
        memory.changes = (0..other).map(|_| rng.next() as i64).collect();
    }
}
