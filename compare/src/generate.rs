//! Random calls, with what they bring.

use crate::boards::{approach, level, node_count, random_edges, set_spare};
use crate::memory::{Call, Kind, Memory};
use crate::plain::graph::Graph;
use crate::plain::packing::{bit, edge_bytes, pair_count, pair_index, scratch_bytes};
use crate::reconciles::{bring_pins, bring_theirs};
use crate::rng::Rng;
use crate::schedules::schedule;
use crate::searches::bring_search;
use crate::sparse::sparse_edges;
use crate::surveys::survey;

/// A pair of nodes, joined or not as wished where one is soon found; half of the time, neighbours of one node first.
fn pair(rng: &mut Rng, n: usize, edges: &[u8], joined: bool) -> (usize, usize) {
    let all: Vec<usize> = (0..n).collect();
    let mut first = all.clone();
    if rng.chance(50) {
        let neighbours = Graph::read(n, edges).neighbours(rng.below(n));
        if neighbours.len() > 1 {
            first = neighbours;
        }
    }
    let mut found = (rng.pick(&first), rng.pick(&first));
    for attempt in 0..200 {
        let (a, b) = found;
        if a != b && bit(edges, pair_index(a, b)) == joined {
            break;
        }
        let nodes = if attempt < 50 { &first } else { &all };
        found = (rng.pick(nodes), rng.pick(nodes));
    }
    found
}

/// The next call of a history, with what it brings put into the memory.
pub fn next_call(rng: &mut Rng, n: usize, memory: &mut Memory) -> Call {
    let kind = match rng.below(100) {
        0..=1 => Kind::Clear,
        2..=4 => Kind::Load,
        5..=7 => Kind::Write,
        8..=9 => Kind::ScheduleWrite,
        10..=11 => Kind::ScheduleNext,
        12..=13 => Kind::ScheduleLoad,
        14..=15 => Kind::SurveyWrite,
        16..=17 => Kind::SurveyPosition,
        18..=22 => Kind::Score,
        23..=27 => Kind::PreviewAdd,
        28..=48 => Kind::Add,
        49..=53 => Kind::PreviewRemove,
        54..=67 => Kind::Remove,
        68..=73 => Kind::Reconcile,
        74..=79 => Kind::ReconcilePinned,
        80..=82 => Kind::Conflict,
        83..=86 => Kind::Nearest,
        87..=93 => Kind::List,
        _ => Kind::ListEntries,
    };
    call_of_kind(rng, n, memory, kind)
}

/// The snapshot of a load.
fn bring_snapshot(rng: &mut Rng, n: usize, memory: &mut Memory) {
    memory.snapshot = vec![(n - 1) as u8];
    memory.snapshot.extend(random_edges(rng, n));
    if rng.chance(10) {
        let used = 8 + pair_count(n);
        set_spare(rng, &mut memory.snapshot, used);
    }
}

/// The entries and the scratch of a list.
fn bring_entries(rng: &mut Rng, n: usize, memory: &mut Memory) {
    let k = match rng.below(10) {
        0 => n,
        1..=3 => rng.between(1, n),
        _ => rng.between(1, n.min(6)),
    };
    let odd = usize::from(rng.chance(5));
    memory.entries = (0..2 * k + odd).map(|_| rng.next()).collect();
    memory.scratch = scratch(rng, n);
    if rng.chance(20) {
        level(rng, n, memory);
    }
}

/// A scratch of any bytes or of ones: mostly of the fewest bytes, or a few more, up to one for each node.
fn scratch(rng: &mut Rng, n: usize) -> Vec<u8> {
    let fewest = scratch_bytes(n);
    let length = match rng.below(10) {
        0..=5 => fewest,
        6 => fewest + 1,
        7 => fewest + rng.below(40),
        _ => n,
    };
    if rng.chance(20) {
        vec![255; length]
    } else {
        rng.bytes(length)
    }
}

/// The nodes of an edit: mostly a joined pair to remove, an unjoined one to add.
fn edited_pair(rng: &mut Rng, n: usize, edges: &[u8], removes: bool) -> (usize, usize) {
    let joined = removes == rng.chance(94);
    pair(rng, n, edges, joined)
}

/// A call that stands alone. A search is then often on a board whose nodes lie far apart; in a history the board is that
/// of the calls before.
pub fn single_call(rng: &mut Rng, n: usize, memory: &mut Memory, kind: Kind) -> Call {
    if kind == Kind::Nearest && rng.chance(45) {
        memory.edges = sparse_edges(rng, n);
    }
    call_of_kind(rng, n, memory, kind)
}

/// A call of this kind that is mostly accepted.
pub fn call_of_kind(rng: &mut Rng, n: usize, memory: &mut Memory, kind: Kind) -> Call {
    let mut call = Call { kind, n: n as u64, a: 0, b: 0, minute: 0, threshold: 0, hops: 0 };
    match kind {
        Kind::Clear => {}
        Kind::Score => call.a = rng.below(n) as u64,
        Kind::PreviewAdd | Kind::PreviewRemove => {
            let (a, b) = edited_pair(rng, n, &memory.edges, kind == Kind::PreviewRemove);
            (call.a, call.b) = (a as u64, b as u64);
            memory.changes = (0..n).map(|_| rng.next() as i64).collect();
        }
        Kind::Add | Kind::Remove => {
            let (a, b) = edited_pair(rng, n, &memory.edges, kind == Kind::Remove);
            (call.a, call.b) = (a as u64, b as u64);
            if rng.chance(20) {
                approach(rng, n, memory, |graph| graph.common(a, b));
            }
        }
        Kind::Load => bring_snapshot(rng, n, memory),
        Kind::Write => memory.snapshot = rng.bytes(1 + edge_bytes(n)),
        Kind::ScheduleWrite | Kind::ScheduleNext | Kind::ScheduleLoad => {
            let n = if rng.chance(90) { n } else { node_count(rng) };
            (memory.schedule, call.minute) = schedule(rng, n, kind == Kind::ScheduleNext);
            memory.snapshot = rng.bytes(1 + edge_bytes(n));
        }
        Kind::SurveyWrite | Kind::SurveyPosition => {
            (memory.survey, call.threshold, (call.a, call.b)) = survey(rng, n);
            memory.snapshot = rng.bytes(1 + edge_bytes(n));
        }
        Kind::Reconcile => bring_theirs(rng, n, memory),
        Kind::ReconcilePinned | Kind::Conflict => {
            bring_theirs(rng, n, memory);
            bring_pins(rng, n, memory);
        }
        Kind::Nearest => bring_search(rng, n, memory, &mut call),
        Kind::List | Kind::ListEntries => bring_entries(rng, n, memory),
    }
    call
}

#[cfg(test)]
mod tests {
    use super::call_of_kind;
    use crate::boards::{node_count, state};
    use crate::damage::damage;
    use crate::memory::{Kind, Memory};
    use crate::plain::packing::scratch_bytes;
    use crate::rng::Rng;

    /// What lists are lent on boards whose n is no multiple of 8, as generated and after damage.
    fn lists(kind: Kind) -> Vec<(usize, Memory)> {
        let mut rng = Rng::new(8);
        let mut all = Vec::new();
        for _ in 0..4_000 {
            let n = node_count(&mut rng);
            let mut memory = state(&mut rng, n);
            let mut call = call_of_kind(&mut rng, n, &mut memory, kind);
            if rng.chance(50) {
                damage(&mut rng, n, &mut memory, &mut call);
            }
            if !n.is_multiple_of(8) && memory.figures.len() == 8 * n {
                all.push((n, memory));
            }
        }
        all
    }

    #[test]
    fn lists_meet_scratches_about_their_length() {
        for kind in [Kind::List, Kind::ListEntries] {
            let lists = lists(kind);
            let met = |what: &dyn Fn(usize, &[u8]) -> bool| lists.iter().any(|(n, lent)| what(*n, &lent.scratch));
            assert!(met(&|_, scratch| scratch.is_empty()));
            assert!(met(&|n, scratch| n > 8 && scratch.len() == scratch_bytes(n) - 1));
            assert!(met(&|n, scratch| n > 8 && scratch.len() == scratch_bytes(n) && scratch.iter().all(|&b| b == 255)));
            assert!(met(&|n, scratch| n > 8 && scratch.len() == scratch_bytes(n) + 1));
            assert!(met(&|n, scratch| n > 120 && scratch.len() == n));
        }
    }

    #[test]
    fn lists_meet_boards_of_equal_figures() {
        for kind in [Kind::List, Kind::ListEntries] {
            let lists = lists(kind);
            for figure in [0, u64::MAX] {
                let level = |lent: &Memory| lent.figures.chunks(8).all(|bytes| bytes == figure.to_le_bytes());
                for mark in [0, 255] {
                    let marked = |lent: &Memory| lent.marks.iter().all(|&byte| byte == mark);
                    assert!(lists.iter().any(|(n, lent)| *n > 16 && level(lent) && marked(lent)), "{figure} {mark}");
                }
            }
        }
    }
}
