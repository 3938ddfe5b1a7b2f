//! A preview against the edit itself: done on a copy, and every node scored before it and after it, by one version.

use crate::calls::Calls;
use crate::memory::{Call, Kind, Memory};
use crate::plain::refusal::Refusal::{BufferLength, NodeCount};

/// The edit that a preview shows.
fn edit_of(preview: Kind) -> Option<Kind> {
    match preview {
        Kind::PreviewAdd => Some(Kind::Add),
        Kind::PreviewRemove => Some(Kind::Remove),
        _ => None,
    }
}

/// The refusal of a preview is that of the edit, or 2 for a count of changes that is not n; where it is accepted, the
/// changes are the differences of the scores, and 0 where there is no score. Calls of other kinds pass.
pub fn check(version: &dyn Calls, call: Call, before: &Memory, after: &Memory, answer: u64) -> Result<(), String> {
    let Some(kind) = edit_of(call.kind) else {
        return Ok(());
    };
    let n = before.figures.len() / 8;
    let mut copy = before.clone();
    copy.figures.truncate(8 * n);
    let refusal = copy.run(version, Call { kind, n: n as u64, ..call });
    let miscounted = refusal != NodeCount.number() && before.changes.len() != n;
    let due = if miscounted { BufferLength.number() } else { refusal };
    if answer != due {
        return Err(format!("the preview's answer: {answer}, due {due} beside {refusal} of the edit"));
    }
    if answer != 0 {
        return Ok(());
    }
    for (p, &change) in after.changes.iter().enumerate() {
        let score = |edges: &[u8]| version.score(n as u64, edges, p as u64);
        let due = match (score(&before.edges), score(&copy.edges)) {
            (old, new) if Kind::Score.refusal(old) == 0 && Kind::Score.refusal(new) == 0 => new as i64 - old as i64,
            (old, new) if old == new => 0,
            (old, new) => return Err(format!("node {p}: {old} is its score before the edit, {new} after it")),
        };
        if change != due {
            return Err(format!("change {p}: {change}, due {due} by the scores"));
        }
    }
    Ok(())
}
