//! A load of a schedule against the ordinary sheet: written at the minute and loaded, by one version.

use crate::calls::Calls;
use crate::memory::{Call, Kind, Memory};
use crate::plain::packing::edge_bytes;

/// An accepted load of a schedule leaves what a load of the sheet that is written at that minute leaves. Calls of other
/// kinds pass.
pub fn check(version: &dyn Calls, call: Call, before: &Memory, after: &Memory, answer: u64) -> Result<(), String> {
    if call.kind != Kind::ScheduleLoad || answer != 0 {
        return Ok(());
    }
    let n = before.figures.len() / 8;
    let mut copy = Memory { snapshot: vec![0xA5; 1 + edge_bytes(n)], ..before.clone() };
    for kind in [Kind::ScheduleWrite, Kind::Load] {
        let call = Call { kind, ..call };
        let refusal = copy.run(version, call);
        if refusal != 0 {
            return Err(format!("{call}: refusal {refusal}"));
        }
    }
    copy.snapshot = before.snapshot.clone();
    copy.difference(after).map_or(Ok(()), Err)
}
