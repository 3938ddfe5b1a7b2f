//! Damage to a schedule.

use crate::plain::schedule::RECORD_BYTES;
use crate::record_damage::{cut, nodes, send_far, spoil};
use crate::rng::Rng;

/// What can be wrong with a record, in the order in which it is tested.
#[derive(Clone, Copy)]
enum Fault {
    Far,
    Same,
    Empty,
    Reversed,
}

const FAULTS: [Fault; 4] = [Fault::Far, Fault::Same, Fault::Empty, Fault::Reversed];

/// A record of a schedule of n nodes with one of these faults, or with two.
fn faulty(rng: &mut Rng, n: usize, faults: &[Fault]) -> [u8; RECORD_BYTES] {
    let mut ends = nodes(rng, n);
    let minute = rng.below(65_535) as u16;
    let mut hours = [minute, minute + 1];
    for _ in 0..rng.between(1, 2) {
        match rng.pick(faults) {
            Fault::Far => send_far(rng, n, &mut ends),
            Fault::Same => ends[1] = ends[0],
            Fault::Empty => hours[1] = hours[0],
            Fault::Reversed => hours = [minute + 1, minute],
        }
    }
    let [[f, g], [t, u]] = hours.map(u16::to_be_bytes);
    [ends[0], ends[1], f, g, t, u]
}

/// Something about the schedule goes wrong.
pub fn damage_schedule(rng: &mut Rng, schedule: &mut Vec<u8>) {
    let whole = schedule.len() % RECORD_BYTES == 1;
    match (rng.below(15), schedule.first_mut()) {
        (0..=8, Some(&mut first)) if whole => {
            let faults = &FAULTS[rng.below(3)..];
            spoil(rng, 1, schedule, |rng| faulty(rng, usize::from(first) + 1, faults));
        }
        (9..=11, Some(first)) => *first = rng.next() as u8,
        (12, _) => schedule.clear(),
        _ => cut(rng, RECORD_BYTES, schedule),
    }
}
