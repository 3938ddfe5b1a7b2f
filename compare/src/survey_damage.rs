//! Damage to a survey.

use crate::plain::survey::RECORD_BYTES;
use crate::record_damage::{cut, nodes, send_far, spoil};
use crate::rng::Rng;

/// What can be wrong with a record, in the order in which it is tested.
#[derive(Clone, Copy)]
enum Fault {
    Far,
    Same,
}

const FAULTS: [Fault; 2] = [Fault::Far, Fault::Same];

/// A record of a survey of n nodes with one of these faults, or with both; its number and its strength may be any.
fn faulty(rng: &mut Rng, n: usize, faults: &[Fault]) -> [u8; RECORD_BYTES] {
    let mut ends = nodes(rng, n);
    for _ in 0..rng.between(1, 2) {
        match rng.pick(faults) {
            Fault::Far => send_far(rng, n, &mut ends),
            Fault::Same => ends[1] = ends[0],
        }
    }
    let [high, low, strength] = [0; 3].map(|_: u8| rng.next() as u8);
    [ends[0], ends[1], high, low, strength]
}

/// Something about the survey of n nodes goes wrong.
pub fn damage_survey(rng: &mut Rng, n: usize, survey: &mut Vec<u8>) {
    if rng.chance(70) {
        let faults = &FAULTS[rng.below(2)..];
        spoil(rng, 0, survey, |rng| faulty(rng, n, faults));
    } else {
        cut(rng, RECORD_BYTES, survey);
    }
}
