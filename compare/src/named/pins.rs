//! Reconciliations of four posts in which editors confirm pairs: the links that stand, or the first conflict.

use self::Due::{Conflict, Stands};
use super::{set_spare, Board};
use crate::calls::Calls;
use crate::memory::{Kind, Memory};
use crate::plain::packing::pair_count;

/// The answer where there is no conflict.
pub const NONE: u64 = 1 << 32;

/// What is due: the links that stand, or the bit of the first conflict.
#[derive(Clone, Copy)]
enum Due {
    Stands(u8),
    Conflict(u64),
}

/// A case's name; the links of mine, the pairs that mine confirms, the same of theirs, and the original's links; and what
/// is due. The bits are, in order, the pairs 0–1, 0–2, 1–2, 0–3, 1–3, 2–3, and two spare ones.
type Case = (&'static str, [u8; 5], Due);

const CASES: [Case; 38] = [
    ("spare bits are ignored and stay, whichever are set", [0; 5], Stands(0)),
    ("a link that one removes and nobody confirms goes", [0x80, 0, 0, 0, 0x80], Stands(0)),
    ("a link that one confirms and the other removes is refusal 15", [0x80, 0x80, 0, 0, 0x80], Conflict(0)),
    ("a link that one adds and nobody confirms comes", [0, 0, 0x80, 0, 0], Stands(0x80)),
    ("a link that one confirms as absent and the other adds is refusal 15", [0, 0x80, 0x80, 0, 0], Conflict(0)),
    ("a link that both confirm and leave stays", [0x80, 0x80, 0x80, 0x80, 0x80], Stands(0x80)),
    ("a link that both confirm as absent stays away", [0, 0x80, 0, 0x80, 0], Stands(0)),
    ("a link that one confirms and both leave stays", [0x80, 0x80, 0x80, 0, 0x80], Stands(0x80)),
    ("a link that one confirms as absent and nobody adds stays away", [0, 0x80, 0, 0, 0], Stands(0)),
    ("where nobody has spoken the original stands", [0xA8, 0, 0xA8, 0, 0xA8], Stands(0xA8)),
    ("a link that both add stays", [0x80, 0, 0x80, 0, 0], Stands(0x80)),
    ("a link that both remove stays away", [0, 0, 0, 0, 0x80], Stands(0)),
    ("a link that both add and one confirms stays", [0x80, 0x80, 0x80, 0, 0], Stands(0x80)),
    ("a link that both remove and one confirms as absent stays away", [0, 0x80, 0, 0, 0x80], Stands(0)),
    ("a link that both add and confirm stays", [0x80, 0x80, 0x80, 0x80, 0], Stands(0x80)),
    ("a link that both remove and confirm as absent stays away", [0, 0x80, 0, 0x80, 0x80], Stands(0)),
    ("a link that the one who adds it confirms comes", [0x80, 0x80, 0, 0, 0], Stands(0x80)),
    ("a link that the one who removes it confirms as absent goes", [0, 0x80, 0x80, 0, 0x80], Stands(0)),
    ("a link that one adds and confirms, the other as absent, is refusal 15", [0x80, 0x80, 0, 0x80, 0], Conflict(0)),
    (
        "a link that one removes, and both confirm as they left it, is refusal 15",
        [0, 0x80, 0x80, 0x80, 0x80],
        Conflict(0),
    ),
    ("a link that is confirmed elsewhere does not matter", [0xC0, 0x40, 0x40, 0, 0xC0], Stands(0x40)),
    ("an absent link that is confirmed elsewhere does not matter", [0x80, 0x40, 0, 0, 0x80], Stands(0)),
    ("a link goes where both confirm every other pair", [0xFC, 0x7C, 0x7C, 0x7C, 0xFC], Stands(0x7C)),
    ("a link comes where both confirm every other pair", [0, 0xF8, 0x04, 0xF8, 0], Stands(0x04)),
    // 0–1 is removed and 0–3 added by the one, 1–2 removed and 2–3 added by the other
    ("where each speaks on pairs of its own, each stands", [0x38, 0x08, 0x8C, 0x04, 0xA8], Stands(0x1C)),
    ("where each confirms its own changes, each stands", [0x38, 0x90, 0x8C, 0x24, 0xA8], Stands(0x1C)),
    ("all pairs that both confirm and left alike stand", [0xA4, 0xFC, 0xA4, 0xFC, 0x58], Stands(0xA4)),
    ("all links go where one removes them and confirms that", [0xFC, 0, 0, 0xFC, 0xFC], Stands(0)),
    ("of all pairs, confirmed by both and left different, 0–1 is the first", [0xFC, 0xFC, 0, 0xFC, 0xFC], Conflict(0)),
    ("a conflict on 0–2 is before one on 1–2", [0x60, 0x60, 0, 0, 0x60], Conflict(1)),
    ("a conflict on 1–2 is before one on 0–3", [0x30, 0x30, 0, 0, 0x30], Conflict(2)),
    ("a conflict on 0–3 is the first where 1–2 is not confirmed", [0x30, 0x10, 0, 0, 0x30], Conflict(3)),
    ("a conflict on 1–3 is before one on 2–3", [0x0C, 0x0C, 0, 0, 0x0C], Conflict(4)),
    ("a conflict on the last pair is found", [0x04, 0x04, 0, 0, 0x04], Conflict(5)),
    ("a conflict on 1–2 is before one on 0–3 that the other confirms", [0, 0x10, 0x30, 0x20, 0x20], Conflict(2)),
    (
        "pairs that are confirmed and left alike do not come before a conflict",
        [0xF0, 0xFC, 0xF4, 0xFC, 0xF0],
        Conflict(5),
    ),
    ("changes that would stand are not made beside a conflict", [0xC0, 0x40, 0x3C, 0, 0xC0], Conflict(1)),
    (
        "a pair that both left other than the original is no conflict before one",
        [0x84, 0x84, 0x80, 0xFC, 0x04],
        Conflict(5),
    ),
];

/// The links and the confirmed pairs of mine and of theirs, and the original's links.
pub type Brought = [Vec<u8>; 5];

/// The answers of the reconcile and of the first conflict, and the links that stand where it is accepted.
pub type Answers = (u64, u64, Vec<u8>);

/// Runs both calls on a falsified board; an error where an answer is another, other links are left, or anything alters
/// that should not.
pub fn check(
    version: &dyn Calls,
    n: usize,
    brought: Brought,
    (refusal, conflict, links): Answers,
) -> Result<(), String> {
    let mut board = Board::new(version, n);
    board.falsify();
    let lent = &mut board.lent;
    [lent.edges, lent.pins, lent.theirs, lent.their_pins, lent.base] = brought;
    let before = board.lent.clone();
    let found = board.answer(Kind::Conflict, 0, 0);
    if found != conflict {
        return Err(format!("the first conflict: {found}, due {conflict}"));
    }
    board.lent.difference(&before).map_or(Ok(()), |what| Err(format!("the first conflict alters {what}")))?;
    let found = board.call(Kind::ReconcilePinned, 0, 0);
    if found != refusal {
        return Err(format!("the reconcile is refusal {found}, due {refusal}"));
    }
    let due = if refusal != 0 || links == before.edges {
        before
    } else {
        let (figures, marks) = (board.lent.figures.clone(), board.lent.marks.clone());
        Memory { edges: links, figures, marks, ..before }
    };
    board.lent.difference(&due).map_or(Ok(()), Err)
}

/// A case with these of the five buffers' spare bits set.
fn check_spare(version: &dyn Calls, bytes: [u8; 5], due: Due, set: usize) -> Result<(), String> {
    let mut brought = bytes.map(|byte| vec![byte]);
    let chosen = |place: &usize| set >> place & 1 != 0;
    (0..5).filter(chosen).for_each(|place| set_spare(&mut brought[place], pair_count(4)));
    let due = match due {
        Stands(links) => (0, NONE, vec![links | brought[0][0] & 0x03]),
        Conflict(bit) => (15, bit, vec![]),
    };
    check(version, 4, brought, due)
}

/// Runs every case on a version, with the editors in both places and any spare bits, and prints its name.
pub fn run(version: &dyn Calls) -> Result<(), String> {
    for (name, bytes, due) in CASES {
        let [mine, pins, theirs, their_pins, original] = bytes;
        for bytes in [bytes, [theirs, their_pins, mine, pins, original]] {
            for set in 0..32 {
                check_spare(version, bytes, due, set)
                    .map_err(|what| format!("case `{name}` on {}, {bytes:02x?}: {what}", version.name()))?;
            }
        }
        println!("case on {}: pins: {name}: ok", version.name());
    }
    Ok(())
}
