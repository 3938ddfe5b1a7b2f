//! Reconciliations with pins: every state of a pair from a table, whole boards pair by pair, and when there is a conflict.

use super::{Board, BOTH};
use crate::calls::Calls;
use crate::plain::packing::{bit, pair_count, pairs, put_bit};
use crate::rng::Rng;
use crate::tuned::BY_ROWS;

const BOARDS: usize = 3_000;
/// The answer where there is no conflict.
const NONE: u64 = 1 << 32;

/// For each state of a pair in mine, in theirs and in the base, 1 being joined, what stands where it is confirmed by
/// nobody, by mine, by theirs, and by both; `!` is a conflict.
const STANDS: [(&str, &str); 8] = [
    ("000", "0000"),
    ("001", "0000"),
    ("010", "1!1!"),
    ("011", "00!!"),
    ("100", "11!!"),
    ("101", "0!0!"),
    ("110", "1111"),
    ("111", "1111"),
];

/// What the editors bring beside mine.
#[derive(Clone)]
struct Brought {
    pins: Vec<u8>,
    theirs: Vec<u8>,
    their_pins: Vec<u8>,
    base: Vec<u8>,
}

impl Brought {
    /// By the table, what stands of a pair where mine has these edges.
    fn stands(&self, mine: &[u8], index: usize) -> char {
        let state = [mine, &self.theirs, &self.base].map(|edges| if bit(edges, index) { '1' } else { '0' });
        let state = String::from_iter(state);
        let (_, outcomes) = STANDS.iter().find(|(key, _)| *key == state).expect("every state is listed");
        let place = usize::from(bit(&self.pins, index)) + 2 * usize::from(bit(&self.their_pins, index));
        outcomes.chars().nth(place).expect("every outcome is listed")
    }

    /// The editor who left a pair as the base has it has confirmed it, the other having left it different.
    fn is_disputed(&self, mine: &[u8], index: usize) -> bool {
        let (mine, theirs, base) = (bit(mine, index), bit(&self.theirs, index), bit(&self.base, index));
        let keeper = if mine == base { &self.pins } else { &self.their_pins };
        mine != theirs && bit(keeper, index)
    }

    fn reconcile(&self, version: &dyn Calls, mine: &mut Board) -> u64 {
        let mut figures = mine.figures();
        let Brought { pins, theirs, their_pins, base } = self;
        let answer =
            version.reconcile_pinned(&mut mine.edges, &mut figures, &mut mine.marks, pins, theirs, their_pins, base);
        mine.put_figures(&figures);
        answer
    }

    fn conflict(&self, version: &dyn Calls, mine: &Board) -> u64 {
        version.conflict(&mine.edges, mine.n as u64, &self.pins, &self.theirs, &self.their_pins, &self.base)
    }
}

fn versions() -> [&'static dyn Calls; 2] {
    [&BOTH[0], &BY_ROWS]
}

/// A buffer of a bit for each pair, of which about so many in a hundred are 1, and any spare bits.
fn random_bits(rng: &mut Rng, n: usize, percent: usize) -> Vec<u8> {
    let mut bits = rng.bytes(pair_count(n).div_ceil(8));
    (0..pair_count(n)).for_each(|index| put_bit(&mut bits, index, rng.chance(percent)));
    bits
}

/// These bits, about so many in a hundred of them the other way, and any spare bits.
fn flipped(rng: &mut Rng, n: usize, bits: &[u8], percent: usize) -> Vec<u8> {
    let mut turned = rng.bytes(bits.len());
    for index in 0..pair_count(n) {
        put_bit(&mut turned, index, bit(bits, index) != rng.chance(percent));
    }
    turned
}

/// A board of mine with false figures and any marks, and what the editors bring.
fn random_board(rng: &mut Rng) -> (Board, Brought) {
    let n = rng.between(1, 12);
    let percent = rng.pick(&[2, 10, 40]);
    let mut mine = Board::with(&BOTH[0], n, &[]);
    let joined = rng.between(10, 90);
    let base = random_bits(rng, n, joined);
    mine.edges = flipped(rng, n, &base, percent);
    mine.marks = rng.bytes(mine.marks.len());
    mine.figures = rng.bytes(8 * n);
    let theirs = flipped(rng, n, &base, percent);
    let [pins, their_pins] = [(); 2].map(|()| {
        let percent = rng.pick(&[0, 3, 30, 100]);
        random_bits(rng, n, percent)
    });
    (mine, Brought { pins, theirs, their_pins, base })
}

/// The board after the single removals and then the single additions that lead to what stands.
fn stepped(mine: &Board, brought: &Brought) -> Board {
    let mut board = mine.clone();
    for (removes, wanted) in [(true, '0'), (false, '1')] {
        for (index, (a, b)) in pairs(mine.n).enumerate() {
            if bit(&mine.edges, index) == removes && brought.stands(&mine.edges, index) == wanted {
                let (a, b) = (a as u64, b as u64);
                let refusal = if removes { board.remove(&BOTH[0], a, b) } else { board.add(&BOTH[0], a, b) };
                assert_eq!(refusal, 0);
            }
        }
    }
    board
}

#[test]
fn every_state_of_a_pair_is_as_in_the_table() {
    for state in 0..32_u8 {
        let [mine, theirs, base, pins, their_pins] = [0, 1, 2, 3, 4].map(|place| vec![(state >> place & 1) << 7]);
        let brought = Brought { pins, theirs, their_pins, base };
        let due = brought.stands(&mine, 0);
        for version in versions() {
            let mut board = Board::with(&BOTH[0], 2, &[]);
            board.edges = mine.clone();
            assert_eq!(brought.conflict(version, &board), if due == '!' { 0 } else { NONE });
            assert_eq!(brought.reconcile(version, &mut board), if due == '!' { 15 } else { 0 });
            let left = if due == '!' { bit(&mine, 0) } else { due == '1' };
            assert_eq!(bit(&board.edges, 0), left, "state {state:05b}");
        }
    }
}

#[test]
fn every_pair_of_a_board_is_as_in_the_table() {
    let mut rng = Rng::new(8);
    let mut accepted = 0;
    for _ in 0..BOARDS {
        let (mine, brought) = random_board(&mut rng);
        let first = (0..pair_count(mine.n)).find(|&index| brought.stands(&mine.edges, index) == '!');
        for version in versions() {
            assert_eq!(brought.conflict(version, &mine), first.map_or(NONE, |index| index as u64));
            let mut board = mine.clone();
            assert_eq!(brought.reconcile(version, &mut board), if first.is_some() { 15 } else { 0 });
            assert_eq!(board, if first.is_some() { mine.clone() } else { stepped(&mine, &brought) });
        }
        accepted += usize::from(first.is_none());
    }
    assert!((BOARDS / 4..BOARDS * 3 / 4).contains(&accepted), "{accepted} of {BOARDS} are accepted");
}

#[test]
fn a_conflict_is_a_pair_that_differs_and_that_the_one_who_kept_it_confirms() {
    let mut rng = Rng::new(9);
    for _ in 0..BOARDS {
        let (mine, brought) = random_board(&mut rng);
        let disputed = (0..pair_count(mine.n)).any(|index| brought.is_disputed(&mine.edges, index));
        for version in versions() {
            assert_eq!(brought.conflict(version, &mine) != NONE, disputed);
            assert_eq!(brought.reconcile(version, &mut mine.clone()) == 15, disputed);
        }
    }
}

#[test]
fn with_nothing_confirmed_it_is_the_reconcile() {
    let mut rng = Rng::new(10);
    for _ in 0..BOARDS {
        let (mine, brought) = random_board(&mut rng);
        let pins = random_bits(&mut rng, mine.n, 0);
        let brought = Brought { pins: pins.clone(), their_pins: pins, ..brought };
        for version in versions() {
            let (mut board, mut other) = (mine.clone(), mine.clone());
            assert_eq!(brought.conflict(version, &board), NONE);
            assert_eq!(brought.reconcile(version, &mut board), 0);
            assert_eq!(other.reconcile(&BOTH[0], &brought.theirs, &brought.base), 0);
            assert_eq!(board, other);
        }
    }
}

#[test]
fn the_editors_may_change_places() {
    let mut rng = Rng::new(11);
    for _ in 0..BOARDS {
        let (mine, brought) = random_board(&mut rng);
        let Brought { pins, theirs, their_pins, base } = brought.clone();
        let other = Board { edges: theirs, ..mine.clone() };
        let exchanged = Brought { pins: their_pins, theirs: mine.edges.clone(), their_pins: pins, base };
        for version in versions() {
            assert_eq!(exchanged.conflict(version, &other), brought.conflict(version, &mine));
            let (mut board, mut mirrored) = (mine.clone(), other.clone());
            let answer = brought.reconcile(version, &mut board);
            assert_eq!(exchanged.reconcile(version, &mut mirrored), answer);
            let same = (0..pair_count(mine.n)).all(|index| bit(&board.edges, index) == bit(&mirrored.edges, index));
            assert!(same || answer == 15);
        }
    }
}
