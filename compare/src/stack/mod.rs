//! How many bytes of stack each call of the library needs: those that it writes below its caller's frame, the return
//! address left out.

mod boards;
mod depth;

use crate::bench::board::Board;
use crate::calls::Calls;
use crate::memory::{Kind, KINDS};
use crate::rng::Rng;
use boards::Boards;

const SIZES: [usize; 4] = [16, 64, 128, 256];
/// The links of a node, where n allows.
const LINKS: [usize; 2] = [4, 40];
/// The boards depend on it alone.
const SEED: u64 = 2005;

/// A call by its name, and the boards on which it is made.
struct Row {
    name: &'static str,
    kind: Kind,
    call: fn(&mut Board, &dyn Calls) -> u64,
    boards: fn(&Boards) -> &[Board],
}

#[rustfmt::skip]
const ROWS: [Row; KINDS.len()] = [
    Row { name: "clear", kind: Kind::Clear, call: Board::clear, boards: |of| &of.whole },
    Row { name: "add", kind: Kind::Add, call: Board::add, boards: |of| &of.absent },
    Row { name: "remove", kind: Kind::Remove, call: Board::remove, boards: |of| &of.joined },
    Row { name: "preview_add", kind: Kind::PreviewAdd, call: Board::preview_add, boards: |of| &of.absent },
    Row { name: "preview_remove", kind: Kind::PreviewRemove, call: Board::preview_remove, boards: |of| &of.joined },
    Row { name: "score", kind: Kind::Score, call: Board::score, boards: |of| &of.whole },
    Row { name: "load", kind: Kind::Load, call: Board::load, boards: |of| &of.whole },
    Row { name: "write", kind: Kind::Write, call: Board::write, boards: |of| &of.whole },
    Row { name: "schedule_write", kind: Kind::ScheduleWrite, call: Board::schedule_write, boards: |of| &of.timed },
    Row { name: "schedule_next", kind: Kind::ScheduleNext, call: Board::schedule_next, boards: |of| &of.timed },
    Row { name: "schedule_load", kind: Kind::ScheduleLoad, call: Board::schedule_load, boards: |of| &of.timed },
    Row { name: "survey_write", kind: Kind::SurveyWrite, call: Board::survey_write, boards: |of| &of.surveyed },
    Row { name: "survey_position", kind: Kind::SurveyPosition, call: Board::survey_position, boards: |of| &of.surveyed },
    Row { name: "reconcile", kind: Kind::Reconcile, call: Board::reconcile, boards: |of| &of.merged },
    Row { name: "reconcile_pinned", kind: Kind::ReconcilePinned, call: Board::reconcile_pinned, boards: |of| &of.pinned },
    Row { name: "conflict", kind: Kind::Conflict, call: Board::conflict, boards: |of| &of.pinned },
    Row { name: "nearest", kind: Kind::Nearest, call: Board::nearest, boards: |of| &of.searched },
    Row { name: "list", kind: Kind::List, call: Board::list, boards: |of| &of.listed },
    Row { name: "list_entries", kind: Kind::ListEntries, call: Board::list_entries, boards: |of| &of.listed },
];

/// Prints the table. `empty` answers every call at once, and is reached as the library is.
pub fn run(library: &dyn Calls, empty: &dyn Calls) -> Result<(), String> {
    println!("bytes of stack that a call needs, the most over its boards");
    print!("{:<17}", "call");
    SIZES.iter().for_each(|n| print!("{:>9}", format!("n = {n}")));
    println!();
    let sizes = SIZES.map(boards_of);
    for row in &ROWS {
        print!("{:<17}", row.name);
        for boards in &sizes {
            let mut most = 0;
            for board in boards.iter().flat_map(row.boards) {
                most = most.max(need(row, board, library, empty)?);
            }
            print!("{most:>9}");
        }
        println!();
    }
    Ok(())
}

/// The boards of n nodes: random ones, and one in which neighbours are mostly joined.
fn boards_of(n: usize) -> Vec<Boards> {
    let mut rng = Rng::new(SEED);
    let random = LINKS.map(|links| Board::random(&mut rng, n, links.min(n - 1)));
    let clustered = Board::clustered(&mut rng, n, LINKS[1].min(n / 2));
    random.iter().chain([&clustered]).map(|board| Boards::of(&mut rng, board)).collect()
}

/// The bytes that a call needs on a board.
fn need(row: &Row, board: &Board, library: &dyn Calls, empty: &dyn Calls) -> Result<usize, String> {
    let mut most = 0;
    for paint in depth::PAINTS {
        let (left, answer) = left(paint, row, board, library);
        let refusal = row.kind.refusal(answer);
        if refusal != 0 {
            return Err(format!("{}, n = {}: refusal {refusal}", row.name, board.n));
        }
        let (all, _) = self::left(paint, row, board, empty);
        most = most.max(all - left);
    }
    Ok(most)
}

/// The painted bytes that a call leaves, and its answer.
fn left(paint: u8, row: &Row, board: &Board, version: &dyn Calls) -> (usize, u64) {
    let mut board = board.clone();
    let mut answer = 0;
    let left = depth::left(paint, &mut || answer = (row.call)(&mut board, version));
    (left, answer)
}
